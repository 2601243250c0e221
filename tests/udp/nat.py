#!/usr/bin/env python3
"""Tries nat_discovery with udp_server through routers that translate addresses in different ways.

    nat.py [--programs FOLDER]

    client: 10.1.0.9 --- router: 192.0.2.1, 192.0.2.2 --- server: 192.0.2.10, 192.0.2.11

All of them are network namespaces, and the router translates by nftables. Run after `make export`
and `cargo build --examples` in target/export, as anybody who may make user and network namespaces;
what is made goes with the process. Where coturn is installed, its turnutils_natdiscovery asks
udp_server too, and nat_discovery asks coturn's server. The last line says what was tried, or what
was left out and why. Status 0 where nothing failed.
"""
import argparse
import os
import pathlib
import shutil
import subprocess
import sys
import time

import harness
from namespaces import OWN, Refused, add_hosts, ip, put, run, within

WORDS = argparse.ArgumentParser()
WORDS.add_argument("--programs", default=harness.TOP / "target/export/target/debug/examples")
WORDS.add_argument("--inside", action="store_true")
CHOSEN = WORDS.parse_args()
SERVER, CLIENT = (pathlib.Path(CHOSEN.programs) / name for name in ("udp_server", "nat_discovery"))
FIRST, SECOND = "192.0.2.10", "192.0.2.11"

# Each NAT: rules of nftables, and the mapping and the filtering that they make. Linux keeps the
# port of a socket where it is free, so that all hosts see the same address, unless it is told to
# choose at random; and it lets in what belongs to a flow that began inside.
NATS = {
    "endpoint-independent, endpoint-independent": """
        chain out { type nat hook postrouting priority 100; oif "wan" snat to 192.0.2.1; }
        chain in { type nat hook prerouting priority -100; iif "wan" dnat to 10.1.0.9; }""",
    "endpoint-independent, address-dependent": """
        set asked { type ipv4_addr . inet_service; flags dynamic; }
        chain seen { type filter hook forward priority 0;
                     iif "lan" add @asked { ip daddr . udp sport }; }
        chain out { type nat hook postrouting priority 100; oif "wan" snat to 192.0.2.1; }
        chain in { type nat hook prerouting priority -100;
                   iif "wan" ip saddr . udp dport @asked dnat to 10.1.0.9; }""",
    "endpoint-independent, address and port-dependent": """
        chain out { type nat hook postrouting priority 100; oif "wan" snat to 192.0.2.1; }""",
    "address-dependent, address and port-dependent": """
        chain out { type nat hook postrouting priority 100;
                    oif "wan" ip daddr 192.0.2.10 snat to 192.0.2.1;
                    oif "wan" snat to 192.0.2.2; }""",
    "address and port-dependent, address and port-dependent": """
        chain out { type nat hook postrouting priority 100;
                    oif "wan" masquerade fully-random; }""",
}
# What turnutils_natdiscovery says of each.
COTURN = {"endpoint-independent": "Endpoint Independent", "address-dependent": "Address Dependent",
          "address and port-dependent": "Address and Port Dependent"}


def lay_out():
    """Makes the namespaces and their links."""
    add_hosts("router", "server")
    ip(None, "link add out type veth peer name lan netns router")
    ip(None, "link set out up", "address add 10.1.0.9/24 dev out")
    ip("router", "link add wan type veth peer name net netns server")
    ip("router", "link set lan up", "address add 10.1.0.1/24 dev lan")
    ip("router", "link set wan up", "address add 192.0.2.1/24 dev wan",
       "address add 192.0.2.2/24 dev wan")
    ip("server", "link set net up", f"address add {FIRST}/24 dev net",
       f"address add {SECOND}/24 dev net")
    ip(None, "route add default via 10.1.0.1")
    put("router", conf__all__forwarding=1)


def route_back(*words):
    """Without a NAT, the server reaches the client by the router."""
    ip("server", f"route {words[0]} 10.1.0.0/24 via 192.0.2.1")


def translate(rules):
    """Puts these rules of nftables in the place of all others."""
    text = "flush ruleset\n" + (f"table ip nat {{ {rules}\n}}\n" if rules else "")
    run(*within("router"), "nft", "-f", "-", text=text)


class Running:
    """A program in the namespace of the server, which is ended at the end."""

    def __init__(self, *words, waits=None):
        self.process = subprocess.Popen([*within("server"), *words], stdout=subprocess.PIPE,
                                        stderr=subprocess.DEVNULL, text=True)
        if waits:
            time.sleep(waits)
        else:
            assert self.process.stdout.readline().startswith("port"), words

    def __enter__(self):
        return self

    def __exit__(self, *_):
        self.process.terminate()
        self.process.wait()


def discovered(*words):
    """The lines of nat_discovery, by their first word."""
    told = subprocess.run([CLIENT, *words, "--within", "1.2"], capture_output=True, text=True,
                          timeout=30)
    assert told.returncode == 0, (told.stdout, told.stderr)
    return {line.split()[0]: line[11:] for line in told.stdout.splitlines()}


def expects(lines, mapping, filtering):
    got = lines["mapping"].split(":")[0], lines["filtering"].split(":")[0]
    assert got == (mapping, filtering), (lines, mapping, filtering)


def asks_coturn_client(mapping, filtering):
    """What turnutils_natdiscovery says, with our server. Its third test of the mapping asks the
    address of OTHER-ADDRESS in the second response, which is the first address again, so it cannot
    find an address-dependent mapping."""
    told = subprocess.run(["turnutils_natdiscovery", "-m", "-f", FIRST], capture_output=True,
                          text=True, timeout=60).stdout
    mapping = mapping.replace("address-dependent", "address and port-dependent")
    for kind, word in (("Mapping", mapping), ("Filtering", filtering)):
        assert f"NAT with {COTURN[word]} {kind}!" in told, (word, kind, told)


def through(name, rules, has_coturn):
    mapping, filtering = name.split(", ")
    translate(rules)
    lines = discovered(FIRST)
    expects(lines, mapping, filtering)
    assert lines["socket"].startswith("10.1.0.9:"), lines
    assert lines["mapped"].startswith("192.0.2."), lines
    if has_coturn:
        asks_coturn_client(mapping, filtering)


def without_nat():
    """The server sees the client's own address, and any of its sockets reaches the client, however
    the server's address is spelled."""
    translate("")
    route_back("add")
    for host in FIRST, f"::ffff:{FIRST}":
        lines = discovered(host)
        expects(lines, "none", "endpoint-independent")
        assert lines["socket"] == lines["mapped"], lines
    route_back("del")


def ends_without_answer():
    """It ends where nobody answers, at a closed port and at an address that nobody has."""
    translate(NATS["endpoint-independent, endpoint-independent"])
    for words in ((FIRST, "9"), ("192.0.2.77",)):
        told = subprocess.run([CLIENT, *words, "--within", "0.6"], capture_output=True, text=True)
        assert told.returncode == 1 and "no answer" in told.stderr, (words, told)


def coturn_server():
    """The words of coturn's server on both addresses."""
    return ("turnserver", "-n", "--no-auth", "-L", FIRST, "-L", SECOND, "--listening-port", "3478",
            "--alt-listening-port", "3479", "--no-tls", "--no-dtls", "--no-cli", "--log-file",
            "stdout", "--pidfile", "/run/turnserver.pid", "--db", "/run/turndb")


def tried():
    has_coturn = all(map(shutil.which, ("turnutils_natdiscovery", "turnserver")))
    with Running(SERVER, "3478", "--at", FIRST, "--other", SECOND):
        without_nat()
        ends_without_answer()
        for name, rules in NATS.items():
            through(name, rules, has_coturn)
    if has_coturn:
        with Running(*coturn_server(), waits=3):
            for name, rules in NATS.items():
                translate(rules)
                expects(discovered(FIRST), *name.split(", "))
    beside = ", coturn's client and coturn's server" if has_coturn else ""
    return f"no NAT and {len(NATS)} kinds of NAT{beside}"


def why_not():
    """Why nothing can be tried here, or None."""
    os.environ["PATH"] += ":/usr/sbin:/sbin"
    for tool in ("unshare", "nsenter", "ip", "nft"):
        if shutil.which(tool) is None:
            return f"no {tool}"
    if not SERVER.exists() or not CLIENT.exists():
        return f"no programs in {SERVER.parent}; run cargo build --examples in target/export"
    may = subprocess.run([*OWN, "true"], capture_output=True, text=True)
    return may.stderr.strip() if may.returncode != 0 else None


def main():
    if not CHOSEN.inside:
        why = why_not()
        if why is not None:
            print(f"nat: left out: {why}")
            return 0
        return subprocess.run([*OWN, sys.executable, sys.argv[0], "--inside",
                               *sys.argv[1:]]).returncode
    harness.end_within(180)
    try:
        lay_out()
        translate("")
    except Refused as why:
        print(f"nat: left out: {why}")
        return 0
    print(f"nat: {tried()}")
    return 0


if __name__ == "__main__":
    sys.exit(main())
