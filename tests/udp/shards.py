#!/usr/bin/env python3
"""Tries three servers behind one address, to which two routers deal by source address: shards.py

All of them are network namespaces.

    clients: 10.1.0.0/16, fd01::/64 --+-- router a --+-- server 1, server 2, server 3:
                                      +-- router b --+   each has 10.9.9.9 and fd09::9

The routers are told the same: by equal routes (ECMP) with a hash of the source, and then by
nftables (`jhash ip saddr`). They leave addresses as they are and keep nothing. Each address must be
one server's, through either router, and must be answered as one server alone would answer. Run
after `make -C examples/c udp`, as anybody who may make user and network namespaces; what is made
goes with the process. The last line says what was tried, or what was left out and why. Status 0
where nothing failed.
"""
import collections
import contextlib
import pathlib
import signal
import socket
import subprocess
import sys
import time

import harness
from harness import stun
from namespaces import CLIENT, SERVER, Refused, add_hosts, ip, main, put, run, within

SERVICES = ["10.9.9.9", "fd09::9"]
SERVERS, ROUTERS = (1, 2, 3), {"a": 1, "b": 2}
# Without users, with users, and with users and both algorithms.
OPEN, USERS, BOTH = 3478, 3479, 3480
WORDS = {OPEN: (), USERS: harness.USER, BOTH: (*harness.USER, "--sha256")}
ALGORITHMS = {USERS: stun.SHA1, BOTH: stun.SHA256}
FIRST = [*(f"10.1.{number % 7}.{number + 1}" for number in range(30)),
         *(f"fd01::1:{number:x}" for number in range(30))]
LATER = [*(f"10.1.{number % 5 + 100}.{number + 1}" for number in range(30)),
         *(f"fd01::2:{number:x}" for number in range(30))]


# ---- The network


def lay_out():
    """Makes all namespaces and their links; the servers, the routers and the clients then reach
    each other."""
    hosts = {**{f"s{one}": one for one in SERVERS},
             **{router: 100 + number for router, number in ROUTERS.items()}}
    add_hosts("lan", *hosts)
    ip(None, *(f"address add {source} dev lo" for source in FIRST + LATER))
    ip("lan", "link add lan type bridge", "link set lan up")
    for name, host in hosts.items():
        ip("lan", f"link add to-{name} type veth peer name lan netns {name}",
           f"link set to-{name} master lan up")
        ip(name, f"address add 10.2.0.{host}/24 dev lan", f"address add fd02::{host}/64 dev lan",
           "link set lan up")
    for one in SERVERS:
        ip(f"s{one}", *(f"address add {service} dev lo" for service in SERVICES),
           "route add default via 10.2.0.101", "route add default via fd02::101")
    for router, number in ROUTERS.items():
        ip(None, f"link add to-{router} type veth peer name out netns {router}",
           f"link set to-{router} up", f"address add 10.3.{number}.1/24 dev to-{router}",
           f"address add fd03:{number}::1/64 dev to-{router}")
        ip(router, f"address add 10.3.{number}.2/24 dev out",
           f"address add fd03:{number}::2/64 dev out", "link set out up",
           f"route add 10.1.0.0/16 via 10.3.{number}.1",
           f"route add fd01::/64 via fd03:{number}::1",
           *(f"route add {service} via {server(service, one)} table {one}" for one in SERVERS
             for service in SERVICES))
        for family in ("-4", "-6"):
            ip(router, *(f"rule add fwmark {one} lookup {one}" for one in SERVERS), family=[family])
        put(router, conf__all__forwarding=1)


def server(service, number):
    """A server's own address, of the family of the service's."""
    return f"fd02::{number}" if ":" in service else f"10.2.0.{number}"


def service_for(source):
    return SERVICES[":" in source]


def through(router, source=None):
    """Clients send through a router, and from an address where they chose none."""
    number = ROUTERS[router]
    for service, gate in zip(SERVICES, (f"10.3.{number}.2", f"fd03:{number}::2")):
        has_source = source and service_for(source) == service
        ip(None, f"route replace {service} via {gate}" + (f" src {source}" if has_source else ""))


def clear(router):
    for family, service in zip(("-4", "-6"), SERVICES):
        ip(router, f"route flush {service}", family=[family])


def by_routes(router, servers):
    """Equal routes by a hash of the source address alone: policy 3 with field 1. The same seed
    makes routers agree."""
    clear(router)
    put(router, fib_multipath_hash_policy=3, fib_multipath_hash_fields=1,
        fib_multipath_hash_seed=8489)
    for service in SERVICES:
        hops = " ".join(f"nexthop via {server(service, one)}" for one in servers)
        ip(router, f"route add {service} {hops}")


def by_nftables(router, servers):
    """A mark that is a hash of the source address chooses the route."""
    clear(router)
    mark = "meta mark set jhash {0} saddr mod {1} seed 8489 offset 1"
    rules = (f"{family} daddr {service} {mark.format(family, len(servers))}" for family,
             service in zip(("ip", "ip6"), SERVICES))
    chain = ("chain deal {", "type filter hook prerouting priority mangle", *rules, "}")
    run(*within(router), "nft", "-f", "-",
        text="\n".join(("flush ruleset", "table inet deal {", *chain, "}", "")))


def to_one(router, servers):
    ip(router,
       *(f"route replace {service} via {server(service, servers[0])}" for service in SERVICES))


# ---- What clients meet


class Client(harness.Peer):
    """A socket at an address of its own."""

    def __init__(self, source, port):
        super().__init__(port, service_for(source))
        self.socket.bind((source, 0))
        self.port, self.algorithm, self.challenge = port, ALGORITHMS.get(port), None

    def begins(self):
        """A request without a signature: its code."""
        self.challenge = self.ask(stun.message(stun.REQUEST))
        code = stun.code_of(self.challenge)
        self.is_told(self.challenge, code)
        return code

    def is_told(self, answer, code):
        """A success tells the client its own address, whatever is on the way."""
        source, port = self.socket.getsockname()[:2]
        told = (socket.inet_pton(self.socket.family, source), port)
        if code == 200:
            mapped = stun.mapped_address(answer)
            assert mapped == told, f"{source} was told {mapped}"

    def persists(self, challenge):
        """Answers a challenge, and each that follows, up to a success: the codes on the way."""
        codes = []
        while len(codes) < 4:
            answer = self.ask(stun.answered(stun.REQUEST, challenge, harness.NAME, harness.REALM,
                                            harness.PASSWORD, self.algorithm))
            codes.append(stun.code_of(answer))
            self.is_told(answer, codes[-1])
            if codes[-1] == 200:
                key = stun.key_of(self.algorithm, harness.NAME, harness.REALM, harness.PASSWORD)
                assert stun.verifies(answer, self.algorithm, key), "a success that nobody signed"
                return codes
            fresh = stun.value_of(answer, stun.NONCE)
            is_fresh = fresh is not None and fresh != stun.value_of(challenge, stun.NONCE)
            assert is_fresh, f"{codes} without a fresh nonce"
            challenge = answer
        raise AssertionError(f"no success after {codes}")


def meetings():
    """What each address is answered, where it asks through one router, then through the other, and
    then has moved."""
    through("a")
    clients = [Client(source, port) for port in WORDS for source in FIRST]
    told = [(client.port, client.begins()) for client in clients]
    through("b")
    known = [client for client in clients if client.algorithm]
    told += [(client.port, *client.persists(client.challenge)) for client in known]
    for client, source in zip(known, 2 * LATER):
        with Client(source, client.port) as moved:
            told.append((client.port, *moved.persists(client.challenge)))
    return known, told


EXPECTED = {(OPEN, 200), (USERS, 401), (BOTH, 401), (USERS, 200), (BOTH, 200), (USERS, 438, 200),
            (BOTH, 438, 200)}


def homes(servers):
    """At which servers each address was, by what the servers printed."""
    found = collections.defaultdict(set)
    for (one, _), running in servers.items():
        for line in running.lines[1:]:
            found[line.split()[0].rsplit(":", 1)[0].strip("[]")].add(one)
    return found


def is_at(line, source):
    """Whether a line begins with an address and a port."""
    return line.startswith((f"{source}:", f"[{source}]:"))


def waits_at(server):
    """Whether a datagram waits at a stopped server, at a socket of IPv4 or of IPv6."""
    tables = (pathlib.Path(f"/proc/{server.process.pid}/net/{name}") for name in ("udp", "udp6"))
    lines = [line for table in tables for line in table.read_text().splitlines()[1:]]
    queues = [fields[4].split(":")[1] for fields in map(str.split, lines)
              if fields[1].endswith(f":{USERS:04X}")]
    return any(int(queue, 16) for queue in queues)


def until(condition, what):
    end = time.monotonic() + 10
    while not condition():
        assert time.monotonic() < end, what
        time.sleep(0.01)


def moves_in_mid_meeting(servers, old):
    """udp_client asks one server, and is at another address, which is another server's, when the
    challenge comes."""
    home = homes(servers)
    new = next(source for source in LATER
               if home[source] != home[old] and service_for(source) == service_for(old))
    first, second = (servers[min(home[source]), USERS] for source in (old, new))
    seen = len(second.lines)
    through("a", old)
    first.process.send_signal(signal.SIGSTOP)
    client = subprocess.Popen([CLIENT, service_for(old), str(USERS), harness.NAME, harness.PASSWORD,
                               "--within", "20"],
                              stdout=subprocess.PIPE, stderr=subprocess.PIPE, text=True)
    try:
        until(lambda: waits_at(first), "the first request did not come")
        through("a", new)
    finally:
        first.process.send_signal(signal.SIGCONT)
    out, err = client.communicate(timeout=30)
    assert client.returncode == 0 and is_at(out, new), (out, err)
    lines = lambda: [line for line in second.lines[seen:] if is_at(line, new)]
    until(lambda: any(line.endswith(f" 200 SHA1 {harness.NAME}") for line in lines()),
          "no success was printed")
    codes = [line.split()[1] for line in lines()]
    assert codes[0] in ("401", "438") and codes[-1] == "200", codes


def programs_ask():
    """udp_client from several addresses, with credentials and without."""
    for source in FIRST[::10]:
        through("b", source)
        user = (harness.NAME, harness.PASSWORD)
        for port, words in ((OPEN, ()), (USERS, user), (BOTH, (*user, "--sha256"))):
            asked = harness.ask(CLIENT, service_for(source), port, *words)
            assert asked.status == 0 and is_at(asked.out, source), asked
        harness.fails(harness.ask(CLIENT, service_for(source), USERS), "refused 401")


def each_has_one(servers):
    """Each address is one server's, whatever its port, and each server has some of each family."""
    until(lambda: len(homes(servers)) == len(FIRST + LATER), "not all addresses were printed")
    found = homes(servers)
    strays = {source: at for source, at in found.items() if len(at) != 1}
    assert not strays, f"addresses at more than one server: {strays}"
    assert len({(min(at), service_for(source)) for source,
                at in found.items()}) == len(SERVERS) * len(SERVICES), found


def one_goes(deal, known):
    """The last server is dealt nothing more: an address that moves is challenged once, and the
    others are not."""
    for router in ROUTERS:
        deal(router, SERVERS[:-1])
    told = {(client.port, *client.persists(client.challenge)) for client in known}
    assert told <= EXPECTED and {(USERS, 438, 200), (USERS, 200)} <= told, told


def tried(deal):
    """What each address was answered, where the routers deal in this way."""
    with contextlib.ExitStack() as running:
        start = lambda one, port: harness.Server(SERVER, *WORDS[port], "-v", port=port,
                                                 within=within(f"s{one}"))
        servers = {(one, port): running.enter_context(start(one, port)) for one in SERVERS
                   for port in WORDS}
        known, told = meetings()
        if deal is not to_one:
            each_has_one(servers)
            programs_ask()
            for service in SERVICES:
                moves_in_mid_meeting(servers, next(source for source in FIRST
                                                   if service_for(source) == service))
            one_goes(deal, known)
        return told


def all_deals():
    """What was tried of each deal, or why not."""
    told, left_out = {}, []
    for name, deal in (("one server alone", to_one), ("equal routes", by_routes),
                       ("nftables", by_nftables)):
        try:
            for router in ROUTERS:
                deal(router, SERVERS)
        except Refused as why:
            left_out.append(f"; left out: {name}: {why}")
            continue
        told[name] = tried(deal)
    alone = told.pop("one server alone")
    assert set(alone) == EXPECTED, set(alone) ^ EXPECTED
    for name, codes in told.items():
        assert codes == alone, f"{name}: not the codes of one server alone"
    ways = " and by ".join(told) or "nothing"
    return f"{len(SERVERS)} servers behind one address, dealt to by {ways}" + "".join(left_out)


if __name__ == "__main__":
    sys.exit(main("shards", 60, lay_out, all_deals))
