#!/usr/bin/env python3
"""Tries a server that answers by another network than it was asked by, and link-local addresses.

    ways.py [--server PROGRAM].. [--client PROGRAM]..

    client: 10.1.0.9, fd01::9 --- router --+-- 10.2.0.2, fd02::2 --- server, whose way back
                              |            +-- 10.3.0.2, fd03::2 --- is the network 3
                              +--- near1, near2: links to the server, with link-local addresses

It does so in network namespaces. Run after `make -C examples/c udp`, as anybody who may make user
and network namespaces; what is made goes with the process. Programs that are named are tried too,
but for servers by another network, which need not answer from the address that was asked. The last
line says what was tried, or what was left out and why. Status 0 where nothing failed.
"""
import argparse
import socket
import sys
import time

import harness
from harness import stun
from namespaces import CLIENT, SERVER, add_hosts, ip, main, put, within

ASKED = ("10.2.0.2", "10.3.0.2", "fd02::2", "fd03::2")
LINKS = ("near1", "near2")
WORDS = argparse.ArgumentParser()
WORDS.add_argument("--server", action="append", default=[])
WORDS.add_argument("--client", action="append", default=[])
WORDS.add_argument("--inside", action="store_true")
CHOSEN = WORDS.parse_args()


def put_up(name, link, *addresses):
    ip(name, f"link set {link} up", *(f"address add {one} dev {link}" for one in addresses))


def lay_out():
    """Makes the namespaces and their links."""
    add_hosts("router", "server")
    ip(None, "link add out type veth peer name in netns router")
    put_up(None, "out", "10.1.0.9/24", "fd01::9/64")
    put_up("router", "in", "10.1.0.1/24", "fd01::1/64")
    put("router", conf__all__forwarding=1)
    for number in (2, 3):
        ip("router", f"link add to{number} type veth peer name net{number} netns server")
        put_up("router", f"to{number}", f"10.{number}.0.1/24", f"fd0{number}::1/64")
        put_up("server", f"net{number}", f"10.{number}.0.2/24", f"fd0{number}::2/64")
    for near in LINKS:
        ip(None, f"link add {near} type veth peer name {near} netns server")
        put_up(None, near, "fe80::9:9/64")
        put_up("server", near, "fe80::1:2/64")
    ip(None, "route add default via 10.1.0.1", "route add default via fd01::1")
    ip("server", "route add default via 10.3.0.1", "route add default via fd03::1")
    until_up()


def until_up():
    """Links and the addresses of both families are there a moment after they were made."""
    end = time.monotonic() + 10
    while time.monotonic() < end:
        try:
            for host in ASKED:
                family = socket.AF_INET6 if ":" in host else socket.AF_INET
                with socket.socket(family, socket.SOCK_DGRAM) as one:
                    one.connect((host, 9))
            return
        except OSError:
            time.sleep(0.05)


def answers_by_another_network(words):
    """Each of its addresses answers, whatever way the answer goes."""
    with harness.Server(SERVER, *words, within=within("server")) as running:
        for host in ASKED:
            with harness.Peer(running.port, host) as peer:
                peer.socket.settimeout(3)
                answer = peer.ask(stun.message(stun.REQUEST))
                assert stun.code_of(answer) == (401 if words else 200), host
            asked = harness.ask(CLIENT, host, running.port, *words[1:], within="10")
            assert asked.status == 0, (host, asked)


def meets_near(server, client, words):
    """A client is told its link-local address on each link, by a server of one address on both."""
    with harness.Server(server, *words, within=within("server")) as running:
        for near in LINKS:
            asked = harness.ask(client, f"fe80::1:2%{near}", running.port, *words[1:], within="10")
            is_told = asked.status == 0 and asked.out.startswith("[fe80::")
            assert is_told, (server, client, near, asked)


def hears_of_errors(client):
    """A closed port ends a client at once. That a host is not reached may pass, so it waits on."""
    begun = time.monotonic()
    harness.fails(harness.ask(client, "10.2.0.2", 9, within="10"), "no answer")
    assert time.monotonic() - begun < 5, "it waited on"
    ip("router", "route add unreachable 10.9.0.0/16")
    begun = time.monotonic()
    harness.fails(harness.ask(client, "10.9.0.1", 9, within="1.5"), "no answer")
    ip("router", "route del unreachable 10.9.0.0/16")
    assert time.monotonic() - begun > 1.4, "it gave up"


def tried():
    for words in ((), harness.USER):
        answers_by_another_network(words)
    servers, clients = [SERVER, *CHOSEN.server], [CLIENT, *CHOSEN.client]
    for client in clients:
        hears_of_errors(client)
        for server in servers:
            for words in ((), harness.USER):
                meets_near(server, client, words)
    told = f"{len(ASKED)} addresses answered by another network, {len(LINKS)} link-local ones"
    return f"{told}, {len(servers)} servers and {len(clients)} clients"


if __name__ == "__main__":
    sys.exit(main("ways", 60, lay_out, tried))
