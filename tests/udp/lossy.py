#!/usr/bin/env python3
"""Has clients and servers meet over links that lose, double and reorder datagrams, without a
kernel's help.

    lossy.py [--server PROGRAM].. [--client PROGRAM].. [SEED]

A link is a relay of one client. By its seed it decides for the nth datagram of each direction
whether that is lost (20 or 40 of 100), whether it is doubled (25 of 100), and for how long each
copy waits (up to 80 ms, so they overtake each other). So a link does the same each time, as far as
the programs send the same. The programs of examples/c/out and those that are named are tried:
udp_client at each server, without a user and with one, and turn_client, `many` and turn_server, if
they are beside a client that is named. All clients run at the same time, and have 45 seconds.

Each client must be served, or have sent a request seven times (RFC 8489, section 6.2.1) without
that a response came through: at 40 % loss that happens to some three of 100 requests. Five of six
clients must be served. The last line counts. The seed is 1 unless given.
"""
import argparse
import collections
import concurrent.futures
import heapq
import pathlib
import random
import select
import socket
import subprocess
import sys
import threading
import time

import harness
from harness import NAME, PASSWORD, REALM, USER, Server, scaled

IN_C = harness.TOP / "examples/c/out"
DOUBLED, LONGEST_DELAY, WITHIN, TRANSMISSIONS = 0.25, 0.08, 45, 7
PEER = "127.0.0.2"  # turn_server relays to it, since that is no address of its own


class Link:
    """Passes datagrams of one client on to a server and back, as its seed says."""

    def __init__(self, port, loss, seed):
        self.loss, self.seed, self.client = loss, seed, None
        self.target = ("127.0.0.1", port)
        self.sockets = [socket.socket(socket.AF_INET, socket.SOCK_DGRAM) for _ in range(2)]
        for one in self.sockets:
            one.bind(("127.0.0.1", 0))
        self.port, self.seen = self.sockets[0].getsockname()[1], [0, 0]
        self.waiting, self.counts = [], dict.fromkeys(("sent", "lost", "doubled", "overtook"), 0)
        self.last, self.is_over = [0, 0], threading.Event()
        self.requests, self.responses = collections.Counter(), set()  # by transaction ID
        self.thread = threading.Thread(target=self.pass_on, daemon=True)
        self.thread.start()

    def delays(self, direction):
        """For how long each copy of the next datagram waits; none if it is lost."""
        self.seen[direction] += 1
        chance = random.Random(f"{self.seed} {direction} {self.seen[direction]}")
        self.counts["sent"] += 1
        if chance.random() < self.loss:
            self.counts["lost"] += 1
            return []
        copies = 1 + (chance.random() < DOUBLED)
        self.counts["doubled"] += copies - 1
        return [chance.random() * LONGEST_DELAY for _ in range(copies)]

    def pass_on(self):
        while not self.is_over.is_set():
            wait = max(0, self.waiting[0][0] - time.monotonic()) if self.waiting else 0.05
            for ready in select.select(self.sockets, [], [], min(wait, 0.05))[0]:
                data, peer = ready.recvfrom(4096)
                direction = self.sockets.index(ready)
                if direction == 0:
                    self.client = peer
                    is_request = data[0] < 0x40 and not (data[0] & 1 or data[1] & 0x10)
                    self.requests[data[8:20]] += is_request
                for delay in self.delays(direction):
                    due = time.monotonic() + delay
                    heapq.heappush(self.waiting, (due, self.seen[direction], direction, data))
            while self.waiting and self.waiting[0][0] <= time.monotonic():
                _, number, direction, data = heapq.heappop(self.waiting)
                self.counts["overtook"] += number < self.last[direction]
                self.last[direction] = max(number, self.last[direction])
                if direction == 1:
                    self.responses.add(data[8:20])
                to = self.target if direction == 0 else self.client
                self.sockets[1 - direction].sendto(data, to)

    def unanswered(self):
        """How many requests were sent as often as may be, and no response came through."""
        return sum(times >= TRANSMISSIONS and one not in self.responses
                   for one, times in self.requests.items())

    def __enter__(self):
        return self

    def __exit__(self, *_):
        self.is_over.set()
        self.thread.join(scaled(10))
        for one in self.sockets:
            one.close()


class GaveUp(Exception):
    """A client sent a request as often as it may, or had no time left."""


def asks(link, client, *words):
    begun = time.monotonic()
    run = subprocess.run([client, "127.0.0.1", str(link.port), *words, "--within", str(WITHIN)],
                         capture_output=True, text=True, timeout=scaled(60))
    is_late = time.monotonic() - begun >= WITHIN
    if run.returncode == 1 and "no answer" in run.stderr and (is_late or link.unanswered()):
        raise GaveUp
    return run.returncode, run.stdout, run.stderr


def is_served(link, client, *words):
    """udp_client prints the address of the link."""
    host, port = link.sockets[1].getsockname()
    found = asks(link, client, *words)
    assert found == (0, f"{host}:{port}\n", ""), found


def is_relayed(link, client, peer):
    """turn_client has data come back by an indication and on a channel, and ends its allocation."""
    found = asks(link, client, NAME, PASSWORD, PEER, str(peer))
    assert found[0] == 0 and found[1].count("came back") == 2, found
    assert found[1].endswith("ended\n") and not found[2], found


def is_refused(link, client):
    """turn_client at udp_server is refused by a signed 420."""
    found = asks(link, client, NAME, PASSWORD, PEER, "9")
    assert found[0] == 1 and found[2].startswith("Allocate: refused 420"), found


def are_served(link, many, *words):
    """Each of 100 requests of 20 threads through one socket is answered, or came to its end."""
    run = subprocess.run([many, "127.0.0.1", str(link.port), "20", "5", *words],
                         capture_output=True, text=True, timeout=scaled(60))
    wanted = 100 - link.unanswered()
    assert run.stdout.startswith(f"answered {wanted} of 100") and wanted > 95, (wanted, run)


def echo(stopped):
    """A socket that sends back what arrives. Returns its port."""
    peer = socket.socket(socket.AF_INET, socket.SOCK_DGRAM)
    peer.bind((PEER, 0))
    peer.settimeout(0.2)

    def answer():
        while not stopped.is_set():
            try:
                data, source = peer.recvfrom(4096)
                peer.sendto(data, source)
            except TimeoutError:
                pass

    threading.Thread(target=answer, daemon=True).start()
    return peer.getsockname()[1]


def cases(servers, clients, held, stopped):
    """Each case: its server's label and port, the loss, and what its client does over the link."""
    start = lambda one, *words: (label(one), held.enter_context(Server(one, *words)).port)
    open_, users = ([start(one, *words) for one in servers] for words in ((), (*USER, "--sha256")))
    turn, beside = [], lambda one, name: pathlib.Path(one).parent / name
    for one in clients:
        if beside(one, "turn_server").exists():
            words = (REALM, NAME, PASSWORD, "--relay", "127.0.0.1", "--allow", "127.0.0.0/8",
                     "--of-a-user", "100")
            turn = [start(beside(one, "turn_server"), *words)]
    refusing = [start(one, *USER, "--any-method") for one in servers
                if pathlib.Path(one).parent == IN_C]
    peer = echo(stopped) if turn else None
    for loss in 0.2, 0.4:
        for one in clients:
            for ports, words in ((open_, ()), (users, (NAME, PASSWORD)),
                                 (users, (NAME, PASSWORD, "--sha256"))):
                for port in ports:
                    yield port, loss, is_served, one, *words
            if beside(one, "turn_client").exists():
                for port in turn:
                    yield port, loss, is_relayed, beside(one, "turn_client"), peer
                for port in refusing:
                    yield port, loss, is_refused, beside(one, "turn_client")
            if beside(one, "many").exists() and loss == 0.2:
                for port in open_:
                    yield port, loss, are_served, beside(one, "many")
                for port in users:
                    yield port, loss, are_served, beside(one, "many"), NAME, PASSWORD


def label(program):
    """Whether it is in C, and the name of a program."""
    program = pathlib.Path(program)
    return ("C " if program.parent == IN_C else "") + program.name


def tried(case, seed):
    """What the link of a case did, whether the client was served, and why the case failed."""
    (server, port), loss, run, client, *words = case
    # It does not depend on which other programs are there.
    named = [label(client), server, *(word for word in words if isinstance(word, str))]
    with Link(port, loss, f"{seed} {loss} {' '.join(named)}") as link:
        try:
            run(link, client, *words)
        except GaveUp:
            return link.counts, False, None
        except Exception as error:
            return link.counts, False, f"{link.seed}: {type(error).__name__}: {error}"
        return link.counts, True, None


def main():
    words = argparse.ArgumentParser()
    words.add_argument("--server", action="append", default=[])
    words.add_argument("--client", action="append", default=[])
    words.add_argument("seed", nargs="?", type=int, default=1)
    chosen = words.parse_args()
    servers, clients = (
        [str(one) for one in [IN_C / name] if one.is_file()] + named
        for name, named in (("udp_server", chosen.server), ("udp_client", chosen.client)))
    harness.end_within(100)
    begun, stopped = time.monotonic(), threading.Event()
    with harness.contextlib.ExitStack() as held:
        held.callback(stopped.set)
        every = list(cases(servers, clients, held, stopped))
        with concurrent.futures.ThreadPoolExecutor(len(every) or 1) as pool:
            results = list(pool.map(tried, every, [chosen.seed] * len(every)))
    failed = [error for _, _, error in results if error]
    for error in failed:
        print(f"lossy: {error}", file=sys.stderr)
    served = sum(is_served for _, is_served, _ in results)
    sent, lost, doubled, overtook = (sum(counts[name] for counts, *_ in results)
                                     for name in ("sent", "lost", "doubled", "overtook"))
    print(f"lossy: {served} of {len(results)} clients served and {len(failed)} failed in "
          f"{time.monotonic() - begun:.0f} s, over links of 20 and 40 % loss: {sent} datagrams, "
          f"{lost} lost, {doubled} doubled, {overtook} overtaken")
    return 1 if failed or served < len(results) * 5 / 6 else 0


if __name__ == "__main__":
    sys.exit(main())
