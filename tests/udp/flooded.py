#!/usr/bin/env python3
"""Floods a server over loopback from forged addresses, and counts which clients it serves beside.

    flooded.py PROGRAM [COUNT [RATE]]

PROGRAM is a server over the endpoint (rust/examples/udp_server.rs), best one that is optimized:

    cd target/export && cargo build --release --example udp_server && cd ../..
    tests/udp/flooded.py target/export/target/release/examples/udp_server 1000000

COUNT addresses (1,000,000 unless said) send one unsigned request each, RATE a second (60,000), by
bench/flood.c; and one address of them sends from 1,000 ports all the while. Clients ask meanwhile,
200 of each kind, each from a port of its own, by round trips of 0.6 s: new ones, and such as were
validated before and sign by the nonce that they have; from addresses of their own, and from the
address with the many ports. What is lost they send again, as RFC 8489 has it. Status 1 where one of
them was not served at the first signed request that was answered, or the server took memory.
"""
import heapq
import itertools
import os
import pathlib
import selectors
import socket
import subprocess
import sys
import threading
import time

import harness
from alone import answering
from harness import USER, stun

CLIENTS, ROUND_TRIP, PORTS = 200, 0.6, 1000
FLOODED = "127.16.0.7"
KINDS = ("new", "new behind the flooded address", "old", "old behind the flooded address")


def resident(pid):
    """Resident memory in KiB."""
    status = pathlib.Path(f"/proc/{pid}/status").read_text()
    return int(next(line.split()[1] for line in status.splitlines() if line.startswith("VmRSS")))


def dropped(port):
    """Datagrams that the kernel dropped, since a socket of this port was full."""
    rows = itertools.chain(*(pathlib.Path(f"/proc/net/{name}").read_text().splitlines()[1:]
                             for name in ("udp", "udp6")))
    return sum(int(row.split()[-1]) for row in rows if row.split()[1].endswith(f":{port:04X}"))


class Client:
    """It asks, and once it is challenged it signs; the codes of what it was told are kept."""

    def __init__(self, kind, number, port):
        self.kind, self.codes, self.waits = kind, [], ()
        self.socket = socket.socket(socket.AF_INET, socket.SOCK_DGRAM)
        own = f"127.200.{number // 200}.{number % 200 + 1}"
        self.socket.bind((FLOODED if "behind" in kind else own, 0))
        self.socket.connect(("127.0.0.1", port))
        self.request, self.challenge = stun.message(stun.REQUEST), None

    def begin(self, request):
        self.request, self.waits = request, iter((0.5, 1, 2, 4, 8, 16, 8))

    def read(self):
        """Returns whether it goes on with another request."""
        answer = self.socket.recv(4096)
        if answer[8:20] != self.request[8:20]:
            return False
        self.codes.append(stun.code_of(answer))
        self.waits = ()
        if self.codes[-1] == 401:
            self.challenge = answer
        return self.codes[-1] != 200


class Net:
    """Clients that ask at their times."""

    def __init__(self, clients):
        self.clients, self.events, self.order = clients, [], itertools.count()
        self.selector = selectors.DefaultSelector()
        for client in clients:
            self.selector.register(client.socket, selectors.EVENT_READ, client)

    def at(self, when, what):
        heapq.heappush(self.events, (when, next(self.order), what))

    def ask(self, client, when, request):
        def first():
            client.begin(request)
            send()

        def send():
            if client.request is request:
                wait = next(client.waits, None) if client.waits else None
                if wait is not None:
                    client.socket.send(request)
                    self.at(time.monotonic() + wait, send)

        self.at(when, first)

    def run(self, round_trip):
        """Until nothing is left to be sent."""
        while self.events:
            wait = self.events[0][0] - time.monotonic()
            for key, _ in self.selector.select(max(0, wait)):
                client = key.data
                if client.read() and len(client.codes) < 4:
                    later = time.monotonic() + round_trip
                    self.ask(client, later, answering(client.challenge, stun.SHA256))
            while self.events and self.events[0][0] <= time.monotonic():
                heapq.heappop(self.events)[2]()
            if all(client.codes[-1:] == [200] for client in self.clients):
                return


def flood_from_ports(port, is_over):
    """One address sends from many ports."""
    opened = [socket.socket(socket.AF_INET, socket.SOCK_DGRAM) for _ in range(PORTS)]
    for one in opened:
        one.bind((FLOODED, 0))
        one.connect(("127.0.0.1", port))
    for one in itertools.cycle(opened):
        if is_over.is_set():
            return
        one.send(stun.message(stun.REQUEST))
        time.sleep(0.0005)


def main():
    program = sys.argv[1]
    count = int(sys.argv[2]) if len(sys.argv) > 2 else 1000000
    rate = int(sys.argv[3]) if len(sys.argv) > 3 else 60000
    with harness.scratch() as folder, harness.Server(program, *USER, "--sha256") as server:
        flood = folder / "flood"
        source = harness.TOP / "bench/flood.c"
        subprocess.run([*harness.compiler(), "-O2", source, "-o", flood], check=True)
        clients = [Client(kind, place * CLIENTS + number, server.port)
                   for place, kind in enumerate(KINDS) for number in range(CLIENTS)]
        old = [client for client in clients if client.kind.startswith("old")]
        before = Net(old)
        for number, client in enumerate(old):
            before.ask(client, time.monotonic() + number / 1000, stun.message(stun.REQUEST))
        before.run(0)
        assert all(client.codes == [401, 200] for client in old)
        memory, is_over = resident(server.process.pid), threading.Event()
        beside = threading.Thread(target=flood_from_ports, args=(server.port, is_over))
        beside.start()
        words = [flood, str(server.port), str(count), str(rate)]
        started = subprocess.Popen(words, stdout=subprocess.PIPE, text=True)
        begun, lasts = time.monotonic() + 0.2, max(0.1, count / rate - 1)
        net = Net(clients)
        for number, client in enumerate(clients):
            when = begun + lasts * (number % CLIENTS) / CLIENTS
            client.codes = []
            if client in old:
                net.ask(client, when, answering(client.challenge, stun.SHA256))
            else:
                net.ask(client, when, stun.message(stun.REQUEST))
        net.run(ROUND_TRIP)
        told = started.communicate()[0].split()
        is_over.set()
        beside.join()
        after = resident(server.process.pid)
        served = []
        for kind in KINDS:
            wanted = [200] if kind.startswith("old") else [401, 200]
            served.append(sum(client.codes == wanted for client in clients if client.kind == kind))
        each = ", ".join(f"{number} of {CLIENTS} {kind}" for number, kind in zip(served, KINDS))
        print(f"{told[1]} addresses in {told[3]} s: served {each}; KiB {memory} -> {after}; "
              f"{dropped(server.port)} datagrams dropped by the kernel; "
              f"load average {os.getloadavg()[0]:.1f}")
        return 0 if served == [CLIENTS] * 4 and after < memory + 1024 else 1


if __name__ == "__main__":
    sys.exit(main())
