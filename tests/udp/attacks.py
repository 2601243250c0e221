#!/usr/bin/env python3
"""Attacks UDP servers in a network namespace of its own, and prints a Markdown table of the clients
that they served meanwhile.

    attacks.py [PROGRAM].. [--seconds N]

A PROGRAM takes the arguments of examples/c/udp_server.c, which is attacked if none is named. Each
flood lasts N seconds (3 unless given). During the flood, new clients send requests one after
another, each from an address of its own. Each has 1 s for a challenge and a success, and
retransmits as RFC 8489 says. Then come jumps of the clock, stops, restarts and limits. The status
is 0 if all clients were served and the server needed at most 1 MiB for that. It needs `unshare` and
`ip`.
"""
import contextlib
import itertools
import os
import pathlib
import random
import shutil
import signal
import socket
import struct
import subprocess
import sys
import time

import harness
from alone import answering
from harness import NAME, USER, Server, stun

FREEBIND, PKTINFO4, PKTINFO6 = 78, 8, 50  # numbers of Linux that Python 3.9 does not have
RATE, WITHIN, MOST_MEMORY = 20000, 1.0, 1024
FAILED = []


# ---- Floods. Each has the next source, or None for its own, and the next datagram


def four(number):
    return (0x7F100000 + number % (1 << 20)).to_bytes(4, "big")


def one_network(number):
    return bytes.fromhex("fd00000000000001") + number.to_bytes(8, "big")


def many_networks(number):
    return bytes.fromhex("fd00") + number.to_bytes(6, "big") + bytes(7) + b"\1"


def plain(_):
    return stun.message(stun.REQUEST)


def noise(_):
    return os.urandom(random.randrange(200))


def random_attributes(_):
    body = b"".join(stun.attribute(random.randrange(1 << 16), os.urandom(random.randrange(40)))
                    for _ in range(random.randrange(8)))
    return stun.stating(stun.message(stun.REQUEST), len(body)) + body


def lying_length(_):
    return stun.stating(stun.message(stun.REQUEST) + os.urandom(40), random.randrange(1 << 16))


def invented(_):
    """Well formed, with an invented nonce and an invented signature."""
    named = [(stun.USERNAME, NAME.encode()), (stun.REALM, b"example.org"),
             (stun.NONCE, b"obMatJos2" + os.urandom(9).hex().encode())]
    return stun.signed(stun.message(stun.REQUEST, named), stun.SHA1, b"any")


def long(_):
    return stun.message(stun.REQUEST, [(0x8022, bytes(1376))])


def indication(_):
    return stun.message(stun.INDICATION)


FLOODS = {
    "requests from forged IPv4 sources": (four, plain),
    "requests from one IPv6 /64": (one_network, plain),
    "requests from an IPv6 /16": (many_networks, plain),
    "0 to 200 random bytes": (None, noise),
    "random attributes": (None, random_attributes),
    "lengths that are not true": (None, lying_length),
    "invented nonces and signatures": (None, invented),
    "1,400 bytes": (None, long),
    "indications": (None, indication),
}


def flood(name, port, seconds):
    """Sends RATE a second at most, and prints how many it sent. What is answered is not read."""
    source, content = FLOODS[name]
    is_six = source in (one_network, many_networks)
    out = socket.socket(socket.AF_INET6 if is_six else socket.AF_INET, socket.SOCK_DGRAM)
    out.setsockopt(socket.SOL_SOCKET, socket.SO_RCVBUF, 0)
    level, kind = (socket.IPPROTO_IPV6, PKTINFO6) if is_six else (socket.IPPROTO_IP, PKTINFO4)
    if is_six:
        out.setsockopt(level, FREEBIND, 1)
    pack = (lambda one: one + bytes(4)) if is_six else (lambda one: bytes(4) + one + bytes(4))
    to, begun, sent = ("::1" if is_six else "127.0.0.1", port), time.monotonic(), 0
    pool = [content(number) for number in range(2000)]
    while (now := time.monotonic() - begun) < seconds:
        if sent > now * RATE:
            time.sleep(0.001)
            continue
        beside = [(level, kind, pack(source(sent)))] if source else []
        out.sendmsg([pool[sent % len(pool)]], beside, 0, to)
        sent += 1
    print(sent)


# ---- Clients


def patient(peer, request, until):
    """The answer to a request, which is sent again after 0.5 s; or None."""
    while (left := until - time.monotonic()) > 0:
        peer.socket.settimeout(min(0.5, left))
        with contextlib.suppress(TimeoutError, ConnectionRefusedError):
            return peer.ask(request)
    return None


NUMBERS = itertools.count()


def is_served(port):
    """Whether a new client is challenged and then served, within a second."""
    number, until = next(NUMBERS), time.monotonic() + WITHIN
    here = f"127.200.{number // 250}.{number % 250 + 1}"
    with harness.Peer(port, here=here) as peer:
        challenge = patient(peer, stun.message(stun.REQUEST), until)
        answer = challenge and patient(peer, answering(challenge, stun.SHA256), until)
        return bool(answer) and stun.code_of(answer) == 200


def resident(pid):
    """Resident KiB that no file has."""
    status = pathlib.Path(f"/proc/{pid}/status").read_text()
    return next(int(line.split()[1]) for line in status.splitlines() if line.startswith("RssAnon"))


def row(what, served, asked, more=""):
    is_right = served == asked and asked > 0 and "FAILED" not in more
    if not is_right:
        FAILED.append(what)
    print(f"| {what} | {served} of {asked} | {more} |", flush=True)


# ---- Rows


def flooded(program, name, seconds):
    with Server(program, *USER, "--sha256") as server:
        assert is_served(server.port)
        memory = resident(server.process.pid)
        words = [sys.executable, __file__, "--flood", name, str(server.port), str(seconds)]
        started = subprocess.Popen(words, stdout=subprocess.PIPE, text=True)
        served = []
        time.sleep(0.3)
        while started.poll() is None:
            served.append(is_served(server.port))
            time.sleep(0.02)
        sent, after = int(started.communicate()[0]), resident(server.process.pid)
        grown = "FAILED: " if after > memory + MOST_MEMORY else ""
        row(name, sum(served), len(served),
            f"{sent / seconds:,.0f} a second; {grown}KiB {memory:,} → {after:,}")


def stopped(program):
    """What arrives while the server is stopped is answered when it goes on, or dropped."""
    with Server(program, *USER, "--sha256") as server:
        words = [sys.executable, __file__, "--flood", "requests from forged IPv4 sources",
                 str(server.port), "3"]
        started = subprocess.Popen(words, stdout=subprocess.PIPE)
        server.process.send_signal(signal.SIGSTOP)
        time.sleep(2)
        server.process.send_signal(signal.SIGCONT)
        time.sleep(0.1)
        served = [is_served(server.port) for _ in range(20)]
        started.communicate()
        row("stopped for 2 s under a flood", sum(served), 20)


def restarted(program, folder):
    """A server that starts again with its secret serves its old clients at once, and new ones."""
    secret = folder / "secret"
    secret.write_bytes(os.urandom(32))
    words = (*USER, "--sha256", "--secret", str(secret))
    with contextlib.ExitStack() as stack:
        with Server(program, *words) as first:
            peers = [stack.enter_context(harness.Peer(first.port)) for _ in range(20)]
            challenges = [peer.ask(stun.message(stun.REQUEST)) for peer in peers]
        with Server(program, *words, port=first.port) as second:
            old = [stun.code_of(peer.ask(answering(challenge, stun.SHA256))) == 200
                   for peer, challenge in zip(peers, challenges)]
            new = [is_served(second.port) for _ in range(20)]
            row("restarted with its secret", sum(old) + sum(new), 40, "20 old and 20 new clients")


CLOCKS = {"two hours ahead": 7200, "an hour behind": -3600, "at 0": None,
          "ten years ahead": 315360000}


def clocks(program, folder):
    """The wall clock jumps while the server runs (clock.c)."""
    library, file = folder / "clock.so", folder / "offset"
    subprocess.run([*harness.compiler(), "-shared", "-fPIC", harness.HERE / "clock.c", "-o",
                    library, "-ldl"], check=True)
    for name, offset in CLOCKS.items():
        file.write_text("0")
        environment = {"LD_PRELOAD": str(library), "CLOCK_OFFSET": str(file)}
        with Server(program, *USER, "--sha256", environment=environment) as server:
            assert is_served(server.port)
            file.write_text(str(-int(time.time()) if offset is None else offset))
            served = [is_served(server.port) for _ in range(20)]
            row(f"the clock jumps: {name}", sum(served), 20)


def limited(program, what, limit):
    """A limit of the system: it serves, through a flood too, or ends with a message."""
    within = ["sh", "-c", f'{limit}; exec "$0" "$@"']
    with Server(program, *USER, "--sha256", within=within) as server:
        words = [sys.executable, __file__, "--flood", "requests from forged IPv4 sources",
                 str(server.port), "1"]
        started = subprocess.Popen(words, stdout=subprocess.PIPE)
        served = [is_served(server.port) for _ in range(20)]
        started.communicate()
        row(what, sum(served), 20)


def too_few_descriptors(program):
    """It says so, and ends; or it needs no more."""
    within = ["sh", "-c", 'ulimit -n 4; exec "$0" "$@"', program, "0"]
    with subprocess.Popen(within, stdout=subprocess.PIPE, stderr=subprocess.PIPE,
                          text=True) as started:
        line = started.stdout.readline()
        if line.startswith("port "):
            started.terminate()
        told = started.communicate(timeout=20)[1].strip()
        row("4 descriptors (`ulimit -n`)", int(bool(line) != bool(told)), 1,
            f"`{told or 'it serves'}`")


def amplified(program):
    """The most bytes out for the bytes in of a request that nobody signed."""
    requests = {
        "20 bytes": stun.message(stun.REQUEST),
        "FINGERPRINT": stun.fingerprinted(stun.message(stun.REQUEST)),
        "an invented signature": invented(0),
        "no name": stun.signed(stun.message(stun.REQUEST), stun.SHA1, b"any"),
        "300 unknown types": stun.message(stun.REQUEST, [(0x7000 + i, b"") for i in range(300)]),
        "another method": stun.message(0x0003), "an indication": stun.message(stun.INDICATION),
        "no cookie": bytes([0, 1, 0, 0]) + bytes(16),
    }
    with Server(program, *USER, "--sha256") as server, harness.Peer(server.port) as peer:
        ratios = {}
        for name, request in requests.items():
            peer.socket.settimeout(0.3)
            with contextlib.suppress(TimeoutError):
                ratios[name] = len(peer.ask(request)) / len(request)
        most = max(ratios, key=ratios.get)
        row("bytes out over bytes in, unsigned", int(ratios[most] <= 5.4), 1,
            ", ".join(f"{name} {ratio:.2f}" for name, ratio in ratios.items()))


def logged(program):
    """What an attacker names himself adds no line to the log."""
    with Server(program, *USER, "--sha256", "-v") as server, harness.Peer(server.port) as peer:
        challenge = peer.ask(stun.message(stun.REQUEST))
        name = "alice\n127.0.0.1:1 200 SHA1 root"
        peer.ask(answering(challenge, stun.SHA256, (), name, "x"))
        assert is_served(server.port)
        time.sleep(0.2)
        forged = [line for line in server.lines if "root" in line]
        row("a line feed in USERNAME", int(not forged and len(server.lines) == 5), 1,
            f"{len(server.lines) - 1} lines for 4 requests")


def attacked(program, seconds, folder):
    print(f"\n{program}\n\n| Attack | Served within a second | |\n|---|---|---|")
    for name in FLOODS:
        flooded(program, name, seconds)
    stopped(program)
    restarted(program, folder)
    clocks(program, folder)
    limited(program, "20 descriptors (`ulimit -n`)", "ulimit -n 20")
    limited(program, "80 MB of addresses (`ulimit -v`)", "ulimit -v 80000")
    too_few_descriptors(program)
    amplified(program)
    logged(program)


def main():
    words = sys.argv[1:]
    if words[:1] == ["--flood"]:
        return flood(words[1], int(words[2]), float(words[3]))
    os.environ["PATH"] += ":/usr/sbin:/sbin"
    if shutil.which("unshare") is None or shutil.which("ip") is None:
        print("attacks: nothing tried: no unshare and ip")
        return 0
    if words[:1] != ["--inside"]:
        own = ["--net"] if os.getuid() == 0 else ["--user", "--map-root-user", "--net"]
        os.execvp("unshare", ["unshare", *own, sys.executable, __file__, "--inside", *words])
    subprocess.run(["ip", "link", "set", "lo", "up"], check=True)
    subprocess.run(["ip", "-6", "route", "add", "local", "fd00::/16", "dev", "lo"], check=True)
    words, seconds = words[1:], 3.0
    if "--seconds" in words:
        at = words.index("--seconds")
        seconds, words = float(words[at + 1]), words[:at] + words[at + 2:]
    with harness.scratch() as folder:
        for program in words or [str(harness.TOP / "examples/c/out/udp_server")]:
            attacked(str(pathlib.Path(program).resolve()), seconds, folder)
    print(f"\nattacks: {len(FAILED)} failed, load average {os.getloadavg()[0]:.1f}")
    return 1 if FAILED else 0


if __name__ == "__main__":
    sys.exit(main())
