#!/usr/bin/env python3
"""Has servers read their users again while they are asked, and while they start.

    reloads.py [--bars] [--server PROGRAM]

The server in C is built with sanitizers where the compiler has them, and reads its users at SIGHUP.
A PROGRAM takes the words of rust/examples/udp_server.rs, and reads the file when it changes. Each
case says what it tries. --bars tries it in full, on programs with optimization: 30 pairs of SIGHUP
with 60,000 users, and 50,000 signed requests at 10,000 a second (bench/load.c) during a reload of
100,000 users, none of which may be lost; it takes three minutes, and prints a line for each. On a
machine that has other work, give it a turn first (`chrt -r 5`). Without it there are fewer, and no
request may wait for half as long as a reload takes.

The last line says what was checked. Without a compiler or the archive it says so, with status 0.
"""
import argparse
import contextlib
import os
import pathlib
import random
import re
import signal
import socket
import subprocess
import sys
import tempfile
import threading
import time

import harness
from alone import answering, with_fault
from harness import REALM, Peer, Server, stun

LONGEST = 60  # seconds that a reload may take on a busy machine


def users_of(name, count):
    """A file of users: this one is the last, so that it is served only by whoever has read all."""
    lines = (f"user{number} pass{number}\n" for number in range(count))
    return "".join(lines) + f"{name} {name}-password\n"


def put(path, content):
    """Replaces a file by another one at once."""
    beside = path.with_suffix(".new")
    beside.write_text(content)
    beside.rename(path)


@contextlib.contextmanager
def file_of(content):
    with tempfile.TemporaryDirectory() as folder:
        path = pathlib.Path(folder) / "users"
        path.write_text(content)
        yield path


def is_served(peer, name):
    challenge = peer.ask(stun.message(stun.REQUEST))
    signed = answering(challenge, stun.SHA1, (), name, f"{name}-password")
    return stun.code_of(peer.ask(signed)) == 200


def until_served(running, name, number=1, within=LONGEST):
    """Waits until each of so many workers serves this user; the port of a client decides which
    worker it has, so several ports ask. Returns how long that took."""
    begun = time.monotonic()
    for _ in range(1 if number == 1 else 4 * number):
        with Peer(running.port) as peer:
            while not is_served(peer, name):
                assert time.monotonic() < begun + within, f"{name} is not served"
                time.sleep(0.02)
    return time.monotonic() - begun


# ---- No SIGHUP is lost


def pairs(server, words, count, pairs):
    """Two SIGHUPs, the second of which comes while the users are read: those of the second file are
    served in the end, by each worker."""
    numbers, workers = random.Random(7), 2 if words else 1
    with file_of(users_of("first", count)) as path:
        with Server(server, REALM, "--users", str(path), *words) as running:
            for turn in range(pairs):
                for name in (f"a{turn}", f"b{turn}"):
                    put(path, users_of(name, count))
                    running.process.send_signal(signal.SIGHUP)
                    time.sleep(numbers.uniform(0.005, 0.25))
                until_served(running, f"b{turn}", workers)


def at_the_start(server, words, count):
    """A SIGHUP while the server reads its users for the first time does not end it, and has them
    read again."""
    with file_of(users_of("first", count)) as path, contextlib.ExitStack() as stack:

        def hang_up():
            process = None
            while process is None:
                for one in harness.begun():
                    with contextlib.suppress(OSError):
                        for opened in pathlib.Path(f"/proc/{one}/fd").iterdir():
                            if os.readlink(opened) == str(path):
                                process = one
            put(path, users_of("second", count))
            os.kill(process, signal.SIGHUP)

        other = threading.Thread(target=hang_up, daemon=True)
        other.start()
        running = stack.enter_context(Server(server, REALM, "--users", str(path), *words))
        other.join()
        until_served(running, "second", 2 if words else 1)


def in_a_pipe(server):
    """A SIGHUP while the users come from standard input does not end the server."""
    read, write = os.pipe()
    with os.fdopen(read, "rb") as standard_input:
        def fill():
            with os.fdopen(write, "w") as pipe:
                pipe.write(users_of("first", 10))
                pipe.flush()
                time.sleep(0.5)
                for one in harness.begun():
                    with contextlib.suppress(OSError):
                        if b"udp_server" in pathlib.Path(f"/proc/{one}/cmdline").read_bytes():
                            os.kill(one, signal.SIGHUP)
                time.sleep(0.1)
                pipe.write("last last-password\n")

        other = threading.Thread(target=fill, daemon=True)
        other.start()
        with Server(server, REALM, "--users", "-", stdin=standard_input) as running:
            other.join()
            until_served(running, "last")


def before_the_loop(server, words):
    """A SIGHUP between the first line of output and the first turn of the loop (SLOW_LOOP)."""
    with file_of(users_of("first", 10)) as path:
        words = (REALM, "--users", str(path), *words)
        with with_fault(server, *words, SLOW_LOOP="1") as running:
            put(path, users_of("second", 10))
            running.process.send_signal(signal.SIGHUP)
            until_served(running, "second", 2 if len(words) > 3 else 1, 10)


def ended_in_reload(server, words, count):
    """SIGTERM during a reload ends the server at once, with status 0."""
    with file_of(users_of("first", count)) as path:
        with Server(server, REALM, "--users", str(path), *words) as running:
            put(path, users_of("second", count))
            running.process.send_signal(signal.SIGHUP)
            time.sleep(0.2)
            begun = time.monotonic()
            running.process.terminate()
            assert running.process.wait(LONGEST) == 0
            assert time.monotonic() < begun + 5, "it reads to the end"


# ---- Requests are answered meanwhile


def meanwhile(server, words, count, hang_up):
    """During a reload no request waits for half as long as the reload takes."""
    with file_of(users_of("first", count)) as path:
        with Server(server, REALM, "--users", str(path), *words) as running:
            slowest, is_over = [0.0], threading.Event()

            def ask():
                with Peer(running.port) as peer:
                    while not is_over.is_set():
                        begun = time.monotonic()
                        peer.ask(stun.message(stun.REQUEST))
                        slowest[0] = max(slowest[0], time.monotonic() - begun)
                        time.sleep(0.005)

            asking = threading.Thread(target=ask, daemon=True)
            asking.start()
            time.sleep(0.5)
            put(path, users_of("second", count))
            if hang_up:
                running.process.send_signal(signal.SIGHUP)
            took = until_served(running, "second", 2 if words else 1)
            is_over.set()
            asking.join()
            assert slowest[0] < max(took / 2, 0.2), f"{slowest[0]:.2f} s of {took:.2f} s"


@contextlib.contextmanager
def large_buffer():
    """A socket for standard input, with the buffer that the server in C asks for."""
    with socket.socket(socket.AF_INET, socket.SOCK_DGRAM) as one:
        with contextlib.suppress(OSError):
            one.setsockopt(socket.SOL_SOCKET, 33, 4 << 20)  # SO_RCVBUFFORCE
        one.bind(("127.0.0.1", 0))
        yield one


def under_load(load, server, words, hang_up):
    """How many of 50,000 requests at 10,000 a second were answered during a reload of 100,000
    users, and how long that took."""
    with file_of(users_of("first", 100_000)) as path, large_buffer() as buffer:
        words = (REALM, "--users", str(path), "--sha256", *words)
        words, stdin = (words, None) if hang_up else ((*words, "--at", "-"), buffer)
        with Server(server, *words, stdin=stdin) as running:
            took = []

            def reload():
                time.sleep(0.5)
                put(path, users_of("second", 100_000))
                if hang_up:
                    running.process.send_signal(signal.SIGHUP)
                took.append(until_served(running, "second", 2 if words[-1] == "2" else 1))

            other = threading.Thread(target=reload)
            other.start()
            asked = (running.port, 50000, 100, "10000/s", "s", "user1", "pass1")
            run = subprocess.run(list(map(str, (load, *asked))), capture_output=True, text=True)
            other.join()
            assert run.returncode == 0 and took, run
            return int(re.search(r"successes (\d+)", run.stdout)[1]), took[0]


# ---- The run


def cases(servers, is_sanitized):
    """Each case with its name, in short."""
    count = 20_000 if is_sanitized else 60_000
    c, *others = servers
    for words in ((), ("--workers", "2")):
        yield f"pairs {words}", lambda: pairs(c, words, count, 3 if words else 5)
        yield f"at the start {words}", lambda: at_the_start(c, words, count)
        yield f"before the loop {words}", lambda: before_the_loop(c, words)
        yield f"ended in a reload {words}", lambda: ended_in_reload(c, words, 5 * count)
        yield f"meanwhile {words}", lambda: meanwhile(c, words, 2 * count, True)
    yield "in a pipe", lambda: in_a_pipe(c)
    for other in others:
        yield "meanwhile, by another", lambda: meanwhile(other, (), count, False)


def bars(folder, servers):
    """The bars, on a server in C with optimization, and on the others as they are. Returns how many
    were missed."""
    plain, load, missed = folder / "plain", folder / "load", 0
    values = ("CFLAGS=-O2", f"OUT={plain}", f"SYSTEM={harness.BESIDE}",
              f"ENDPOINT={harness.ENDPOINT}", f"LIBRARY={harness.STATELESS}")
    subprocess.run(["make", "-s", "-C", harness.TOP / "examples/c", *values, "udp"], check=True)
    words = ("-O2", f"-I{harness.TOP}/include", *harness.inlined(),
             harness.TOP / "bench/load.c", harness.STATELESS)
    subprocess.run([*harness.compiler(), *words, *harness.BESIDE.split(), "-o", load], check=True)
    c = plain / "udp_server"
    for words in ((), ("--workers", "2")):
        pairs(c, words, 60_000, 30)
        print(f"{c} {' '.join(words)}: 30 pairs of SIGHUP, 0 lost", flush=True)
    for server in (c, *servers[1:]):
        for words in (("--workers", "1"), ("--workers", "2")):
            successes, took = under_load(load, server, words, server == c)
            missed += successes != 50000
            print(f"{server} {' '.join(words)}: {successes} of 50000, a reload of {took:.2f} s",
                  flush=True)
    return missed


def main():
    words = argparse.ArgumentParser()
    words.add_argument("--bars", action="store_true")
    words.add_argument("--server", action="append", default=[])
    words.add_argument("--client", action="append", help="is not used")
    words.add_argument("--only", default="", help="cases whose name has this in it")
    chosen = words.parse_args()
    with harness.scratch() as folder:
        is_sanitized, missing = harness.build(folder)
        if missing:
            print(f"reloads: nothing checked: {missing}")
            return 0
        harness.end_within(600 if chosen.bars else 240)
        servers = [str(folder / "udp_server"), *chosen.server]
        if chosen.bars:
            return 1 if bars(folder, servers) else 0
        passed = 0
        for name, run in cases(servers, is_sanitized):
            if chosen.only not in name:
                continue
            try:
                run()
                passed += 1
            except Exception as error:
                print(f"reloads: {name}: {type(error).__name__}: {error}", file=sys.stderr)
                return 1
        print(f"reloads: {passed} passed")
    return 0


if __name__ == "__main__":
    sys.exit(main())
