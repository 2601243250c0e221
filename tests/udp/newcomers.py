#!/usr/bin/env python3
"""Has servers serve newcomers over TCP beside connections that say nothing.

    newcomers.py [--bars] [--server PROGRAM]

The server in C is built with sanitizers where the compiler has them, and a PROGRAM takes the words
of rust/examples/udp_server.rs. Silent connections are opened and held: 400 of them, or 10,000 with
--bars, which is more than any server has room for, and then 100 more a second. Beside them 15
newcomers, one after the other, connect and ask, and each is answered within five seconds. Without
--bars it is also tried that one connection more than there is room for ends the one that has been
silent for longest, and no other. The test raises the soft limit of open files (`ulimit -n`) as far
as its connections need; --bars prints a line for each server.

The last line says what was checked. Without a compiler or the archive it says so, with status 0.
"""
import argparse
import contextlib
import resource
import socket
import sys
import threading
import time

import harness
from endpoint import asked_over, connected, has_ended
from harness import Server, stun

NEWCOMERS, WITHIN, MORE = 15, 5, 100  # the last a second


def raise_limit(files):
    """Has room for so many open files."""
    soft, hard = resource.getrlimit(resource.RLIMIT_NOFILE)
    if soft < files:
        most = hard if hard != resource.RLIM_INFINITY else files
        resource.setrlimit(resource.RLIMIT_NOFILE, (most, hard))
        assert most >= files, f"{files} open files are needed, and the hard limit is {hard}"


def silent(running):
    one = socket.socket()
    one.settimeout(10)
    one.connect(("127.0.0.1", running.port))
    return one


def is_answered(stream):
    return stun.code_of(asked_over(stream, stun.message(stun.REQUEST))) == 200


@contextlib.contextmanager
def going_on(running, held):
    """Meanwhile silent connections go on to come."""
    is_over, errors = threading.Event(), []

    def come():
        try:
            while not is_over.wait(1 / MORE):
                held.enter_context(silent(running))
        except OSError as error:
            errors.append(error)

    coming = threading.Thread(target=come, daemon=True)
    coming.start()
    yield
    is_over.set()
    coming.join()
    assert not errors, f"a silent connection: {errors[0]!r}"


def newcomers(server, count):
    """Returns how many newcomers were answered, and the longest time that one waited."""
    waits = []
    with Server(server, "--tcp") as running, contextlib.ExitStack() as held:
        for _ in range(count):
            held.enter_context(silent(running))
        with going_on(running, held):
            for _ in range(NEWCOMERS):
                begun = time.monotonic()
                with contextlib.suppress(OSError), connected(running) as stream:
                    if is_answered(stream) and time.monotonic() < begun + WITHIN:
                        waits.append(time.monotonic() - begun)
                time.sleep(0.05)
    return len(waits), max(waits, default=0)


def longest_silent(server, most):
    """One connection more than there is room for ends the one that has been silent for longest."""
    with Server(server, "--tcp") as running, contextlib.ExitStack() as held:
        first, second = [held.enter_context(connected(running)) for _ in range(2)]
        assert is_answered(second) and is_answered(first)
        for _ in range(most - 1):
            assert is_answered(held.enter_context(connected(running)))
        has_ended(second)
        assert is_answered(first)


def main():
    words = argparse.ArgumentParser()
    words.add_argument("--bars", action="store_true")
    words.add_argument("--server", action="append", default=[])
    words.add_argument("--client", action="append", help="is not used")
    chosen = words.parse_args()
    count = 10_000 if chosen.bars else 400
    with harness.scratch() as folder:
        _, missing = harness.build(folder)
        if missing:
            print(f"newcomers: nothing checked: {missing}")
            return 0
        harness.end_within(300)
        raise_limit(count + 2000)
        servers = [str(folder / "udp_server"), *chosen.server]
        for server in servers if not chosen.bars else ():
            longest_silent(server, 256 if server == servers[0] else 64)
        for server in servers:
            served, slowest = newcomers(server, count)
            if served < NEWCOMERS or chosen.bars:
                print(f"newcomers: {server}: {served} of {NEWCOMERS} served beside {count} silent "
                      f"connections, the slowest in {1000 * slowest:.1f} ms", flush=True)
            if served < NEWCOMERS:
                return 1
        print(f"newcomers: {NEWCOMERS} of {NEWCOMERS} served beside {count} silent connections by "
              f"{len(servers)} servers")
    return 0


if __name__ == "__main__":
    sys.exit(main())
