#!/usr/bin/env python3
"""Compares the processor time of servers for each datagram, in one run, over loopback.

    processor.py [--count N] [--rounds N] [--rust PROGRAM]

Each round loads each server with N requests (200,000 unless given) from 1,000 ports by
bench/load.c, at most 256 of them unanswered: unsigned ones at a bare echo (echo.c) and at servers
without users; signed ones at servers with a user, and at coturn's turnserver where that is
installed. Prints a Markdown table of the medians of the rounds (5), in which a server is compared
with the one that is named in its last column. Build the programs with optimization: examples/c by
make, and the server in Rust by `cargo build --release --example udp_server` in target/export.
"""
import argparse
import contextlib
import os
import pathlib
import shutil
import statistics
import subprocess

import harness
import interop
from harness import NAME, PASSWORD, REALM, USER, Server

RUST = harness.TOP / "target/export/target/release/examples/udp_server"
TICK = 1 / os.sysconf("SC_CLK_TCK")


def seconds(pid):
    """The processor time of a process and its threads."""
    fields = pathlib.Path(f"/proc/{pid}/stat").read_text().rsplit(")", 1)[1].split()
    return (int(fields[11]) + int(fields[12])) * TICK


def spent(load, server, mix, count):
    """Microseconds for each datagram; each was answered, or is counted."""
    words = [load, server.port, count, 1000, 256, mix, *((NAME, PASSWORD) if mix == "s" else ())]
    before = seconds(server.process.pid)
    run = subprocess.run(list(map(str, words)), capture_output=True, text=True, timeout=120)
    assert run.returncode == 0, run
    told = dict(zip(run.stdout.split()[::2], run.stdout.split()[1::2]))
    assert int(told["successes"]) > 0.99 * count, told
    return 1e6 * (seconds(server.process.pid) - before) / count


def servers(stack, folder, rust):
    """Each server: its name, with what it is compared, what it gets, and itself."""
    def started(*words):
        return stack.enter_context(Server(*map(str, words)))

    c = interop.SERVER
    yield "echo", None, "u", started(folder / "echo")
    yield "udp_server in C", "echo", "u", started(c)
    if rust.exists():
        yield "udp_server in Rust", "udp_server in C", "u", started(rust)
    if shutil.which("turnserver"):
        secure = ("--lt-cred-mech", "--secure-stun", "-r", REALM, "-u", f"{NAME}:{PASSWORD}")
        yield "turnserver", None, "s", stack.enter_context(interop.turnserver(*secure, "-m", "1"))
    yield "udp_server in C, users", "turnserver", "s", started(c, *USER)
    if rust.exists():
        yield ("udp_server in Rust, users", "udp_server in C, users", "s", started(rust, *USER))


def main():
    words = argparse.ArgumentParser()
    words.add_argument("--count", type=int, default=200000)
    words.add_argument("--rounds", type=int, default=5)
    words.add_argument("--rust", type=pathlib.Path, default=RUST)
    chosen = words.parse_args()
    with harness.scratch() as folder, contextlib.ExitStack() as stack:
        command = [*harness.compiler(), "-O2", f"-I{harness.TOP}/include", *harness.inlined()]
        subprocess.run([*command, harness.HERE / "echo.c", "-o", folder / "echo"], check=True)
        load = folder / "load"
        subprocess.run([*command, harness.TOP / "bench/load.c", harness.STATELESS,
                        *harness.BESIDE.split(), "-o", load], check=True)
        rows = list(servers(stack, folder, chosen.rust))
        figures = {name: [] for name, *_ in rows}
        for _ in range(chosen.rounds):
            for name, _, mix, server in rows:
                figures[name].append(spent(load, server, mix, chosen.count))
        print("| Server | Requests | Processor µs a request | Least, most | Ratio |\n"
              "|---|---|---|---|---|")
        middle = {name: statistics.median(times) for name, times in figures.items()}
        for name, other, mix, _ in rows:
            kind = "signed" if mix == "s" else "unsigned"
            ratio = f"{middle[name] / middle[other]:.2f} of {other}" if other in middle else ""
            print(f"| {name} | {kind} | {middle[name]:.2f} | {min(figures[name]):.2f}, "
                  f"{max(figures[name]):.2f} | {ratio} |")
        print(f"\n{len(os.sched_getaffinity(0))} cores, load average {os.getloadavg()[0]:.1f}")


if __name__ == "__main__":
    main()
