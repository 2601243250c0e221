#!/usr/bin/env python3
"""Counts what a request costs at `endpoint::Client` of the exported crate.

    bench/client.py [EXPORT]

After `make export` it builds bench/client/memory.rs and calls.rs over the crate in EXPORT, which is
target/export unless it is named. It counts the bytes and the allocations of a request that is
outstanding, with 10,000 of them; the instructions of the first request of a new client with all
that comes of it, the difference of 600 and 200 such; those of a request and its success at a client
that has made others (rust/bench/client_cost.rs); and those of the ends of two requests, neighbours
or the first and the last one, the difference of 60 and 20 such pairs. It needs cargo, rustc and
valgrind, and prints the tables of README.md. Status 1 if a bar is missed.
"""

import concurrent.futures
import os
import pathlib
import re
import subprocess
import sys

TOP = pathlib.Path(__file__).resolve().parent.parent

# The row's title, the word of memory.rs, and the bars of bytes and of allocations.
MEMORY = [
    ("a Binding request of 20 bytes", "binding", None),
    ("an Allocate request of 36 bytes, two attributes", "allocate", (450, 4)),
    ("a Binding request of 164 bytes, signed", "signed", None),
    ("such a request that was sent unsigned before", "challenged", None),
]

# The row's title, the word of calls.rs: the first request of a new client.
REQUESTS = [
    ("request and success, unsigned", "open"),
    ("request, 401, signed request, success", "challenged"),
    ("a wrong password, the server keeps its nonce", "kept"),
    ("a wrong password, another nonce each time", "changed"),
]

# The row's title, the word of client_cost.rs, and the bar of instructions: a later request.
LATER = [
    ("request and success, unsigned", "unsigned", 6300),
    ("signed request and success, HMAC-SHA256", "signed", None),
]

# How many are outstanding when two requests end, and how much dearer far ends may be.
ENDS = [(10000, 1.5), (100000, 1.5)]


def said(words):
    """The numbers that a program prints."""
    run = subprocess.run(words, capture_output=True, text=True, check=True)
    return [float(word) for word in run.stdout.split()]


def counted(words):
    """The instructions of a run."""
    command = ["valgrind", "--tool=callgrind", "--callgrind-out-file=/dev/null", *words]
    run = subprocess.run(command, capture_output=True, text=True, check=False)
    found = re.search(r"Collected : (\d+)", run.stderr)
    if run.returncode or not found:
        sys.exit(f"bench: status {run.returncode}: {' '.join(words)}\n{run.stderr}")
    return int(found[1])


def built(export, name):
    """A program of bench/client over the crate."""
    release = export / "target/release"
    program = release / f"client_{name}"
    subprocess.run(["cargo", "build", "--quiet", "--release", "--package", "seatcrane-stun"],
                   cwd=export, check=True)
    subprocess.run([os.environ.get("RUSTC", "rustc"), "--edition", "2024", "-C", "opt-level=3",
                    "-C", "panic=abort", "--extern",
                    f"seatcrane_stun={release}/libseatcrane_stun.rlib", "-L",
                    f"dependency={release}/deps", "-o", program, TOP / f"bench/client/{name}.rs"],
                   cwd=export, check=True)
    return str(program)


def memory(program):
    """Prints the rows of memory, and returns how many miss a bar."""
    print("| An outstanding request | bytes | allocations | at most |\n|---|---|---|---|")
    missed = 0
    for title, word, bar in MEMORY:
        size, calls, _ = said([program, word, "10000"])
        missed += bar is not None and (size > bar[0] or calls > bar[1])
        print(f"| {title} | {size:,.0f} | {calls:.1f} | {f'{bar[0]}, {bar[1]}' if bar else ''} |")
    return missed


def requests(program, counts):
    """Prints the rows of requests, and returns how many miss a bar."""
    print("\n| A request and what comes of it | datagrams, signed | instructions | at most |")
    print("|---|---|---|---|")
    for title, word in REQUESTS:
        sent, signed = said([program, word, "1"])
        few, many = next(counts), next(counts)
        print(f"| the first of a client: {title} | {sent:.0f}, {signed:.0f} "
              f"| {(many - few) // 400:,} | |")
    missed = 0
    for title, word, bar in LATER:
        once, thrice = next(counts), next(counts)
        one = (thrice - once) // 2000
        missed += bar is not None and one > bar
        print(f"| a later one: {title} | 1, {int(word == 'signed')} | {one:,} "
              f"| {f'{bar:,}' if bar else ''} |")
    return missed


def ends(counts):
    """Prints the rows of ends, and returns how many miss a bar."""
    print("\n| Two requests end | neighbours | the first and the last | ratio | at most |")
    print("|---|---|---|---|---|")
    missed = 0
    for outstanding, bar in ENDS:
        few, many, far_few, far_many = (next(counts) for _ in range(4))
        near, far = (many - few) // 40, (far_many - far_few) // 40
        missed += far > bar * near
        print(f"| of {outstanding:,} | {near:,} | {far:,} | {far / near:.2f} | {bar} |")
    return missed


def main():
    export = pathlib.Path(sys.argv[1] if len(sys.argv) > 1 else TOP / "target/export").resolve()
    remembering, calling = built(export, "memory"), built(export, "calls")
    missed = memory(remembering)
    subprocess.run(["cargo", "build", "--quiet", "--release", "--example", "client_cost"],
                   cwd=export, check=True)
    asking = str(export / "target/release/examples/client_cost")
    runs = [(calling, word, times) for _, word in REQUESTS for times in ("200", "600")]
    runs += [(asking, "endpoint", word, times) for _, word, _ in LATER for times in ("1", "3")]
    runs += [(calling, place, pairs, str(outstanding)) for outstanding, _ in ENDS
             for place in ("near", "far") for pairs in ("20", "60")]
    with concurrent.futures.ThreadPoolExecutor(min(2, os.cpu_count() or 1)) as pool:
        counts = iter(list(pool.map(counted, runs)))
    missed += requests(calling, counts)
    return 1 if missed + ends(counts) else 0


if __name__ == "__main__":
    sys.exit(main())
