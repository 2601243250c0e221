#!/usr/bin/env python3
"""Counts what a call of the exported crate's agent costs, beside an agent of the standard library.

    bench/agent_cost.py [SIZE ..]

Each call is counted with 1,000, 10,000 and 100,000 requests outstanding, or as many as are named:
100 and 600 calls of rust/bench/agent_cost.rs, and the difference through 500 is one: instructions
by callgrind. The other agent has a BTreeMap and a BTreeSet (rust/bench/plain_agent.rs). All
requests were sent at one time, which is the worst case for a tree whose links have the earliest
times. It needs `make rust` before, cargo and valgrind. It prints the table of README.md; status 1
if a bar is missed, which is a ratio at the largest size.
"""

import concurrent.futures
import os
import pathlib
import re
import subprocess
import sys

EXPORT = pathlib.Path(__file__).resolve().parent.parent / "target/export"
SIZES = (1000, 10000, 100000)
FEW, MANY = 100, 600

# The row's title, its word, and the bar on the ratio, if the other agent has such a call.
ROWS = [
    ("`send_request`", "send", 1.4),
    ("`poll_transmit`, all due", "again", 1.1),
    ("a response", "response", 1.1),
    ("`cancel`", "cancel", None),
    ("`poll`, all over", "end", None),
]


def counted(words):
    """The instructions of a run."""
    command = ["valgrind", "--tool=callgrind", "--callgrind-out-file=/dev/null", *words]
    run = subprocess.run(command, capture_output=True, text=True, check=False)
    found = re.search(r"Collected : (\d+)", run.stderr)
    if run.returncode or not found:
        sys.exit(f"bench: status {run.returncode}: {' '.join(words)}\n{run.stderr}")
    return int(found[1])


def main():
    sizes = [int(word) for word in sys.argv[1:]] or SIZES
    build = ["cargo", "build", "--quiet", "--release", "--example", "agent_cost"]
    subprocess.run(build, cwd=EXPORT, check=True)
    program = str(EXPORT / "target/release/examples/agent_cost")
    kinds = [(who, word) for _, word, bar in ROWS for who in (("crate", "plain")[:1 + bool(bar)])]
    runs = [(program, *kind, str(size), str(times)) for kind in kinds for size in sizes
            for times in (FEW, MANY)]
    with concurrent.futures.ThreadPoolExecutor(min(2, os.cpu_count() or 1)) as pool:
        counts = iter(list(pool.map(counted, runs)))
    each = {kind: [(-next(counts) + next(counts)) // (MANY - FEW) for _ in sizes] for kind in kinds}
    print("|", " | ".join(["Outstanding", *(f"{size:,}" for size in sizes), "plain", "ratio",
                           "at most"]), "|")
    print("|" + "---|" * (len(sizes) + 4))
    missed = 0
    for title, word, bar in ROWS:
        own, end = each["crate", word], ["", "", ""]
        if bar:
            plain = each["plain", word][-1]
            missed += own[-1] > bar * plain
            end = [f"{plain:,}", f"{own[-1] / plain:.2f}", f"{bar}"]
        print("|", " | ".join([title, *(f"{one:,}" for one in own), *end]), "|")
    return 1 if missed else 0


if __name__ == "__main__":
    sys.exit(main())
