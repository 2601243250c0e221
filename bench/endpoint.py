#!/usr/bin/env python3
"""Counts what a datagram costs at a server of the exported crate, and a request at a client.

    bench/endpoint.py

Each row is counted at `endpoint::Server` and at a loop of calls by hand with its table of addresses
(rust/bench/endpoint_cost): 1,000 and 3,000 datagrams each, and the difference through 2,000 is
one: instructions by callgrind. The rows of the client (rust/bench/client_cost.rs) are counted at
`endpoint::Client` and at the calls of the agent and of the authenticator in a row, with transaction
IDs that are derived from a seed as the endpoint's, and with IDs that are counted up. The rows of a
user who is looked up are counted through C (look_up.c). It needs `make rust` before, cargo, a C
compiler and valgrind; it builds target/c anew. It prints the tables of README.md; status 1 if a bar
of the server or of a look-up is missed. The bar of the client is 1.15 times the calls with the same
IDs.
"""

import concurrent.futures
import os
import pathlib
import re
import subprocess
import sys

TOP = pathlib.Path(__file__).resolve().parent.parent
EXPORT = TOP / "target/export"
FEW, MANY = 1000, 3000

# The row's title, its words, and the bar on the endpoint's instructions, if it has one.
ROWS = [
    ("a signed request, HMAC-SHA1", ("sha1", "signed"), 20500),
    ("a signed request, HMAC-SHA256", ("sha256", "signed"), 34000),
    ("an unsigned request from a new address: 401", ("sha256", "new"), 10000),
    ("the same, where the server has HMAC-SHA1 alone", ("sha1", "new"), None),
    ("a request with an expired nonce: 438", ("sha256", "stale"), None),
]

# The same with the answers in a buffer of the caller: by `receive_into`, and 50 at once by
# `receive_many`.
BUFFERED = [
    ("a signed request, HMAC-SHA1", ("sha1", "signed")),
    ("an unsigned request from a new address: 401", ("sha256", "new")),
]

# A request of a client and its response: the title and the word.
CLIENT = [
    ("a Binding request, without credentials", "unsigned"),
    ("a Binding request, long-term credentials, HMAC-SHA256", "signed"),
]

# A request whose user is looked up: the title, the words of look_up.c, and the bar.
LOOK_UPS = [
    ("identify and resume, HMAC-SHA256", ("resume", "2", "name"), 46000),
    ("the same, where the request names the user by a hash", ("resume", "2", "hash"), None),
    ("identify and resume, HMAC-SHA1", ("resume", "1", "name"), None),
    ("identify, and receive with a table of the user, HMAC-SHA256", ("table", "2", "name"), None),
    ("receive with that table alone, HMAC-SHA256", ("receive", "2", "name"), None),
]


def counted(words):
    """The instructions of a run."""
    command = ["valgrind", "--tool=callgrind", "--callgrind-out-file=/dev/null", *words]
    run = subprocess.run(command, capture_output=True, text=True, check=False)
    found = re.search(r"Collected : (\d+)", run.stderr)
    if run.returncode or not found:
        sys.exit(f"bench: status {run.returncode}: {' '.join(words)}\n{run.stderr}")
    return int(found[1])


def buffered(counts):
    """Prints the table of answers in a buffer."""
    print("\n| A datagram at a server | `receive_into` | `receive_many` |\n|---|---|---|")
    for title, _ in BUFFERED:
        each = [next(counts) for _ in range(4)]
        single, batch = ((many - few) // (MANY - FEW) for few, many in zip(each[::2], each[1::2]))
        print(f"| {title} | {single:,} | {batch:,} |")


def client(counts):
    """Prints the table of the client. Each run makes 1,000 requests, once or three times."""
    print("\n| A request of a client | `endpoint::Client` | the calls in a row | ratio "
          "| with IDs that are counted |")
    print("|---|---|---|---|---|")
    for title, _ in CLIENT:
        each = [next(counts) for _ in range(6)]
        endpoint, calls, counted_up = ((thrice - once) // 2000
                                       for once, thrice in zip(each[::2], each[1::2]))
        print(f"| {title} | {endpoint:,} | {calls:,} | {endpoint / calls:.2f} | {counted_up:,} |")


def look_ups(counts):
    """Prints the table of look-ups, and returns how many miss their bar."""
    print("\n| A request whose user is looked up, through C | instructions | at most |\n|---|---|---|")
    missed = 0
    for title, _, most in LOOK_UPS:
        few, many = next(counts), next(counts)
        one = (many - few) // (MANY - FEW)
        missed += most is not None and one > most
        print(f"| {title} | {one:,} | {f'{most:,}' if most else ''} |")
    return missed


def look_up():
    """Builds look_up.c over the exported library, and returns the program."""
    subprocess.run(["sh", "tools/rust_c.sh", "--build"], cwd=TOP, check=True, stdout=sys.stderr)
    program = TOP / "target/c/look_up"
    subprocess.run([os.environ.get("CC", "cc"), "-O2", "-Iinclude", "bench/look_up.c",
                    "target/c/libstunp.a", "-o", program], cwd=TOP, check=True)
    return str(program)


def main():
    looking = look_up()
    build = ["cargo", "build", "--quiet", "--release"]
    for example in ("endpoint_cost", "batch_cost", "client_cost"):
        subprocess.run([*build, "--example", example], cwd=EXPORT, check=True)
    program, batching, asking = (str(EXPORT / "target/release/examples" / name)
                                 for name in ("endpoint_cost", "batch_cost", "client_cost"))
    runs = [(program, kind, *words, str(times)) for _, words, _ in ROWS
            for kind in ("endpoint", "loop") for times in (FEW, MANY)]
    runs += [(batching, kind, *words, str(times)) for _, words in BUFFERED
             for kind in ("into", "batch") for times in (FEW, MANY)]
    runs += [(asking, kind, word, times) for _, word in CLIENT
             for kind in ("endpoint", "calls", "counted") for times in ("1", "3")]
    runs += [(looking, *words, str(times)) for _, words, _ in LOOK_UPS for times in (FEW, MANY)]
    with concurrent.futures.ThreadPoolExecutor(min(4, os.cpu_count() or 1)) as pool:
        counts = iter(list(pool.map(counted, runs)))
    print("| A datagram at a server | `endpoint::Server` | a loop with a table | at most |")
    print("|---|---|---|---|")
    missed = 0
    for title, _, most in ROWS:
        few, many, loop_few, loop_many = (next(counts) for _ in range(4))
        endpoint, by_hand = ((many - few) // (MANY - FEW), (loop_many - loop_few) // (MANY - FEW))
        missed += most is not None and endpoint > most
        print(f"| {title} | {endpoint:,} | {by_hand:,} | {f'{most:,}' if most else ''} |")
    buffered(counts)
    client(counts)
    missed += look_ups(counts)
    return 1 if missed else 0


if __name__ == "__main__":
    sys.exit(main())
