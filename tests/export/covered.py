#!/usr/bin/env python3
"""Sums the lines that ran, by the folders of what is written by hand: for coverage.sh.

usage: tests/export/covered.py LCOV [FILE]    FILE gets each line that did not run
"""
import collections
import sys
from pathlib import Path

# The first that fits: a part of the path in target/export, and what it is called.
PIECES = (("/src/exported/", None), ("/src/kit/tests", None), ("/src/kit/", "rust/src/kit"),
          ("/src/endpoint", "rust/src/endpoint"), ("/capi/", None), ("/checks/", None),
          ("/examples/", None),
          ("/tests/", None), ("/bench/", None), ("target/export/src/", "rust/src, the rest"))


def piece_of(path):
    return next((name for part, name in PIECES if part in path), None)


def main():
    ran, path = collections.defaultdict(dict), None
    for row in Path(sys.argv[1]).read_text().splitlines():
        kind, _, rest = row.partition(":")
        if kind == "SF":
            path = rest
        elif kind == "DA" and piece_of(path):
            line, count = rest.split(",")[:2]
            ran[path][int(line)] = max(ran[path].get(int(line), 0), int(count))
    sums = collections.defaultdict(lambda: [0, 0])
    missed = []
    for path, lines in sorted(ran.items()):
        text = Path(path).read_text().splitlines()
        for line, count in sorted(lines.items()):
            sums[piece_of(path)][0] += count > 0
            sums[piece_of(path)][1] += 1
            if not count:
                missed.append(f"{path.partition('target/export/')[2]}:{line}: {text[line - 1]}")
    for name, (some, all_of) in sorted(sums.items()):
        print(f"coverage: {name}: {some} of {all_of} lines that run, {100 * some / all_of:.1f} %")
    if len(sys.argv) > 2:
        Path(sys.argv[2]).write_text("\n".join([*missed, ""]))


if __name__ == "__main__":
    main()
