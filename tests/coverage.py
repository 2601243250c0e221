#!/usr/bin/env python3
"""Prints how much of the C that is written by hand the tests in C reach: the lines that ran of the
inline calls of each header, of the headers of sockets and of logs, and of the heap of the examples.

    tests/coverage.py LIBRARY [FILE]    LIBRARY is a libstunp.a (`make lib` leaves target/c/libstunp.a);
                                        with FILE, that file gets every line that no test reaches

It takes gcc and its gcov. The programs of tests/c are built over the library with the inline calls,
and the transcripts are played. Nothing here is a part of the gate: the figures are in docs/TRUST.md.
"""
import collections
import gzip
import json
import os
import shutil
import subprocess
import sys
import tempfile
from pathlib import Path

TESTS = Path(__file__).resolve().parent
TOP = TESTS.parent
PROGRAMS = ("arguments", "attributes", "client", "endpoint", "extra", "hostile", "ice",
            "ice_checks", "log", "sockaddr", "texts", "worked")
WORKED = {"answer": "stunp", "serve": "stunp_endpoint"}


def example_of(header):
    """The worked example of a header, without the comment round it."""
    lines = []
    for line in (TOP / f"include/{header}.h").read_text().splitlines():
        if line.startswith(" *     "):
            lines.append(line[7:])
        if "*/" in line:
            return "\n".join(lines) + "\n"
    raise ValueError(header)


def build(name, library, room):
    """Builds a program of tests/c with counters, and returns its path."""
    at = room / name
    at.mkdir()
    words = ["gcc", "--coverage", "-O0", "-std=c99", "-D_DEFAULT_SOURCE", "-DSTUNP_INLINE_CALLS=1",
             "-I", str(TOP / "include"), "-I", str(TOP / "examples/c"), "-I", str(room)]
    for source in (TESTS / f"c/{name}.c", TOP / "examples/c/heap.c"):
        subprocess.run([*words, "-c", str(source), "-o", str(at / f"{source.stem}.o")], check=True)
    subprocess.run(["gcc", "--coverage", *map(str, sorted(at.glob("*.o"))), str(library), "-lpthread",
                    "-ldl", "-lm", "-o", str(at / "run")], check=True)
    return at


def run(at):
    """Runs a program; of what it prints only a failure is shown."""
    ran = subprocess.run([str(at / "run")], stdout=subprocess.PIPE, stderr=subprocess.STDOUT,
                         cwd=TESTS, text=True, check=False)
    if ran.returncode:
        sys.exit(f"coverage: {at.name} ended with {ran.returncode}: {ran.stdout[-500:]}")


def play(at):
    """Plays the transcripts."""
    endpoints = sorted((TESTS / "transcripts/endpoints").glob("*.txt"))
    ours = [path for path in endpoints if path.name.split(".")[0] in ("look-ups", "ice", "client")]
    subprocess.run([sys.executable, "play.py", str(at / "run"),
                    *map(str, sorted((TESTS / "transcripts").glob("*.txt"))), *map(str, ours)],
                   cwd=TESTS, stdout=subprocess.DEVNULL, check=True)


def lines_of(at):
    """How often each line ran, by file, as gcov counted it."""
    for note in sorted(at.glob("*.gcda")):
        subprocess.run(["gcov", "--json-format", str(note)], cwd=at, stdout=subprocess.DEVNULL,
                       check=True)
    for told in sorted(at.glob("*.json.gz")):
        for file in json.loads(gzip.decompress(told.read_bytes()))["files"]:
            path = (at / file["file"]).resolve()
            for line in file["lines"]:
                yield path, line["line_number"], line["count"]


def main():
    if len(sys.argv) not in (2, 3):
        sys.exit(__doc__)
    if not shutil.which("gcov"):
        print("coverage: left out, gcov is not there")
        return 77
    library, counts = Path(sys.argv[1]).resolve(), collections.defaultdict(collections.Counter)
    with tempfile.TemporaryDirectory() as folder:
        room = Path(folder)
        for name, header in WORKED.items():
            (room / f"{name}.h").write_text(example_of(header))
        for name in (*PROGRAMS, "play"):
            at = build(name, library, room)
            (play if name == "play" else run)(at)
            for path, line, count in lines_of(at):
                counts[path][line] += count
    missed = []
    for path in sorted(counts):
        if path.parent in (TOP / "include", TOP / "examples/c"):
            of, ran = counts[path], sum(count > 0 for count in counts[path].values())
            print(f"{os.path.relpath(path, TOP)}: {ran} of {len(of)} lines ({ran / len(of):.1%})")
            text = path.read_text().splitlines()
            missed += [f"{os.path.relpath(path, TOP)}:{line}: {text[line - 1].strip()}"
                       for line in sorted(of) if not of[line]]
    if len(sys.argv) > 2:
        Path(sys.argv[2]).write_text("".join(f"{line}\n" for line in missed))
    return 0


if __name__ == "__main__":
    sys.exit(main())
