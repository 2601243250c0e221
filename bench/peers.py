#!/usr/bin/env python3
"""Counts and times the same work in this library and in others, for the first two tables of
README.md.

    bench/peers.py [--time]     after `make lib`

Counts instructions by callgrind (1,100 calls less 100), or with --time prints nanoseconds of
processor time, the least of four rounds in which the programs take turns. The programs are those of
the folder peers: limit.c needs libssl-dev, and a peer is left out if its package is not installed
(libnice-dev, coturn, libre-dev; python3-aioice and golang-github-pion-stun-dev with golang-go, of
which times alone are printed). It needs a C compiler and valgrind.
"""

import os
import re
import shutil
import subprocess
import sys
import tempfile

TOP = os.path.normpath(os.path.join(os.path.dirname(os.path.abspath(__file__)), ".."))
PEERS = os.path.join(TOP, "bench/peers")
LIBRARY = os.path.join(TOP, "target/c/libstunp.a")
# Each program, and what it is compiled with.
PROGRAMS = {
    "limit": ["-Wno-deprecated-declarations", "-lcrypto"],
    "stunp": [LIBRARY, "-Wl,--gc-sections"],
    "libnice": ["nice"],
    "coturn": ["-lturnclient", "-lcrypto"],
    "libre": ["-lre"],
}
GO = "/usr/share/gocode"


def flags(words):
    """A word without a dash or a slash is a package of pkg-config."""
    for word in words:
        if word[0] in "-/":
            yield word
        else:
            found = subprocess.run(["pkg-config", "--cflags", "--libs", word],
                                   capture_output=True, text=True)
            yield from found.stdout.split()


def built(scratch):
    """The programs that can be built here, by name."""
    programs = {}
    for name, words in PROGRAMS.items():
        program = os.path.join(scratch, name)
        command = [os.environ.get("CC", "cc"), "-O2", "-I" + os.path.join(TOP, "include"),
                   os.path.join(PEERS, name + ".c"), *flags(words), "-o", program]
        ran = subprocess.run(command, capture_output=True, text=True)
        if ran.returncode == 0:
            programs[name] = program
        elif name == "stunp":
            sys.exit("peers: run `make lib` first\n" + ran.stderr)
        else:
            print("peers: %s: left out, it does not build here" % name)
    return programs


def output(command, **how):
    ran = subprocess.run(command, capture_output=True, text=True, **how)
    if ran.returncode != 0:
        sys.exit("peers: %s:\n%s" % (" ".join(command), ran.stderr))
    return ran


def collected(program, row, count):
    ran = output(["valgrind", "--tool=callgrind", "--callgrind-out-file=/dev/null", program, "call",
                  row, str(count)])
    return int(re.search(r"Collected : (\d+)", ran.stderr).group(1))


def counted(program):
    return {row: (collected(program, row, 1100) - collected(program, row, 100)) / 1000
            for row in output([program, "names"]).stdout.split()}


def times(text):
    return {row: float(number) for row, number in re.findall(r"(?m)^(\w+) ([\d.]+)$", text)}


def timed(programs):
    """The least time of each row, the programs in turn."""
    least = {}
    for _ in range(4):
        for name, program in programs.items():
            mine = least.setdefault(name, {})
            for row, number in times(output([program, "time"]).stdout).items():
                mine[row] = min(number, mine.get(row, number))
    return least


def others():
    """Times of the peers that are not in C."""
    found = {}
    rows = subprocess.run([sys.executable, os.path.join(PEERS, "aioice_rows.py")],
                          capture_output=True, text=True)
    if rows.returncode == 0:
        found["aioice"] = times(rows.stdout)
    if shutil.which("go") and os.path.isdir(os.path.join(GO, "src/github.com/pion/stun")):
        ran = output(["go", "test", "-count=1", "-v", "pion_test.go"], cwd=PEERS,
                     env={**os.environ, "GO111MODULE": "off", "GOPATH": GO})
        found["pion"] = times(ran.stdout)
    for name in {"aioice", "pion"} - set(found):
        print("peers: %s: left out, it is not installed" % name)
    return found


def print_table(what, columns):
    rows = list(dict.fromkeys(row for column in columns.values() for row in column))
    print("| %s | " % what + " | ".join(columns) + " |")
    print("|---" * (len(columns) + 1) + "|")
    for row in rows:
        print("| %s | " % row + " | ".join(
            "{:,.0f}".format(column[row]) if row in column else "" for column in columns.values())
            + " |")


def main():
    if sys.argv[1:] not in ([], ["--time"]):
        sys.exit(__doc__)
    with tempfile.TemporaryDirectory() as scratch:
        programs = built(scratch)
        if sys.argv[1:]:
            print_table("Nanoseconds", {**timed(programs), **others()})
        else:
            print_table("Instructions",
                        {name: counted(program) for name, program in programs.items()})


if __name__ == "__main__":
    main()
