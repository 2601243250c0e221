#!/usr/bin/env python3
"""Runs the built program on the transcripts of this folder: every command, script line, word,
refusal and exit status. Input and output are closed or fail. Each allocation is refused in turn,
and so each with all after it.

    tests/programs/tool/check.py [--exported] [PROGRAM ..]

With --exported each PROGRAM is one of the exported crate, and what Rust's standard library hides of
standard files is left out (tests/programs/play.py). Without a PROGRAM it builds
crates/stun_tool/out/stun_tool by `rt run`, which proves what has changed since. After `rt ci` the
two programs that it built are there: crates/stun_tool/out/stun_tool and
crates/stun_tool/out/stun_tool.by-rattle. It needs Python 3.8 and /dev/full, and to make reads,
writes and allocations fail by their number a C compiler and glibc.
What must be printed is worked out from RFC 8489, the digests by Python's hmac and hashlib, and
never taken from the program. How the files are written says tests/programs/play.py. The last line
counts the runs.
"""

import glob
import os
import subprocess
import sys

HERE = os.path.dirname(os.path.abspath(__file__))
CRATE = os.path.join(HERE, "..", "..", "..", "crates", "stun_tool")
sys.path.insert(0, os.path.join(HERE, ".."))
import play  # noqa: E402

REFUSED = 1, b""

SAMPLE = ("00010058 2112a442 b7e7a701 bc34d686 fa87dfae 80220010 5354554e 20746573 7420636c "
          "69656e74 00240004 6e0001ff\n"
          "    80290008 932ff9b1 51263b36 00060009 6576746a 3a683676 59202020 00080014 9aeaa70c "
          "bfd8cb56 781ef2b5 b2d3f249 c1b571a2\n"
          "    80280004 e57a3bcf")

USERS = [f"user user{number} password{number}\n" for number in range(6_000)]

# A small task, done in the least address space, and a large one with what it prints.
LARGE = [
    (["check", "VOkJxbRl1RmTxUk/WvJxBt"], SAMPLE, SAMPLE + " " * 4_000_000,
     "valid MESSAGE-INTEGRITY\n"),
    (["serve", "realm"], USERS[0], "".join(USERS), "ok\n" * len(USERS)),
]


def refuses_space(program):
    """In an address space that does for a small task, a large one ends with status 1 and a
    beginning of its lines."""
    for words, small, large, printed in LARGE:
        def ran(given, kibibytes):
            program.count += 1
            limited = ["sh", "-c", 'ulimit -v "$0" && exec "$@"', str(kibibytes), program.path,
                       *words]
            return subprocess.run(limited, input=given.encode(), stdout=subprocess.PIPE,
                                  stderr=subprocess.PIPE, timeout=60)

        def is_cut(kibibytes):
            end = ran(large, kibibytes)
            if (end.returncode, end.stdout, end.stderr) == (0, printed.encode(), b""):
                return False
            is_beginning = printed.encode().startswith(end.stdout)
            is_beginning = is_beginning and end.stdout[-1:] in (b"", b"\n")
            if end.returncode != 1 or end.stderr or not is_beginning:
                raise play.Wrong(f"{words} in {kibibytes} KiB: status {end.returncode}, "
                                 f"{end.stdout[-300:]!r}, {end.stderr[:300]!r}")
            return True
        little, enough = 0, 1 << 22
        while enough - little > 4:
            middle = (little + enough) // 2
            little, enough = (little, middle) if ran(small, middle).stdout else (middle, enough)
        if {is_cut(enough + 4 * more * more) for more in range(0, 64, 3)} != {False, True}:
            raise play.Wrong(f"{words}: in each space that was tried it had memory, or in none")


def built():
    """The program, proved and built by `rt run`."""
    ran = subprocess.run(["rt", "run", "--", "negotiate", "sha1", "auto", "sha1", "auto"],
                         cwd=CRATE, stdin=subprocess.DEVNULL, stdout=subprocess.PIPE,
                         stderr=subprocess.STDOUT)
    if ran.returncode:
        sys.stdout.buffer.write(ran.stdout)
        sys.exit("tool: not built")
    return os.path.join(CRATE, "out", "stun_tool")


def main(words):
    count, wrong = 0, 0
    is_exported = words[:1] == ["--exported"]
    for path in words[is_exported:] or [built()]:
        program = play.Program(path, REFUSED, is_exported)
        wrong += play.play(program, sorted(glob.glob(os.path.join(HERE, "*.txt"))))
        try:
            refuses_space(program)
        except play.Wrong as failure:
            print(failure, file=sys.stderr)
            wrong += 1
        count += program.count
    print(f"tool: {wrong} runs came otherwise" if wrong
          else f"tool: passed, {count} runs of the built program")
    return 1 if wrong else 0


if __name__ == "__main__":
    sys.exit(main(sys.argv[1:]))
