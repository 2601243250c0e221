#!/usr/bin/env python3
"""Runs the built stun_inspect on the transcripts of this folder. It compares its names with those
of `registry`, and its word on FINGERPRINTs with Python's zlib. It also reads an input of exactly
the most bytes, and one of a byte more, and a capture of more bytes than that.

    tests/programs/inspect/check.py [--exported] [PROGRAM ..]

With --exported each PROGRAM is one of the exported crate, and what Rust's standard library hides of
standard files is left out (tests/programs/play.py). Without a PROGRAM it takes crates/stun_inspect/out/stun_inspect. How the files are written says
tests/programs/play.py. It takes some twenty seconds. The last line counts the runs.
"""

import concurrent.futures
import glob
import os
import random
import struct
import subprocess
import sys
import tempfile
import zlib

HERE = os.path.dirname(os.path.abspath(__file__))
sys.path.insert(0, os.path.join(HERE, ".."))
sys.path.insert(0, os.path.join(HERE, "..", "captures"))
import packets  # noqa: E402
import play  # noqa: E402

REFUSED = 2, b"stun_inspect: an allocation failed\n"
FINGERPRINT = 0x8028

# The most bytes of an input.
LIMIT = 67_108_864
ENDLESS = b"the input does not end within 67108864 bytes and 1048576 reads\n"
NO_TEXT = (b"bad input at line 1, column 1: expected text, a capture, or a message, "
           b"which has 2112a442 at its byte 4\n")


def names():
    """The names of the registry's table, by kind and number."""
    with open(os.path.join(HERE, "registry"), encoding="utf-8") as opened:
        words = [line.split(" ", 2) for line in opened.read().split("\n")
                 if line and not line.startswith("#")]
    return {(kind, int(number, 0)): name.strip() for kind, number, name in words}


def decoded(program, message):
    """The lines that `decode` prints on a message."""
    program.count += 1
    ran = subprocess.run([program.path, "decode"], input=message, stdout=subprocess.PIPE,
                         stderr=subprocess.PIPE, timeout=120)
    if (ran.returncode, ran.stderr) != (0, b""):
        raise play.Wrong(f"decode of {message[:200].hex()}: status {ran.returncode}, "
                         f"{ran.stdout[:300]!r}, {ran.stderr[:300]!r}")
    return ran.stdout.decode().split("\n")[:-1]


def message(attributes, kind=1):
    return struct.pack(">HHI", kind, len(attributes), 0x2112A442) + bytes(11) + b"\1" + attributes


def wants(what, wanted, found):
    if wanted != found:
        raise play.Wrong(f"{what}: {found}, not {wanted}")


def names_attributes(program):
    """All 65536 types."""
    listed = names()
    for first in range(0, 0x10000, 0x3000):
        kinds = range(first, min(first + 0x3000, 0x10000))
        lines = decoded(program,
                        message(b"".join(struct.pack(">HH", kind, 0) for kind in kinds)))[3:]
        wants(f"lines on attributes from {first}", len(kinds), len(lines))
        for kind, line in zip(kinds, lines):
            wants(line, f"{listed.get(('attribute', kind), 'unregistered'):28} 0x{kind:04x}",
                  line.split(" at ")[0])


def names_methods(program):
    """All 4096 methods."""
    listed = names()

    def one(method):
        kind = method & 0xF | (method & 0x70) << 1 | (method & 0xF80) << 2
        name = listed.get(("method", method), "unregistered")
        wants(f"method {method}", f"{'method':28} {name} 0x{method:03x}",
              decoded(program, message(b"", kind))[1])
    with concurrent.futures.ThreadPoolExecutor(4) as pool:
        list(pool.map(one, range(0x1000)))


def names_errors(program):
    """All codes that an ERROR-CODE can have, 300 to 699."""
    listed, codes = names(), range(300, 700)
    attributes = b"".join(struct.pack(">HHHBB", 0x0009, 4, 0, code // 100, code % 100)
                          for code in codes)
    for code, line in zip(codes, decoded(program, message(attributes))[3:]):
        wants(line, f"{code} {listed.get(('error', code), 'unregistered')}, \"\"",
              line.split(" bytes  ")[1])


def fingerprint(before):
    return struct.pack(">HHI", FINGERPRINT, 4, zlib.crc32(before) ^ 0x5354554E)


def tells_fingerprints(program):
    """A right FINGERPRINT after bytes of each length, and one that is wrong once any bit before it
    or of its value is another, where the bytes are a message still."""
    drawn = random.Random(8489)
    for length in range(0, 260, 4):
        before = message(struct.pack(">HH", 0x8022, length) + drawn.randbytes(length))
        before = before[:2] + struct.pack(">H", len(before) - 20 + 8) + before[4:]
        wants(f"a FINGERPRINT after {len(before)} bytes", "right",
              decoded(program, before + fingerprint(before))[-1].split(", ")[-1])
    before = message(b"")[:2] + struct.pack(">H", 8) + message(b"")[4:]
    right = before + fingerprint(before)
    for place in [0, 1, *range(8, 20), *range(24, 28)]:
        for bit in range(6 if place == 0 else 8):
            changed = bytearray(right)
            changed[place] ^= 1 << bit
            wants(f"a FINGERPRINT with bit {bit} of byte {place} changed", "wrong",
                  decoded(program, bytes(changed))[-1].split(", ")[-1])


def reads_to_the_limit(program):
    """An input of exactly the most bytes is read, here only to be none, and one of a byte more is
    not."""
    for length, words in ((LIMIT, NO_TEXT), (LIMIT + 1, ENDLESS)):
        program.count += 1
        ran = subprocess.run([program.path, "decode"], input=b"\xff" * length,
                             stdout=subprocess.PIPE, stderr=subprocess.PIPE, timeout=120)
        wants(f"an input of {length} bytes", (2, b"", b"stun_inspect: " + words),
              (ran.returncode, ran.stdout, ran.stderr))


# The memory, in KiB, in which a capture of any size is read.
MOST_MEMORY = 20 * 1024


def reads_a_large_capture(program):
    """A capture of more bytes than any other input may have is read packet by packet, from a file
    and from standard input, in memory that does not grow with it."""
    one = packets.ipv4(packets.udp(message(b"")))
    other = packets.ipv4(packets.udp(b"\x80" * 60000))
    count = LIMIT // 60000 + 2
    limited = ["sh", "-c", f'ulimit -d {MOST_MEMORY} && exec "$@"', "sh", program.path, "decode"]
    with tempfile.NamedTemporaryFile(suffix=".pcap") as file:
        file.write(packets.pcap(101, [other] * count + [one]))
        file.flush()
        for words in ([file.name], []):
            program.count += 1
            with open(file.name, "rb") as given:
                ran = subprocess.run([*limited, *words], stdin=given, capture_output=True,
                                     timeout=120)
            lines = ran.stdout.decode().split("\n")
            wants("a large capture", (0, b"", f"message 1, packet {count + 1}, ",
                                      f"messages: 1, other UDP: {count}, no UDP: 0"),
                  (ran.returncode, ran.stderr, lines[0].split("20")[0], lines[-2:][0]))


def main(words):
    count, wrong = 0, 0
    is_exported = words[:1] == ["--exported"]
    for path in words[is_exported:] or [os.path.join(HERE, "..", "..", "..", "crates", "stun_inspect", "out",
                                       "stun_inspect")]:
        program = play.Program(path, REFUSED, is_exported)
        wrong += play.play(program, sorted(glob.glob(os.path.join(HERE, "*.txt"))))
        for subject in (names_attributes, names_methods, names_errors, tells_fingerprints,
                        reads_to_the_limit, reads_a_large_capture):
            try:
                subject(program)
            except (play.Wrong, ValueError) as failure:
                print(f"{subject.__name__}: {failure}", file=sys.stderr)
                wrong += 1
        count += program.count
    print(f"inspect: {wrong} runs came otherwise" if wrong
          else f"inspect: passed, {count} runs of the built program")
    return 1 if wrong else 0


if __name__ == "__main__":
    sys.exit(main(sys.argv[1:]))
