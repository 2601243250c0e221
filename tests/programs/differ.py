#!/usr/bin/env python3
"""Runs the exported stun_tool and the proved one on random scripts and messages, and compares.

usage: tests/programs/differ.py EXPORTED PROVED [COUNT [SEED]]

Standard output, standard error and status must agree byte for byte. The seed of each case that
differs is printed: `tests/programs/differ.py EXPORTED PROVED 1 SEED` runs that case alone, and
shows it. Messages are those of tests/stun.py, and nonces are worked out, so that most requests go
far; then bytes are changed here and there.
"""
import base64
import collections
import concurrent.futures
import hashlib
import os
import random
import struct
import subprocess
import sys

sys.path.insert(0, os.path.join(os.path.dirname(os.path.abspath(__file__)), ".."))
import stun  # noqa: E402
from stun import ERROR_CODE, FINGERPRINT, INTEGRITY, INTEGRITY_SHA256, NONCE  # noqa: E402
from stun import PASSWORD_ALGORITHM, PASSWORD_ALGORITHMS, REALM, SOFTWARE  # noqa: E402
from stun import USERHASH, USERNAME, attribute  # noqa: E402

ALGORITHMS = {"sha1": stun.SHA1, "sha256": stun.SHA256}
LETTERS = "ABCDEFGHIJKLMNOPQRSTUVWXYZabcdefghijklmnopqrstuvwxyz0123456789"
CHOICES = {"sha1": b"\0\1\0\0", "sha256": b"\0\2\0\0"}
NAMES = ["user", "u", "ann", "nobody", "a" * 70, "\u00fcser", "b" * 509, "x:y"]
FEATURES = ["auto", "required", "disabled"]
LISTS = ["sha1", "sha256", "sha1,sha256", "sha256,sha1"]


def message(kind, attributes, number=1):
    empty = stun.message(kind, transaction=number.to_bytes(12, "big"))
    return stun.stating(empty, len(attributes)) + attributes


def signed(whole, key, algorithm):
    return stun.signed(whole, ALGORITHMS[algorithm], key)


def long_key(algorithm, name, realm, password):
    return stun.key_of(ALGORITHMS[algorithm], name, realm, password)


def spoilt(rng, whole):
    """Most messages stay. Of others bytes change, or the end is cut or longer."""
    way, whole = rng.randrange(24), bytearray(whole)
    if way < 3 and whole:
        for _ in range(way + 1):
            whole[rng.randrange(len(whole))] ^= 1 << rng.randrange(8)
    elif way == 3:
        del whole[rng.randrange(len(whole) + 1):]
    elif way == 4:
        whole += rng.randbytes(rng.randrange(9))
    elif way == 5 and len(whole) > 3:
        whole[2:4] = struct.pack(">H", rng.choice([0, 4, len(whole) - 20, 65532]) & 0xffff)
    return bytes(whole)


def other_attributes(rng):
    pool = [
        lambda: attribute(SOFTWARE, rng.randbytes(rng.randrange(9))),
        lambda: attribute(rng.randrange(65536), rng.randbytes(rng.randrange(40))),
        lambda: attribute(ERROR_CODE, bytes([0, 0, rng.randrange(8), rng.randrange(101)]) + b"why"),
        lambda: attribute(0x0020, b"\0" + rng.choice([b"\1", b"\2"]) + rng.randbytes(18)),
        lambda: attribute(FINGERPRINT, rng.randbytes(4)),
        lambda: attribute(USERNAME, rng.choice(NAMES).encode()),
    ]
    return b"".join(rng.choice(pool)() for _ in range(rng.choice([0, 0, 0, 1, 2, 5])))


def check_case(rng):
    password = rng.choice(["VOkJxbRl1RmTxUk/WvJxBt", "p", "", "\u00fc" * 40, "k" * 65])
    whole = message(rng.choice([1, 0x11, 0x101, 0x111, rng.randrange(0x4000)]),
                    other_attributes(rng), rng.getrandbits(96))
    for algorithm in rng.choice([[], ["sha1"], ["sha1"], ["sha256"], ["sha1", "sha256"]]):
        key = password if rng.randrange(6) else password + "x"
        whole = signed(whole, key.encode(), algorithm) + other_attributes(rng)
        if rng.randrange(12) == 0:
            whole += attribute(rng.choice([INTEGRITY, INTEGRITY_SHA256]), bytes(rng.randrange(40)))
        whole = whole[:2] + struct.pack(">H", (len(whole) - 20) & 0xffff) + whole[4:]
    digits = spoilt(rng, whole).hex()
    if rng.randrange(5) == 0:
        digits = digits.upper()
    if rng.randrange(5) == 0:
        at = rng.randrange(len(digits) + 1)
        digits = digits[:at] + rng.choice([" ", "\n\t\r\f", "g", "0", "\u00fc"]) + digits[at:]
    words = ["check", password]
    return (words if rng.randrange(50) else words + ["more"]), digits.encode()


def schedule_case(rng):
    def number():
        return str(rng.choice([0, 1, 2, 499, 500, 39500, rng.randrange(10**rng.randrange(1, 21))]))

    words = ["schedule", rng.choice(["udp", "udp", "tcp", "sctp"][:3 + (rng.randrange(9) == 0)]),
             number(), rng.choice(["-", number()]), rng.choice("0 1 2 7 30 999 1000 1001".split()),
             number()]
    if rng.randrange(2):
        words += ["answer", number(), rng.choice(["10.0.0.2:3478", "10.0.0.2:3479", "10.0.0.3:3478",
                                                  "1.2.3", "010.0.0.2:3478"])]
    return words, b""


def negotiate_case(rng):
    words = ["negotiate", rng.choice(LISTS), rng.choice(FEATURES), rng.choice(LISTS),
             rng.choice(FEATURES)]
    if rng.randrange(8) == 0:
        words[rng.randrange(1, 5)] = rng.choice(["", "md5", "sha1,sha1", "sha256,sha1,", "Auto"])
    return words, b""


class Script:
    """A script for `serve`, with what the server is known to have."""

    def __init__(self, rng):
        self.rng, self.realm = rng, rng.choice(["realm", "r", "\u00fc" * 30, "x" * 763])
        self.users, self.lines, self.now = {}, [], 0
        self.algorithms, self.feature, self.nonces = ["sha1"], "auto", {}

    def front(self):
        bits = 0x80 * ("sha256" in self.algorithms) + 0x40 * (self.feature != "disabled")
        return "obMatJos2" + base64.b64encode(bytes([bits, 0, 0])).decode() if bits else ""

    def letters(self):
        return "".join(self.rng.choice(LETTERS) for _ in range(16))

    def request(self, place):
        """A request as an honest client would send it, with something wrong here and there."""
        rng = self.rng
        name = rng.choice(list(self.users) or NAMES) if rng.randrange(8) else rng.choice(NAMES)
        password = self.users.get(name, "pass") if rng.randrange(8) else "wrong"
        algorithm = rng.choice(self.algorithms) if rng.randrange(8) else rng.choice(list(CHOICES))
        nonce = self.nonces.get(place, "none") if rng.randrange(8) else self.letters()
        realm = self.realm if rng.randrange(12) else "other"
        who = attribute(USERNAME, name.encode())
        if rng.randrange(3) == 0:
            who = attribute(USERHASH, hashlib.sha256(f"{name}:{self.realm}".encode()).digest())
        lists = b""
        if "sha256" in self.algorithms and rng.randrange(8):
            lists = attribute(PASSWORD_ALGORITHMS, b"".join(
                CHOICES[one] for one in ("sha256", "sha1") if one in self.algorithms))
            lists += attribute(PASSWORD_ALGORITHM, CHOICES[algorithm])
        parts = [who, attribute(NONCE, nonce.encode()), attribute(REALM, realm.encode()), lists]
        if rng.randrange(4) == 0:
            del parts[rng.randrange(4)]
        whole = message(rng.choice([1, 1, 1, 0x11, 0x101]), b"".join(parts) + other_attributes(rng),
                        rng.getrandbits(96))
        return signed(whole, long_key(algorithm, name, self.realm, password), algorithm)

    def add_line(self):
        rng = self.rng
        place = rng.choice(["10.0.0.1:1", "10.0.0.1:1", "10.0.0.1:3478", "10.0.0.2:1"])
        way = rng.randrange(24) if len(self.lines) > 2 else rng.choice([0, 3])
        if way < 2:
            name, password = rng.choice(NAMES), rng.choice(["pass", "p", "word" * 30])
            self.users[name] = password
            line = f"user {name} {password}"
        elif way == 2:
            name = rng.choice(NAMES)
            self.users.pop(name, None)
            line = f"remove-user {name}"
        elif way == 3:
            algorithm = rng.choice(list(CHOICES))
            if rng.randrange(3):
                self.algorithms = sorted({*self.algorithms, algorithm})
                line = f"integrity add {algorithm}"
            else:
                self.algorithms = [algorithm]
                line = f"integrity set {algorithm}"
        elif way == 4:
            self.feature = rng.choice(FEATURES)
            line = f"anonymous {self.feature}"
        elif way == 5:
            moment = self.now + rng.randrange(99999)
            line = rng.choice([f"remove-client {place}", f"forget {moment}"])
        elif way == 6:
            line = f"expiry {rng.choice([29, 30, 31, 600, 0, 2**64 - 1])}"
        elif way < 12:
            kind = rng.choice([0x101, 0x111, 0x111, 0x11])
            parts = other_attributes(rng)
            if kind == 0x111 and rng.randrange(4):
                parts = attribute(ERROR_CODE, b"\0\0\4" + bytes([rng.choice([1, 38, 0])]) + b"no")
            line = f"sign {place} {spoilt(rng, message(kind, parts)).hex()}"
        else:
            self.now += rng.choice([0, 1, 1000, 40000, 700000])
            letters = self.letters()
            whole = spoilt(rng, self.request(place))
            if place not in self.nonces or rng.randrange(5) == 0:
                self.nonces[place] = self.front() + letters
            line = f"validate {place} {self.now} {letters} {whole.hex()}"
        if rng.randrange(400) == 0:
            line = line.replace(" ", rng.choice(["", "  "]), 1)
        self.lines.append(line)


def serve_case(rng):
    script = Script(rng)
    for _ in range(rng.randrange(1, 30)):
        script.add_line()
    text = "\n".join(script.lines) + rng.choice(["", "\n", "\n\n"])
    return ["serve", script.realm], text.encode()


def case(seed):
    rng = random.Random(seed)
    make = rng.choice([check_case] * 4 + [schedule_case] * 2 + [negotiate_case] + [serve_case] * 5)
    return make(rng)


def run(program, words, given):
    done = subprocess.run([program, *words], input=given, capture_output=True, timeout=60)
    return done.returncode, done.stdout, done.stderr


def compare(programs, seed):
    words, given = case(seed)
    one, other = (run(program, words, given) for program in programs)
    return seed, one == other, (words[0], [line.split(b" ")[0:2] for line in one[1].split(b"\n")])


def main():
    if not 3 <= len(sys.argv) <= 5:
        sys.exit(__doc__)
    programs = sys.argv[1:3]
    count = int(sys.argv[3]) if len(sys.argv) > 3 else 20000
    first = int(sys.argv[4]) if len(sys.argv) > 4 else random.randrange(10**9)
    answers, wrong = collections.Counter(), []
    with concurrent.futures.ThreadPoolExecutor(4) as pool:
        for seed, is_same, (command, lines) in pool.map(lambda seed: compare(programs, seed),
                                                        range(first, first + count)):
            if not is_same:
                wrong.append(seed)
            for line in lines:
                if line != [b""] and command != "schedule":
                    answers[command + " " + b" ".join(line).decode(errors="replace")[:24]] += 1
    for seed in wrong[:20]:
        print(f"seed {seed}: {case(seed)[0]}")
        if count == 1:
            print(case(seed)[1].decode(errors="replace"))
            for program in programs:
                print(program, run(program, *case(seed)))
    told = {answer for answer in answers if not answer.startswith("serve signed ")}
    print(f"{len(told)} kinds of answers, of which the most frequent:")
    for answer in sorted(told, key=lambda answer: -answers[answer])[:30]:
        print(f"  {answers[answer]:7} {answer}")
    print(f"{count} cases from seed {first}: {len(wrong)} differ")
    return 1 if wrong else 0


if __name__ == "__main__":
    sys.exit(main())
