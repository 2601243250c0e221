#!/usr/bin/env python3
"""transcripts.py [--write] PROGRAM: plays the servers and the meetings of tests/transcripts over a
built `stun_tool`, each call of a server as a line of `serve`, and each pair as `negotiate`.

Messages are spelled by tests/spelling.py, outside the library. What `serve` has no line for is left
out and counted: a call that only reads something alone, and any other together with the rest of its
paragraph. The status is 1 if an answer is wrong.

Because a message may hold what an earlier call returned, each call is the last line of a script of
its own, after the lines of its paragraph before it. All paragraphs of the realm `realm` then make
one long script, in which users, records and settings are removed between two paragraphs, and which
must have the same answers. With --write, if each answer is right, that script becomes
crates/stun_tool/stdin and its answers crates/stun_tool/stdout. `rt ci` runs the program once with
these, as two compilers build it."""

import os
import string
import subprocess
import sys

HERE = os.path.dirname(os.path.abspath(__file__))
TESTS = os.path.join(HERE, "..", "..")
sys.path.insert(0, TESTS)
from spelling import Words, address, address_text, begins_with_digit, message, nanos, text, unhex

LETTERS = string.ascii_uppercase + string.ascii_lowercase + string.digits
# Calls that only read something, which `serve` does not print.
READING = ("client", "expiry", "hashes", "nonce", "realm", "signs-in", "sizes", "supported")
# What `serve` prints, and how transcripts write it.
PRINTED = (("ok", ""), ("too short", "too short"), ("not a message: truncated", "Truncated"),
           ("not a message: not stun", "NotStun"), ("not a message: too large", "TooLarge"))
FRONTS = ("validated ", "refused ", "signed ", "sign refused ")
# The settings of a new server.
NEW = {b"integrity": b"integrity set sha1", b"anonymous": b"anonymous auto",
       b"expiry": b"expiry 3600"}


class Left(Exception):
    """What `serve` has no line for."""


def replies(program, realm, lines):
    """The lines that the program prints for a script."""
    script = b"".join(line + b"\n" for line in lines)
    ran = subprocess.run([program, "serve", realm], input=script, stdout=subprocess.PIPE)
    if ran.returncode != 0:
        raise SystemExit(f"stun_tool serve ends with status {ran.returncode}: {ran.stdout[-200:]!r}")
    return ran.stdout.decode().split("\n")[:-1]


class Server:
    """A server of a realm, for one paragraph after another."""

    def __init__(self, program, realm):
        self.program, self.realm = program, realm
        self.lines, self.printed, self.undone = [], [], {}
        self.first = 0

    def ask(self, line):
        self.lines.append(line)
        printed = replies(self.program, self.realm, self.lines[self.first:])
        if len(printed) != len(self.lines) - self.first:
            raise SystemExit(f"stun_tool serve: {len(printed)} replies to {line[:200]!r}")
        printed = printed[-1]
        self.printed.append(printed)
        self.note(line.split(b" "))
        for front in FRONTS:
            if printed.startswith(front):
                return printed[len(front):]
        return dict(PRINTED).get(printed, f"{printed!r}")

    def note(self, words):
        """Notes the line that undoes this one."""
        undone = {b"user": b"remove-user", b"validate": b"forget-address",
                  b"sign": b"forget-address"}.get(words[0])
        if undone:
            self.undone[undone + b" " + words[1]] = None
        if words[0] in NEW:
            self.undone[NEW[words[0]]] = None

    def undo(self):
        """Makes the server a new one again, as far as its answers show."""
        for line in self.undone:
            self.lines.append(line)
            self.printed.append("ok")
        self.undone, self.first = {}, len(self.lines)

    def check(self):
        """All lines as one script have the answers of the scripts of the paragraphs."""
        if replies(self.program, self.realm, self.lines) != self.printed:
            raise SystemExit("stun_tool serve: other replies where all paragraphs are one script")


def word(value):
    """A word of a line, as bytes."""
    if not value or any(byte <= 0x20 for byte in value):
        raise Left("a word that a line cannot have")
    return value


class Stage:
    """What a paragraph is played on."""

    def __init__(self, program, shared, meanings):
        self.program, self.shared, self.meanings = program, shared, meanings
        self.now, self.origin, self.draws = 0, "10.0.0.1:12345", [0] * 16
        self.kept, self.server, self.replies, self.made = {}, None, [], 0

    def new(self, realm):
        self.end()
        self.server = self.shared if realm == "realm" else Server(self.program, realm)
        self.replies, self.made = [], 0
        return ""

    def end(self):
        if self.server is self.shared:
            self.shared.undo()
        self.server = None

    def ask(self, *words):
        if not self.server:
            self.new("")
        return self.server.ask(b" ".join(one if isinstance(one, bytes) else one.encode()
                                         for one in words))

    def message(self, words):
        return message(words, self.kept, self.meanings)

    def milliseconds(self):
        if self.now % 10**6:
            raise Left("a time that is not whole milliseconds")
        return str(self.now // 10**6)

    def address(self, name):
        octets, port = address(name)
        if len(octets) != 4:
            raise Left("an address of IPv6")
        return address_text(octets, port)

    # ---- Lines.

    def answer(self, call):
        """What comes of a line; None if only the line is left out."""
        words = call.split()
        if words and (begins_with_digit(words[0]) or words[0] == "max"):
            self.now = nanos(words.pop(0))
        if words[:1] == ["from"]:
            self.origin = words[1]
        elif words[:2] == ["draw", "all"]:
            self.draws = [int(words[2])] * 16
        elif words[:1] == ["draw"]:
            self.draws = ([int(one) for one in words[1:]] + [0] * 16)[:16]
        elif words[1:2] == ["="]:
            return self.store(words[0], words[2:])
        elif words[:2] == ["meet", "pair"]:
            return self.meet(words[2:])
        elif words[:1] == ["serve"]:
            return self.serve(words[1], words[2:])
        elif words[:1] == ["server"]:
            return self.call(words[1], words[2:], str.encode)
        else:
            return None
        return ""

    def store(self, name, words):
        if words[0] not in ("server", "serve"):
            self.kept[name] = self.message(words)
            return ""
        told = self.call(words[1], words[2:], str.encode)
        try:
            self.kept[name] = unhex(told)
            return f"{len(told) // 2} bytes"
        except Words:
            return told

    def meet(self, words):
        ran = subprocess.run([self.program, "negotiate", *words], stdout=subprocess.PIPE)
        return ran.stdout.decode().rstrip("\n")

    def serve(self, name, words):
        """The calls of a run are made at once, and its replies are printed later."""
        if name == "new":
            return self.new(text(words[0]).decode())
        if name == "call":
            told = self.call(words[0], words[1:], text)
            if told is None:
                raise Left(f"serve call {words[0]}")
            self.replies.append(told or "done")
            return ""
        if name == "run":
            before, self.made = self.made, len(self.replies)
            return f"{self.made - before} replies"
        return self.replies.pop(0) if self.replies else "none"

    def call(self, name, words, password):
        """A call of a server, with the password as it is or as a text of transcripts."""
        if name == "new":
            return self.new(text(words[0]).decode())
        if name == "hears":
            letters = "".join(LETTERS[draw] if draw < 62 else "?" for draw in self.draws)
            heard = self.message(words).hex()
            if "?" in letters or not heard:
                raise Left("a random number that no letter is")
            return self.ask("validate", self.address(self.origin), self.milliseconds(), letters,
                            heard)
        if name in ("signs", "signs-length"):
            told = self.ask("sign", self.address(self.origin), self.message(words).hex())
            is_length = name == "signs-length" and set(told) <= set(string.hexdigits)
            return str(len(told) // 2) if is_length else told
        if name == "add-user":
            return self.ask("user", word(text(words[0])), word(password(words[1])))
        if name == "remove-user":
            return self.ask("remove-user", word(text(words[0])))
        return self.set(name, words)

    def set(self, name, words):
        if name == "remove-client":
            return self.ask("remove-client", self.address(self.origin))
        if name == "forget" and words:
            return self.ask("forget-address", self.address(words[0]))
        if name == "forget":
            return self.ask("forget", self.milliseconds())
        if name in ("support", "support-only"):
            return self.ask("integrity", "add" if name == "support" else "set", words[0])
        if name == "hashes" and words:
            return self.ask("anonymous", words[0])
        if name == "expiry" and words:
            lifetime = nanos(words[0])
            if lifetime % 10**9:
                raise Left("a lifetime that is not whole seconds")
            return self.ask("expiry", str(lifetime // 10**9))
        if name in READING:
            return None
        raise Left(f"server {name}")


class Played:
    def __init__(self, program):
        self.program, self.right, self.wrong, self.left = program, 0, 0, 0
        self.shared = Server(program, "realm")

    def play(self, path):
        with open(path, encoding="utf-8") as file:
            paragraphs = file.read().rstrip("\n").split("\n\n")
        named = {one.split("\n")[0][:-1]: one for one in paragraphs if one.split(":\n")[1:]}
        meanings = {line.split()[0]: line.split()[1:] for one in paragraphs
                    for line in one.split("\n") if line.startswith("@")}
        for paragraph in paragraphs:
            stage = Stage(self.program, self.shared, meanings)
            self.paragraph(path, stage, paragraph, named)

    def paragraph(self, path, stage, paragraph, named):
        lines = [line for line in paragraph.split("\n")
                 if line and not line.startswith(("#", "@")) and not line.endswith(":")]
        is_left = False
        for line in lines:
            if line.startswith("like "):
                others = named[line[5:]].split("\n")
                for other in others:
                    if other and not other.startswith(("#", "@")) and not other.endswith(":"):
                        is_left = is_left or self.line(None, stage, other)
                continue
            is_left = is_left or self.line(path, stage, line)
            self.left += is_left
        stage.end()

    def line(self, path, stage, line):
        """Plays a line. Whether the rest of its paragraph is left out."""
        call, _, written = line.partition("->")
        words = call.split()
        is_server = any(one in ("server", "serve") for one in words[:4]) or "meet pair" in call
        written = written.strip()
        # `serve` writes a message again, so that one which is signed already is refused earlier.
        if written in ("?", "MessageIntegrityExists"):
            return False
        try:
            came = stage.answer(call)
        except (Left, Words):
            return True
        if came is None or path is None or not is_server:
            return False
        # The program does not print which attribute is there, nor whose refusal ends a meeting.
        wanted = written.split(" 0x")[0] if written.startswith("AttributeExists") else written
        wanted = wanted.replace("client refused", "refused").replace("server refused", "refused")
        if came.removeprefix("ok") == wanted:
            self.right += 1
        else:
            self.wrong += 1
            print(f"{path}\n  written: {line}\n  came:    {came}")
        return False


def write(program, shared):
    """Writes the lines of a server but the longest ones, without which its answers are the same."""
    pairs = [pair for pair in zip(shared.lines, shared.printed) if len(pair[0]) < 4000]
    if replies(program, shared.realm, [line for line, _ in pairs]) != [one for _, one in pairs]:
        raise SystemExit("the answers depend on the lines that are left out")
    lines = b"".join(line + b"\n" for line, _ in pairs)
    printed = "".join(answer + "\n" for _, answer in pairs).encode()
    crate = os.path.join(TESTS, "..", "crates", "stun_tool")
    for name, content in (("stdin", lines), ("stdout", printed)):
        with open(os.path.join(crate, name), "wb") as file:
            file.write(content)


def main(words):
    is_written = words[:1] == ["--write"]
    if len(words) != 1 + is_written:
        sys.exit(__doc__)
    folder, played = os.path.join(TESTS, "transcripts"), Played(words[-1])
    for name in sorted(os.listdir(folder)):
        if name.endswith(".txt"):
            played.play(os.path.join(folder, name))
    shared = played.shared
    shared.check()
    print(f"transcripts over {os.path.basename(words[-1])}: {played.right} calls right, "
          f"{played.wrong} wrong, {played.left} left out; {len(shared.lines)} lines of one server")
    if played.wrong or played.right < 500:
        return 1
    if is_written:
        write(words[-1], shared)
    return 0


if __name__ == "__main__":
    sys.exit(main(sys.argv[1:]))
