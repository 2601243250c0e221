r"""Plays transcripts of a built program: text files that say with which words it runs, what it
reads, prints and ends with.

A file is paragraphs, parted by empty lines. A paragraph is a run of the program. Its lines begin
with

    #        a comment
    $        the words after the program's name, parted by blanks; '' is an empty word. A paragraph
             without such a line has the words of the one before it, and one with several is a run
             for each
    <        a line of input; a \ at its end: no line feed comes after it
    <|       an input that is one line without a line feed; a paragraph with several is a run for
             each
    >        a line that is printed
    !        a line on the standard error
    =        the exit status, where it is not 0
    where    what fails in this run, below; a paragraph of such lines alone says it of all that
             follow and have none

`<*5 LINE` and `>*5 LINE` stand for the line five times, with the numbers 0 to 4 in place of its #.
In words, input and output `{0*100}` stands for 100 zeros, and `{request NONCE=n REALM=r USERNAME=u
MI=u:r:p}` for the hexadecimal digits of that message. In words and input \t \r \n \f \v \0 \s \\
stand for a tab, a carriage return, a line feed, a form feed, a vertical tab, a zero, a blank and a
\. \xff stands for that byte.

A message is a class, `request`, `indication`, `success` or `error`, and attributes TYPE=VALUE in
order. TYPE is a name of RFC 8489, or `0x` and four digits. VALUE is a text, `a*764` for 764
letters, nothing, or `0x` and digits. Of `ERROR-CODE` it is a code and a phrase, of `USERHASH`
`user:realm`. Of `PASSWORD-ALGORITHM` and `PASSWORD-ALGORITHMS` it is the algorithms `MD5` and
`SHA256`. `MI` and `MI256` are MESSAGE-INTEGRITY and MESSAGE-INTEGRITY-SHA256: a digest under a
password, `user:realm:password` or `key:HEX`, over what stands before it. ID is the number of the
transaction, 1 where it is left out.

    where stdout full | closed | broken       writes to /dev/full, to no descriptor, to a pipe that
                                              nobody reads
    where stderr full | closed
    where stdin closed | folder | write-only | endless      endless: /dev/zero
    where stdin unread                        a file whose first byte is still to be read when the
                                              program ends
    where slow                                a read gives one byte, every second read is
                                              interrupted; so do writes
    where reads fail after FIRST..LAST        reads are slow, and fail after each of these numbers
                                              of bytes
    where reads endless | interrupted         each gives a digit 0, or is interrupted, and there are
                                              1048576
    where writes fail | stop | stall          a write takes one byte, up to each number of bytes
                                              that is less than all, and then fails, takes nothing,
                                              or is interrupted without an end: that beginning is
                                              printed
    where allocations refused [slow]          each in turn, and each with all after it

Four are left out for a program of the exported crate (`is_exported`), because of what Rust's
standard library does by itself. `closed`: it opens /dev/null for a standard file that is closed,
before the program begins. `write-only`: it takes an input that cannot be read for an empty one.
`stall`: it repeats a write that was interrupted for ever. `allocations refused`: it needs memory of
its own, and ends the process without it.

Where there are several, each is a run. The last five load `strain.c` before the C library, and need
a C compiler. A run that ends for want of memory has the status and the errors that `on_failure`
names, or no errors. It has printed whole lines from the first on.
"""

import concurrent.futures
import hashlib
import os
import re
import select
import shutil
import subprocess
import sys
import tempfile

HERE = os.path.dirname(os.path.abspath(__file__))
sys.path.insert(0, os.path.join(HERE, ".."))
import stun  # noqa: E402

MOST_READS = 1048576

CLASSES = {"request": stun.REQUEST, "indication": stun.INDICATION, "success": stun.SUCCESS,
           "error": stun.ERROR}
# Other types by their names in stun.py, with `-` for `_`.
TYPES = {"MI": stun.INTEGRITY, "MI256": stun.INTEGRITY_SHA256}
ALGORITHMS = {"MD5": bytes.fromhex("00010000"), "SHA256": bytes.fromhex("00020000"), "": b""}


class Wrong(Exception):
    """A file that is none, or a run that came otherwise."""


# Messages (RFC 8489, sections 5, 9 and 14).

def type_of(name):
    return TYPES.get(name) or getattr(stun, name.replace("-", "_"), None) or int(name, 16)


def key_of(algorithm, secret):
    if secret.startswith("key:"):
        return bytes.fromhex(secret[4:])
    if secret.count(":") != 2:
        return secret.encode()
    return stun.key_of(algorithm, *secret.split(":"))


def value_of(name, text):
    repeated = re.fullmatch(r"(.)\*(\d+)", text)
    if repeated:
        return repeated[1].encode() * int(repeated[2])
    if text.startswith("0x"):
        return bytes.fromhex(text[2:])
    if name == "ERROR-CODE":
        code, _, phrase = text.partition(":")
        return bytes([0, 0, int(code) // 100, int(code) % 100]) + phrase.encode()
    if name == "USERHASH":
        return hashlib.sha256(text.encode()).digest()
    if name.startswith("PASSWORD-ALGORITHM"):
        return b"".join(ALGORITHMS[word] for word in text.split(","))
    return text.encode()


def message(text):
    kind, *attributes = text.split(" ")
    made = stun.message(CLASSES[kind], transaction=bytes(11) + b"\1")
    for name, _, value in (word.partition("=") for word in attributes):
        algorithm = {"MI": stun.SHA1, "MI256": stun.SHA256}.get(name)
        if name == "ID":
            made = made[:8] + int(value).to_bytes(12, "big") + made[20:]
        elif algorithm and not value.startswith("0x"):
            made = stun.signed(made, algorithm, key_of(algorithm, value))
        else:
            made = stun.added(made, type_of(name), value_of(name, value))
    return made


# Files.

def expanded(text):
    """A text with what its braces stand for."""
    text = re.sub(r"\{((?:request|indication|success|error)(?: [^{}]*)?)\}",
                  lambda found: message(found[1]).hex(), text)
    return re.sub(r"\{([^{}]+)\*(\d+)\}", lambda found: found[1] * int(found[2]), text)


ESCAPES = {"t": b"\t", "r": b"\r", "n": b"\n", "f": b"\f", "v": b"\v", "0": b"\0", "s": b" ",
           "\\": b"\\"}


def unescaped(text):
    parts = re.split(r"\\(x[0-9a-f]{2}|.)", text)
    def escape(part):
        return bytes.fromhex(part[1:]) if part[0] == "x" else ESCAPES[part]
    return b"".join(escape(part) if place % 2 else part.encode()
                    for place, part in enumerate(parts))


class Run:
    """What a run is given, and what it comes to."""

    def __init__(self, words, where, given):
        self.words, self.where, self.given = words, where, given
        self.printed, self.errors, self.status = b"", b"", 0


class Paragraph:
    """Runs that come to the same."""

    def __init__(self):
        self.words, self.where, self.lines, self.inputs = [], [], b"", []
        self.printed, self.errors, self.status = b"", b"", 0
        self.is_of_where_alone = True

    def take(self, line):
        if line.startswith("where "):
            self.where.append(line[6:])
            return
        self.is_of_where_alone = False
        mark, text = line[0], line[2:]
        repeated = re.match(r"[<>]\*(\d+) ", line)
        lines = [text]
        if repeated:
            lines = [line[repeated.end():].replace("#", str(number))
                     for number in range(int(repeated[1]))]
        if mark == "$":
            self.words.append([unescaped("" if word == "''" else word)
                               for word in expanded(text).split(" ")] if text else [])
        elif line.startswith("<|"):
            self.inputs.append(unescaped(expanded(line[3:])))
        elif mark == "<":
            for one in map(expanded, lines):
                is_open = re.search(r"(?<!\\)(\\\\)*\\$", one)
                self.lines += unescaped(one[:-1]) if is_open else unescaped(one) + b"\n"
        elif mark == ">":
            self.printed += "".join(expanded(one) + "\n" for one in lines).encode()
        elif mark == "!":
            self.errors += text.encode() + b"\n"
        elif mark == "=":
            self.status = int(text)
        else:
            raise Wrong(f"no line of a transcript: {line}")

    def runs(self, where):
        for words in self.words:
            for given in self.inputs or [self.lines]:
                run = Run(words, self.where or where, given)
                run.printed, run.errors, run.status = self.printed, self.errors, self.status
                yield run


def runs_of(path):
    """The runs of a file, each with the number of its first line."""
    with open(path, encoding="utf-8") as opened:
        lines = opened.read().split("\n")
    always, words, paragraph, first = [], [], None, 0
    for number, line in enumerate([*lines, ""], 1):
        if line.startswith("#"):
            continue
        if line:
            if paragraph is None:
                paragraph, first = Paragraph(), number
            paragraph.take(line)
        elif paragraph is not None:
            if paragraph.is_of_where_alone:
                always = paragraph.where
            else:
                words = paragraph.words = paragraph.words or words
                if not words:
                    raise Wrong(f"{path}:{first}: a run without words")
                for run in paragraph.runs(always):
                    yield first, run
            paragraph = None


# Runs.

class Program:
    def __init__(self, path, on_failure, is_exported=False):
        """The program, and the status and the lines on the standard error with which it ends where
        memory is refused; and whether it is of the exported crate."""
        self.path, self.on_failure = os.path.abspath(path), on_failure
        self.is_exported = is_exported
        self.count, self.library = 0, None

    def run(self, run, environment=None, shell=(), **how):
        self.count += 1
        with tempfile.TemporaryFile() as given:
            given.write(run.given)
            given.flush()
            given.seek(0)
            how = {"stdin": given, "stdout": subprocess.PIPE, "stderr": subprocess.PIPE,
                   "timeout": 120, **how}
            command = [*shell, self.path.encode(), *run.words]
            ran = subprocess.run(command, env={**os.environ, **(environment or {})}, **how)
        return ran.returncode, ran.stdout or b"", ran.stderr or b""

    def strained(self, run, **how):
        """A run with reads, writes or allocations that `strain.c` makes otherwise; what it counted
        comes last."""
        with tempfile.NamedTemporaryFile() as told:
            environment = {"LD_PRELOAD": self.library, "STRAIN_TOLD": told.name,
                           **{f"STRAIN_{name}": str(value) for name, value in how.items()}}
            status, printed, errors = self.run(run, environment)
            reads, allocations = map(int, told.read().split() or (0, 0))
        return (status, printed, errors), reads, allocations


def compare(what, wanted, ran):
    if wanted != ran:
        raise Wrong(f"{what}\n  wanted status {wanted[0]}, {wanted[1][-2000:]!r} and "
                    f"{wanted[2][:600]!r}"
                    f"\n  got status {ran[0]}, {ran[1][-2000:]!r} and {ran[2][:600]!r}")


def with_streams(program, run, stream, state):
    """A run whose standard input, output or error is of this kind."""
    number = {"stdin": 0, "stdout": 1, "stderr": 2}[stream]
    if state == "closed":
        closing = 'exec "$0" "$@" ' + ("<&-", ">&-", "2>&-")[number]
        return program.run(run, shell=["sh", "-c", closing], **{stream: None})
    if state == "broken":
        reader, writer = os.pipe()
        os.close(reader)
        # Another run that is just being started may have the reader for a moment.
        broken = select.poll()
        broken.register(writer, 0)
        while not broken.poll(1000):
            pass
        ran = program.run(run, **{stream: writer})
        os.close(writer)
        return ran
    if state == "folder":
        folder = os.open("/", os.O_RDONLY)
        ran = program.run(run, **{stream: folder})
        os.close(folder)
        return ran
    path, mode = {"full": ("/dev/full", "wb"), "write-only": (os.devnull, "wb"),
                  "endless": ("/dev/zero", "rb")}[state]
    with open(path, mode) as opened:
        return program.run(run, **{stream: opened})


def unread(program, run):
    with tempfile.TemporaryFile() as given:
        given.write(b"0" * 1000)
        given.flush()
        given.seek(0)
        ran = program.run(run, stdin=given)
        if os.lseek(given.fileno(), 0, os.SEEK_CUR) != 0:
            raise Wrong("its input was read")
    return ran


def play_strained(program, what, run, wanted, words):
    """The runs that `strain.c` makes."""
    if program.library is None:
        return
    kind, state = words[0], words[1:2]
    if kind == "slow":
        compare(what, wanted,
                program.strained(run, READS="slow", WRITES="slow")[0])
    elif kind == "reads" and state == ["fail"]:
        first, last = map(int, words[3].split(".."))
        for left in range(first, last + 1):
            compare(f"{what}: reads fail after {left} bytes", wanted,
                    program.strained(run, READS="slow", READ_LEFT=left)[0])
    elif kind == "reads":
        ran, reads, _ = program.strained(run, READS=state[0])
        compare(what, wanted, ran)
        if reads != MOST_READS:
            raise Wrong(f"{what}: {reads} reads")
    elif kind == "writes":
        for left in range(len(run.printed)):
            beginning = (wanted[0], run.printed[:left], wanted[2])
            compare(f"{what}: writes {state[0]} after {left} bytes", beginning,
                    program.strained(run, WRITES=state[0], WRITE_LEFT=left)[0])
    else:
        refuse(program, what, run, wanted, {"READS": "slow"} if words[2:] == ["slow"] else {})


def refuse(program, what, run, wanted, how):
    """Refuses each allocation in turn: a list that asks for more than it needs asks again for less,
    so one refusal need not end a run; a refusal of all from one on does."""
    def is_cut(first, last):
        ran = program.strained(run, REFUSED_FROM=first, REFUSED_TO=last, **how)[0]
        if ran == wanted:
            return False
        status, errors = program.on_failure
        # What was told of a capture before may be counted in a last line.
        told = re.sub(rb"(\A|\n)messages: [^\n]*\n\Z", rb"\1", ran[1])
        is_beginning = wanted[1].startswith(told) and ran[1][-1:] in (b"", b"\n")
        if ran[0] != status or ran[2] not in (b"", errors) or not is_beginning:
            compare(f"{what}: allocations {first} to {last} refused",
                    (status, b"a beginning", errors), ran)
        return True
    ran, _, count = program.strained(run, **how)
    compare(what, wanted, ran)
    for number in range(1, count + 1):
        is_cut(number, number)
        if not is_cut(number, 1 << 60):
            raise Wrong(f"{what}: goes on without allocation {number} of {count} and all after it")
    if count == 0 or is_cut(count + 1, 1 << 60):
        raise Wrong(f"{what}: needs other allocations than {count}")


# What Rust's standard library does otherwise than the proved programs.
LEFT_OUT = {"closed", "write-only", "stall", "allocations"}
STRAINS = {"slow", "reads", "writes", "allocations"}


def play_run(program, what, run):
    wanted = run.status, run.printed, run.errors
    where = [words for words in map(str.split, run.where)
             if not program.is_exported or not LEFT_OUT & set(words)]
    strains = [words for words in where if words[0] in STRAINS]
    streams = [words for words in where if words[0] not in STRAINS]
    for words in strains:
        play_strained(program, f"{what}: where {' '.join(words)}", run, wanted, words)
    if not run.where:
        compare(what, wanted, program.run(run))
    for stream, state in streams:
        is_unread = state == "unread"
        ran = unread(program, run) if is_unread else with_streams(program, run, stream, state)
        compare(f"{what}: where {stream} {state}", wanted, ran)


def strain_library(folder):
    """Compiles `strain.c`, where a C compiler is there."""
    compiler = os.environ.get("CC", "").split() or ["cc"]
    if not os.environ.get("CC") and not shutil.which("cc"):
        return None
    library = os.path.join(folder, "strain.so")
    command = [*compiler, "-shared", "-fPIC", "-O1", "-Wall", "-Wextra", "-Werror",
               os.path.join(HERE, "strain.c"), "-o", library, "-ldl"]
    subprocess.run(command, check=True)
    return library


def play(program, paths):
    """Plays files, prints what came otherwise, and tells how many paragraphs did."""
    wrong = 0
    with tempfile.TemporaryDirectory() as folder, concurrent.futures.ThreadPoolExecutor(4) as pool:
        program.library = strain_library(folder)
        if program.library is None:
            print(f"{os.path.basename(program.path)}: no C compiler, so no read, write or "
                  "allocation was made to fail by its number")
        begun = []
        for path in paths:
            for number, run in runs_of(path):
                words = b" ".join(run.words)[:300].decode(errors="replace")
                what = f"{os.path.basename(path)}:{number}: {words}"
                begun.append((what, pool.submit(play_run, program, what, run)))
        for what, one in begun:
            try:
                one.result()
            except (Wrong, OSError, subprocess.TimeoutExpired) as failure:
                print(failure if str(failure).startswith(what) else f"{what}: {failure}",
                      file=sys.stderr)
                wrong += 1
    return wrong
