#!/usr/bin/env python3
"""Runs what the pages show and compares what is printed.

    tools/transcripts.py FOLDER ..        each transcript of a page, with the programs of these
                                          folders
    tools/transcripts.py --first-minute   the command of CONTRIBUTING.md that needs no proof, in a
                                          fresh clone of this repository
    tools/transcripts.py --c ARCHIVE ..   the program in C of README.md, with these archives and
                                          flags, on that request; with the proved archive also the
                                          commands of examples/README.md
    tools/transcripts.py --rust FOLDER    the checks of the sample request that README.md and
                                          docs/TOOL.md show after `make export`, and the jobs in
                                          Rust of README.md, with the exported crate of that folder
    tools/transcripts.py --jobs FILE      writes the jobs in Rust of README.md as one program, which
                                          prints 401
    tools/transcripts.py --write FOLDER   each transcript as two files, .command and .wanted, beside
                                          request.bin and request.hex, to be run elsewhere

A transcript is an indented block. It is a line `$ COMMAND`, further lines of a here-document up to
its end word, and then what the command prints. That ends at the next `$` or the end of the block.
Commands run in a folder that has `request.bin`, the request of RFC 5769, section 2.1. A transcript
that uses a program which is not there is told as left out.
"""

import os
import re
import shutil
import subprocess
import sys
import tempfile

TOP = os.path.normpath(os.path.join(os.path.dirname(os.path.abspath(__file__)), ".."))
# Blocks that are run by name: each stands after a paragraph of a page that ends with these words.
SHOWN = {"rt": ("CONTRIBUTING.md", "not proved yet:"), "rust": ("docs/TOOL.md", "section 2.1."),
         "c": ("README.md", "servers and clients."),
         "c++": ("examples/README.md", "and the archives:")}


def text_of(path):
    with open(os.path.join(TOP, path)) as opened:
        return opened.read()


def pages():
    """All pages, those at the top first."""
    yield from sorted(name for name in os.listdir(TOP) if name.endswith(".md"))
    for folder in ("docs", "rust", "examples", "bench", "tests"):
        for at, names, here in os.walk(os.path.join(TOP, folder)):
            names[:] = sorted(set(names) - {"out", "target", "__pycache__"})
            for name in sorted(here):
                path = os.path.relpath(os.path.join(at, name), TOP)
                if path.endswith(".md") and not path.startswith("rust/src/"):
                    yield path


def blocks(text):
    """The indented blocks, each with the number of its first line."""
    lines = text.split("\n") + [""]
    block = []
    for number, line in enumerate(lines, 1):
        if line.startswith("    "):
            block.append(line[4:])
        elif block:
            yield number - len(block), block
            block = []


def transcripts(block):
    """The commands of a block, each with the lines that it is to print."""
    at = 0
    while at < len(block):
        if not block[at].startswith("$ "):
            at += 1
            continue
        command = [block[at][2:]]
        end = re.search(r"<<'?(\w+)'?", command[0])
        at += 1
        while end and command[-1] != end.group(1):
            command.append(block[at])
            at += 1
        printed = []
        while at < len(block) and not block[at].startswith("$ "):
            printed.append(block[at])
            at += 1
        yield command, printed


def missing(command, path):
    """The programs that a command runs and that are not there."""
    named = re.findall(r"(?:^|[|;(]) *([a-z_]+)", command[0].split("<<")[0])
    return [name for name in named if shutil.which(name, path=path) is None]


def lay_request(folder):
    """request.bin, the request of RFC 5769, section 2.1, and its digits, request.hex."""
    shutil.copy(os.path.join(TOP, "examples/request.hex"), folder)
    with open(os.path.join(folder, "request.bin"), "wb") as opened:
        opened.write(bytes.fromhex("".join(text_of("examples/request.hex").split())))


def all_transcripts():
    """Each with the page and the number of the line at which its block begins."""
    for page in pages():
        for number, block in blocks(text_of(page)):
            for command, printed in transcripts(block):
                yield page, number, command, printed


def run_all(folders):
    path = [*(os.path.abspath(folder) for folder in folders), os.environ["PATH"]]
    environment = {**os.environ, "PATH": os.pathsep.join(path)}
    passed, left, wrong = 0, set(), 0
    with tempfile.TemporaryDirectory() as scratch:
        lay_request(scratch)
        for page, number, command, wanted in all_transcripts():
            absent = missing(command, environment["PATH"])
            if absent:
                left.update(absent)
                continue
            ran = subprocess.run(["sh", "-c", "\n".join(command)], env=environment, cwd=scratch,
                                 timeout=60, text=True, stdout=subprocess.PIPE,
                                 stderr=subprocess.STDOUT)
            if ran.stdout.rstrip("\n").split("\n") == wanted:
                passed += 1
            else:
                wrong += 1
                print("transcripts: %s:%d: %s\nprinted:\n%s"
                      % (page, number, command[0], ran.stdout), file=sys.stderr)
    for name in sorted(left):
        print("transcripts: %s is not there, its transcripts are left out" % name)
    print("transcripts: %d as the documents say, %d not" % (passed, wrong))
    return wrong == 0


def write_all(folder):
    os.makedirs(folder, exist_ok=True)
    lay_request(folder)
    for count, (_, _, command, wanted) in enumerate(all_transcripts(), 1):
        for kind, lines in (("command", command), ("wanted", wanted)):
            with open(os.path.join(folder, "%d.%s" % (count, kind)), "w") as opened:
                opened.write("\n".join(lines) + "\n")
    return True


def in_clone(work):
    """What a function returns of a fresh clone."""
    with tempfile.TemporaryDirectory() as scratch:
        clone = os.path.join(scratch, "clone")
        subprocess.run(["git", "clone", "-q", TOP, clone], check=True)
        return work(clone)


def first_minute(clone):
    found = {name: block_named(name) for name in SHOWN}  # all of them, before the gate's long parts
    if not prints("valid MESSAGE-INTEGRITY\n", ["sh", "-ec", found["rt"]], cwd=clone):
        return False
    print("transcripts: the command of CONTRIBUTING.md that needs no proof prints what it says")
    return True


def block_named(name):
    page, words = SHOWN[name]
    end = r"\s+".join(map(re.escape, words.split()))
    found = re.search(end + r"\n\n((?:(?:    .*)?\n)+)", text_of(page)) or sys.exit(
        "transcripts: %s shows no block after the words '%s'" % (page, words))
    return re.sub(r"(?m)^    ", "", found.group(1)).strip() + "\n"


def prints(wanted, command, **how):
    ran = subprocess.run(command, capture_output=True, text=True, timeout=900, **how)
    if ran.returncode == 0 and ran.stdout == wanted:
        return True
    print("transcripts: %s printed:\n%s%s" % (command, ran.stdout, ran.stderr), file=sys.stderr)
    return False


def wrapped_in_c(scratch):
    """The commands of examples/README.md for C++, over the proved archives."""
    for name in ("include", "examples", "tests", "crates"):
        os.symlink(os.path.join(TOP, name), os.path.join(scratch, name))
    shown = block_named("c++")
    return prints(text_of("tests/cpp/check.txt"), ["sh", "-ec", shown + "./a.out"], cwd=scratch)


def inlined(archives):
    """The option over archives that lack the calls that are done in C, as the proved ones do
    (STUNP_INLINE_CALLS of stunp.h)."""
    listed = subprocess.run([os.environ.get("NM", "nm"), *archives], capture_output=True, text=True)
    return [] if " T stunp_strerror\n" in listed.stdout else ["-DSTUNP_INLINE_CALLS=1"]


def in_c(archives):
    named = os.environ.get("CC", "").split()
    if not named and shutil.which("cc") is None:
        print("transcripts: no C compiler is there, what pages show in C is left out")
        return True
    with tempfile.TemporaryDirectory() as scratch:
        source, program = os.path.join(scratch, "check.c"), os.path.join(scratch, "check")
        with open(source, "w") as opened:
            opened.write(block_named("c"))
        compiler = [*(named or ["cc"]), "-Wall", "-Wextra", "-Werror",
                    "-I" + os.path.join(TOP, "include"), *inlined(archives), source]
        if not prints("", compiler + archives + ["-o", program]):
            return False
        with open(os.path.join(TOP, "examples/request.hex")) as sample:
            if not prints("valid\n", [program], stdin=sample):
                return False
        print("transcripts: the program in C of README.md prints valid")
        has_both = shutil.which("cc") and shutil.which("c++")
        if archives != ["crates/stun_c/out/libstun_c.a"] or not has_both:
            return True
        if not wrapped_in_c(scratch):
            return False
        print("transcripts: the commands of examples/README.md for C++ print check.txt")
        return True


def write_jobs(path):
    """The jobs in Rust of README.md as one program. Returns their number."""
    jobs = text_of("README.md").split("## Everyday jobs")[1].split("\n## ")[0]
    jobs = [job for job in re.findall(r"\n\n((?:    .*\n|\n(?=    ))+)", jobs) if "pub fn" in job]
    lines = ["mod job%d {\n%s}\n" % job for job in enumerate(jobs)]
    with open(path, "w") as opened:
        opened.write("".join(lines) + text_of("tests/export/readme_main.rs"))
    return len(jobs)


def first_run():
    """The line of README.md that checks the sample request."""
    line = r"(?m)^    (target/export/target/debug/stun_tool check .*)$"
    found = re.search(line, text_of("README.md")) or sys.exit(
        "transcripts: README.md does not show how to check the sample request")
    return found.group(1)


def in_rust(folder):
    for command in (first_run(), block_named("rust")):
        if not prints("valid MESSAGE-INTEGRITY\n", ["sh", "-ec", command], cwd=TOP):
            return False
    source = os.path.join(folder, "examples", "readme.rs")
    try:
        count = write_jobs(source)
        if not prints("401\n", ["cargo", "run", "--quiet", "--example", "readme"], cwd=folder):
            return False
    finally:
        os.remove(source)
    print("transcripts: the command of TOOL.md, and that of README.md and its %d jobs do what they "
          "say" % count)
    return True


if __name__ == "__main__":
    if not sys.argv[1:]:
        sys.exit(__doc__)
    modes = {"--first-minute": lambda _: in_clone(first_minute), "--c": in_c,
             "--rust": lambda words: in_rust(words[0]),
             "--jobs": lambda words: write_jobs(words[0]),
             "--write": lambda words: write_all(words[0])}
    mode = modes.get(sys.argv[1])
    sys.exit(0 if (mode(sys.argv[2:]) if mode else run_all(sys.argv[1:])) else 1)
