#!/usr/bin/env python3
"""The record of the proof, PROOF.txt: of each crate what `rt ci` proved.

    tools/proof.py            runs `rt ci`, and then writes the line of each crate that it passed
    tools/proof.py --look     says which lines are not of the files as they are
    tools/proof.py --whole    the same, and the status is 1 if there are any

A line has the crate, its functions and the clauses of their contracts as the sources have them, the
processor seconds of the proof, and the sum of what it was proved from: its line of crates.txt, its
sources, definitions and proofs, and those of the crates below. A crate that `rt ci` kept from an
earlier run keeps its line, or has `-` for the seconds. If the sum of a line is that of the files,
--look counts again what the line says, except for the seconds. Another sum fails only --whole.
"""
import collections
import hashlib
import os
import re
import subprocess
import sys
import threading
from pathlib import Path

import crates

RECORD = crates.TOP / "PROOF.txt"
HEAD = """\
# What `rt ci` proved: of each crate the functions and the clauses of their contracts, as they are in
# the sources, the processor seconds (-: kept from an earlier run), and the sum of all that it was
# proved from. tools/proof.py says how this is written and looked at.
"""
FUNCTION = re.compile(r'(?m)^ *(?:pub(?:\([^)]*\))? )?(?:(?:final|const|unsafe|extern "C") )*fn \w')
CLAUSE = re.compile(r"(?m)^ *(?:ensures|requires)\*?(?: \w+)? \{")
LINE = re.compile(r"(?m)^(\w+) (\d+ functions \d+ clauses) (\d+|-) s ([0-9a-f]{32})$")
PASSED = re.compile(r"(?m)^rt: (\w+) (?:proved$|is kept: )")
MARK, EVERY = f"PROOF_RUN={os.getpid()}", 2


def counted(crate):
    """The functions and the clauses of the crate's sources, as a line has them."""
    source = crates.TOP / "crates" / crate / "src"
    text = "\n".join(path.read_text() for path in sorted(source.rglob("*.rt")))
    return f"{len(FUNCTION.findall(text))} functions {len(CLAUSE.findall(text))} clauses"


def known_lines():
    """The lines of the record, by their crates."""
    text = RECORD.read_text() if RECORD.is_file() else ""
    return {line[1]: line for line in LINE.finditer(text)}


def samples():
    """The processes of rattle that prove a crate for this run: of each ID and crate the processor
    seconds so far, with those of the processes that it started and that ended."""
    found = {}
    for folder in Path("/proc").glob("[0-9]*"):
        try:
            words = (folder / "cmdline").read_bytes().decode(errors="replace").split("\0")
            if not words[0].endswith("/rattle") or "--crate-name" not in words:
                continue
            variables = (folder / "environ").read_bytes().decode(errors="replace").split("\0")
            fields = (folder / "stat").read_text().rpartition(")")[2].split()
        except OSError:
            continue
        if MARK in variables and "--test" not in words:
            seconds = sum(map(int, fields[11:15])) / os.sysconf("SC_CLK_TCK")
            found[folder.name] = fields[1], words[words.index("--crate-name") + 1], seconds
    return {(number, crate): seconds for number, (parent, crate, seconds) in found.items()
            if parent not in found}


def watch(took, is_ended):
    """Notes every few seconds how long each check took so far."""
    while not is_ended.wait(EVERY):
        took.update(samples())


def prove():
    """Runs `rt ci`, prints what it prints, writes the record, and returns the status."""
    said = subprocess.run("git rev-parse HEAD && git status --porcelain", shell=True, cwd=crates.TOP,
                          capture_output=True, text=True, check=False).stdout.split("\n")
    print(f"commit: {said[0]}{', with changes' if any(said[1:]) else ''}", flush=True)
    (sums, begun), took, is_ended = crates.begin(), {}, threading.Event()
    threading.Thread(target=watch, args=(took, is_ended), daemon=True).start()
    # With 3 GB for the exported crate, which is built and tested beside it.
    os.environ |= {"PROOF_RUN": str(os.getpid()), "RT_JOBS": str(crates.lanes(4, 3))}
    with subprocess.Popen(["rt", "ci"], cwd=crates.TOP, text=True, errors="replace",
                          stdout=subprocess.PIPE, stderr=subprocess.STDOUT) as ran:
        log = []
        for line in ran.stdout:
            print(line, end="", flush=True)
            log.append(line)
    crates.sum_of_files.cache_clear()  # since files may have changed meanwhile
    if ran.returncode == 0:
        crates.end(sums, begun)
    is_ended.set()
    seconds = collections.Counter()
    for (_, crate), one in took.copy().items():
        seconds[crate] += one
    write(PASSED.findall("".join(log)), sums, seconds)
    return ran.returncode


def toolchain():
    """The lines of the record that name the toolchain."""
    compiler = f"{crates.kit()}/bin/rattle"
    kit, version = (subprocess.run(words, capture_output=True, text=True, check=True).stdout.strip()
                    for words in (["rt", "version"], [compiler, "--version"]))
    digest = hashlib.sha256(Path(compiler).read_bytes()).hexdigest()
    return f"kit: {kit}\ncompiler: {version}, sha256 {digest}\n"


def write(passed, sums, took):
    """Writes the lines of the crates that passed, if their files are as they were. Other lines stay,
    if they are of this toolchain."""
    by, rows = toolchain(), []
    known = known_lines() if RECORD.is_file() and by in RECORD.read_text() else {}
    for crate in crates.lines():
        total = crates.sum_of(crate)
        line = known.get(crate)
        if crate in passed and sums[crate] == total and (not line or line[4] != total):
            seconds = f"{took[crate]:.0f}" if crate in took else "-"
            rows.append(f"{crate} {counted(crate)} {seconds} s {total}\n")
        elif line:
            rows.append(f"{line[0]}\n")
    RECORD.write_text(HEAD + by + "".join(rows))


def look(is_whole):
    known, wrong = known_lines(), 0
    old = [crate for crate in crates.lines()
           if crate not in known or known[crate][4] != crates.sum_of(crate)]
    for crate in [crate for crate in known if crate not in old]:
        if crate not in crates.lines() or counted(crate) != known[crate][2]:
            wrong += 1
            print(f"PROOF.txt: the line of {crate} is not of its files: write it by tools/proof.py")
    if old:
        print(f"proof: PROOF.txt is not of the files as they are: {' '.join(old)}: run .ci/run")
    print(f"proof: of the files as they are: {len(crates.lines()) - len(old)} lines of PROOF.txt; "
          f"not: {len(old)}; wrong: {wrong}")
    return 1 if wrong or (is_whole and old) else 0


def main():
    words = sys.argv[1:]
    if words in (["--look"], ["--whole"]):
        return look(words == ["--whole"])
    return sys.exit(__doc__) if words else prove()


if __name__ == "__main__":
    sys.exit(main())
