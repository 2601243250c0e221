#!/usr/bin/env python3
"""The crates of crates.txt: a sum of what each is proved from, and checks over what `rt ci` left.

    tools/crates.py archive CRATE  builds out/libCRATE.a over those, unless it was; status 3 where
                                   they are not there, or where a file has changed since

`rt ci` leaves the libraries that it proved in crates/*/out/rlib, and puts back those that stood
there before. `rt lib` takes only the latter, and would prove all crates below an archive once more.
A check by `rattle` itself takes the former, so that only the functions of the crate are proved.
"""
import functools
import hashlib
import json
import os
import re
import subprocess
import sys
import time
from pathlib import Path

TOP = Path(__file__).resolve().parent.parent
LEFT = TOP / "target/proved.left"


@functools.lru_cache(None)
def lines():
    """The line of each crate in crates.txt: its kind ("" or "staticlib") and what it uses."""
    found = re.findall(r"^(\w+)([\w ]*):(.*)$", (TOP / "crates.txt").read_text(), re.M)
    return {name: (kind.strip(), uses.split()) for name, kind, uses in found}


def uses(crate):
    """The crates of the repository that it uses."""
    every = lines()
    return [name for name in every[crate][1] if name in every]


def below(crate):
    """All crates of the repository below it."""
    found = []
    for name in uses(crate):
        found += [one for one in [*below(name), name] if one not in found]
    return found


@functools.lru_cache(None)
def sum_of_files(folder, patterns):
    total = hashlib.sha256()
    for path in sorted(path for pattern in patterns for path in folder.glob(pattern)):
        if path.is_file():
            total.update(repr((str(path.relative_to(folder)), path.read_bytes())).encode())
    return total.hexdigest()


def sum_of(crate, edits=None):
    """A sum of the crate's line, sources, specs and proofs, of those below, and of its edits."""
    parts = [lines()[crate], sum_of_files(TOP / "crates" / crate,
                                          ("src/**/*", "specs/**/*", "proofs/**/*"))]
    parts += [sum_of(name) for name in uses(crate)]
    parts += [sum_of_files(edits, ("*.edit",))] if edits else []
    return hashlib.sha256(repr(parts).encode()).hexdigest()[:32]


def library(crate):
    return TOP / "crates" / crate / "out/rlib" / f"{crate}.rlib"


def begin():
    """The sums of all crates and the time, before `rt ci`."""
    LEFT.unlink(missing_ok=True)
    return {crate: sum_of(crate) for crate in lines()}, time.time()


def end(sums, begun):
    """Notes which libraries `rt ci` left, after it passed: those have another time of change than one
    that it put back."""
    left = {}
    for crate, known in sums.items():
        file = library(crate) / "format"
        if file.is_file() and file.stat().st_ctime >= begun - 1 and known == sum_of(crate):
            left[crate] = known, hashlib.sha256(file.read_bytes()).hexdigest()
    LEFT.parent.mkdir(exist_ok=True)
    LEFT.write_text(json.dumps(left))


def is_left(crate):
    """Whether the library of a crate is the one that `rt ci` left, of the files as they are."""
    file = library(crate) / "format"
    if not LEFT.is_file() or not file.is_file():
        return False
    noted = json.loads(LEFT.read_text()).get(crate)
    return noted == [sum_of(crate), hashlib.sha256(file.read_bytes()).hexdigest()]


def kit():
    """The folder of the toolchain."""
    said = subprocess.run(["rt", "doc"], capture_output=True, text=True, check=True).stdout
    return os.path.dirname(said.strip())


def lanes(each, beside=0):
    """How many checks run side by side, each with one job: as RT_JOBS says, or else as many as there
    are processors and GB of memory for each, beside so many GB for others. (Four jobs in one check
    take more than twice the processor seconds of one, since each loads what it proves over.)"""
    if os.environ.get("RT_JOBS", "").isdigit():
        return int(os.environ["RT_JOBS"])
    free = int(re.search(r"MemAvailable:\s+(\d+)", Path("/proc/meminfo").read_text())[1]) // 1000000
    return max(1, min(os.cpu_count() or 1, (free - beside) // each))


def root_of(crate):
    """The root file of a crate, in its folder."""
    is_program = (TOP / "crates" / crate / "src/main.rt").exists()
    return f"src/{'main' if is_program else 'lib'}.rt"


def over_sources(crate, *more, kept=(), verb="check"):
    """The command that checks or builds the crate in its folder over the sources of the crates below
    it, which needs nothing that was built. Of these it proves what the crate's functions call.
    Crates in `kept`, with all below them, are taken as the libraries that `rt ci` left."""
    at, kind = kit(), lines()[crate][0]
    found = [name for name in below(crate) if name not in kept]
    named = {name: None for one in (*found, crate) for name in ("std", "core", *lines()[one][1])}
    words = [f"{at}/bin/rattle", verb, "--crate-name", crate, root_of(crate)]
    for name in named:
        if name in kept or name not in lines():
            place = library(name) if name in kept else f"{at}/rlibs/{name}.rlib"
            words += ["--extern", f"{name}={place}"]
    words += ["-L", f"dependency={at}/rlibs"]
    for name in kept:
        words += ["-L", f"dependency={library(name).parent}"]
    for name in found:
        uses_of = ",".join(dict.fromkeys(("core", "std", *lines()[name][1])))
        words += ["--lib", f"{name}:{uses_of}={TOP}/crates/{name}/{root_of(name)}"]
    words += ["--antt-project", f"{at}/rattle/logic/antt-project.json",
              "--logic-built", f"{at}/logic_built"]
    words += ["--crate-type", kind] if kind else []
    for name in (crate, *(below(crate) if kind or root_of(crate) == "src/main.rt" else ())):
        words += ["--links", f"{name}="]
    return [*words, *more]


def archive(crate):
    folder = TOP / "crates" / crate
    made, noted, proof = (folder / "out" / name for name in
                          (f"lib{crate}.a", "archive.sum", "proof.txt"))
    if all(map(Path.is_file, (made, noted, proof))) and noted.read_text() == sum_of(crate):
        print(proof.read_text(), end="")
        return 0
    noted.unlink(missing_ok=True)
    if not all(map(is_left, below(crate))):
        return 3
    command = over_sources(crate, "--jobs", str(min(4, os.cpu_count() or 1)), "--toolchain",
                           f"{kit()}/toolchain", "--backend", "llvm", "-o", f"out/lib{crate}.a",
                           kept=below(crate), verb="build")
    made.parent.mkdir(exist_ok=True)
    status = subprocess.run(command, cwd=folder, stdin=subprocess.DEVNULL, check=False).returncode
    if status == 0:
        noted.write_text(sum_of(crate))
    return status


def main():
    words = sys.argv[1:]
    if words[:1] == ["archive"] and len(words) == 2:
        return archive(words[1])
    sys.exit(__doc__)


if __name__ == "__main__":
    sys.exit(main())
