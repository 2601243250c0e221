#!/usr/bin/env python3
"""Tries the wrong edits of tests/wrong/CRATE/NAME.edit: the prover must refuse each.

    tools/wrong.py                 tries those that the record does not have as they are, and writes
                                   the record
    tools/wrong.py --all           tries all, and writes the record
    tools/wrong.py --whole         says whether the record is of the files as they are
    tools/wrong.py --look          says which edits cannot be made in the files as they are
    tools/wrong.py CRATE[/NAME] .. tries these

The record, tests/wrong/RECORD, has a line for each edit that was tried and refused: its sum, with
what decides whether it is wrong (tools/shown.py), as it was then. That is the edit, the files that
it changes, the contracts of what they call, and the definitions of these; of an edit that names a
law, the contract of the law too. So a comment, a proof, or a body in another file calls for no
edit: a proof cannot make a wrong body right.

An edit is a line `file: src/..`, and then pairs of lines `old: TEXT` and `new: TEXT`; further lines
`file:` begin the pairs of other files. It is made in a copy of the crate: first the function or the
module of the edit alone is checked (`rattle check --only`), over the libraries that `rt ci` left,
or else over the sources of the crates below (tools/only.py), which is slower. If that is still
proved, the whole crate is checked. What the prover has checked for an edit it does not check again
for the next one of the same worker. --show as the first word prints what the prover said.

An edit may change a body together with its definition. Its first line is `law: CRATE::PATH`, which
names a law of the crate or of one above it. Then the function of the edit must be proved, since
body and definition agree, and the law must not, over the edited sources.
"""
import collections
import concurrent.futures
import hashlib
import itertools
import os
import re
import shutil
import subprocess
import sys
import tempfile
import threading
import time
from pathlib import Path

import crates
import only
import shown

WRONG = crates.TOP / "tests/wrong"
RECORD = WRONG / "RECORD"
HEAD = "# Of each edit: the sum of what it was last tried against, and refused.\n"
LAW = re.compile(r"law: (\w+)::(\S+)\n")
# What the prover has checked of a crate, it does not check again for the next edit of it. Each
# worker has a folder of its own, for a run.
KEPT, WORKER = crates.TOP / "target/wrong", threading.local()


def edits_of(crate):
    return sorted((WRONG / crate).glob("*.edit"))


def every_edit():
    return [edit for crate in crates.lines() for edit in edits_of(crate)]


def name_of(edit):
    return f"{edit.parent.name}/{edit.stem}"


def line_of(edit):
    """The line of the record for an edit as it is: a sum of its text, of the lines of crates.txt that
    it reads, and of what decides whether it is wrong."""
    crate, text = edit.parent.name, edit.read_text()
    law = LAW.match(text)
    paths = {line[len("file: "):].strip() for line in text.splitlines() if line.startswith("file: ")}
    read = [crates.lines()[one] for one in sorted({crate, law[1]} if law else {crate})]
    decides = shown.decides(crate, crates.below(crate), paths, text,
                            (law[1], law[2], crates.below(law[1])) if law else None)
    summed = hashlib.sha256(repr([text, read, decides]).encode()).hexdigest()[:32]
    return f"{name_of(edit)} {summed}"


def known_lines():
    return RECORD.read_text().splitlines() if RECORD.exists() else []


def changed():
    """The edits whose line the record does not have."""
    known = known_lines()
    return [edit for edit in every_edit() if line_of(edit) not in known]


def in_words(edits):
    """The crates of edits with their numbers."""
    counts = collections.Counter(edit.parent.name for edit in edits)
    return ", ".join(f"{count} of {crate}" for crate, count in counts.items())


def edited(edit, folder):
    """The texts of the files that an edit changes, by their paths, and the place of its first."""
    texts, path, old, first = {}, None, None, None
    for line in edit.read_text().splitlines():
        kind, _, text = line.partition(": ")
        if kind == "file":
            path = text.strip()
        elif kind == "old":
            old = text
        elif line.startswith("new:"):
            texts.setdefault(path, (folder / path).read_text())
            if texts[path].count(old) != 1:
                raise ValueError(f"{path} has {texts[path].count(old)} times {old!r}")
            first = first or (path, texts[path].index(old))
            texts[path] = texts[path].replace(old, text)
    if not texts:
        raise ValueError("it has no pair of `old:` and `new:`")
    return texts, first


def law_of(edit):
    """The crate and the path of the law that an edit must break, if it names one."""
    named = LAW.match(edit.read_text())
    if not named:
        return None
    law, path = named.groups()
    if law not in crates.lines() or edit.parent.name not in [law, *crates.below(law)]:
        raise ValueError(f"{law} is neither its crate nor one above it")
    module, _, name = path.rpartition("::")
    file = crates.TOP / "crates" / law / "src" / (module.replace("::", "/") + ".rt")
    if not file.is_file() or f"pub fn {name}(" not in file.read_text():
        raise ValueError(f"there is no law {law}::{path}")
    return law, path


def names_at(crate, path, at):
    """The path of the function at a place of a file, and that of its module."""
    text = (crates.TOP / "crates" / crate / path).read_text()
    found = [name for (file, number), name in only.paths_of(crate)[0].items()
             if file == path and number <= text.count("\n", 0, at)]
    module = [part for part in path[len("src/"):-len(".rt")].split("/")
              if part not in ("mod", "lib", "main")]
    return [*found[-1:], *(["::".join(module)] if module else [])]


def check(crate, texts, *more, of=None):
    """Checks a copy of the crate with these texts in place of its own, or over that copy the crate
    `of` above it, over sources and the libraries that `rt ci` left, but for those that it is in."""
    kept_in = KEPT / str(os.getpid()) / getattr(WORKER, "name", "0") / (of or crate)
    kept_in.mkdir(parents=True, exist_ok=True)
    kept = [name for name in crates.below(of or crate) if crates.is_left(name)
            and name != crate and crate not in crates.below(name)]
    command = crates.over_sources(of or crate, "--jobs", "1", *more, "--incremental", str(kept_in),
                                  kept=kept)
    with tempfile.TemporaryDirectory(prefix=f"wrong-{os.getpid()}-") as room:
        for part in ("src", "specs", "proofs"):
            folder = crates.TOP / "crates" / crate / part
            if folder.is_dir():
                shutil.copytree(folder, f"{room}/{part}")
        for path, text in texts.items():
            with open(f"{room}/{path}", "w") as opened:
                opened.write(text)
        # A check ends with whoever asked for it.
        bound = ["setpriv", "--pdeathsig", "KILL"] if shutil.which("setpriv") else []
        if of not in (None, crate):
            command = [word.replace(f"={crates.TOP}/crates/{crate}/", f"={room}/")
                       for word in command]
        ran = subprocess.run([*bound, *command], text=True, stdin=subprocess.DEVNULL,
                             cwd=crates.TOP / "crates" / of if of not in (None, crate) else room,
                             stdout=subprocess.PIPE, stderr=subprocess.STDOUT, errors="replace",
                             check=False)
        ran.stdout = ran.stdout.replace(room, f"crates/{crate}")
        return ran


def verdict(crate, edit, is_shown):
    """Whether the prover refuses the crate with this edit, and why."""
    folder = crates.TOP / "crates" / crate
    try:
        texts, (path, at) = edited(edit, folder)
        law = law_of(edit)
    except (ValueError, OSError, TypeError) as error:
        return False, f"cannot be made: {error}"
    names = names_at(crate, path, at)
    if law:
        return verdict_of_law(crate, texts, names[0], law, is_shown)
    for name in names:
        ran = check(crate, texts, "--only", name)
        counts = re.search(r"^only=(\d+) proved=(\d+)", ran.stdout, re.M)
        if is_shown:
            print(ran.stdout, end="")
        if ran.returncode == 1 and counts and int(counts[2]) < int(counts[1]):
            return True, f"refused in {name}"
    ran = check(crate, texts)
    last = ran.stdout.rstrip("\n").rpartition("\n")[2]
    if ran.returncode == 1 and last.startswith("logic=not-proved"):
        told = next((line for line in ran.stdout.splitlines() if ": error" in line), "")
        return True, "refused in the crate: " + told[:120]
    if ran.returncode == 3:
        return True, "refused by a limit of the prover alone"
    if ran.returncode == 0:
        return False, "NOT REFUSED: the crate is still proved"
    return False, f"NOT TRIED: the check ended with {ran.returncode}:\n{ran.stdout[-2000:]}"


def verdict_of_law(crate, texts, name, law, is_shown):
    """Whether a body and its definition agree that are edited together, and break a law."""
    ran = check(crate, texts, "--only", name)
    if is_shown or ran.returncode != 0:
        print(ran.stdout, end="")
    if ran.returncode != 0 and not re.search(r"^only=\d+ proved=\d+", ran.stdout, re.M):
        return False, f"NOT TRIED: the check of {name} ended with {ran.returncode}"
    if ran.returncode != 0:
        return False, f"NOT TRIED: {name} is not proved, so its body and definition do not agree"
    ran = check(crate, texts, "--only", law[1], of=law[0])
    if is_shown:
        print(ran.stdout, end="")
    if f"fn {law[0]}::{law[1]}: not proved" in ran.stdout:
        return True, f"{name} is proved, and the law {law[0]}::{law[1]} is not"
    return False, f"NOT REFUSED: the check of the law ended with {ran.returncode}"


def sweep():
    """Removes the copies of runs that were killed, and what such runs kept."""
    for path in Path(tempfile.gettempdir()).glob("wrong-*-*"):
        if not Path("/proc", path.name.split("-")[1]).exists():
            shutil.rmtree(path, ignore_errors=True)
    for path in KEPT.glob("*"):
        if not Path("/proc", path.name).exists():
            shutil.rmtree(path, ignore_errors=True)


def named_worker(names=itertools.count()):
    """Gives a worker its name."""
    WORKER.name = str(next(names))


def tried(edits, is_shown=False):
    """Tries edits, tells of each, and returns those that are not refused."""
    sweep()
    wrong, begun = [], time.monotonic()
    with concurrent.futures.ThreadPoolExecutor(crates.lanes(3), initializer=named_worker) as pool:
        made = {pool.submit(verdict, edit.parent.name, edit, is_shown): edit for edit in edits}
        for done in concurrent.futures.as_completed(made):
            edit, (is_refused, why) = made[done], done.result()
            print(f"wrong: {name_of(edit)}: {why}", flush=True)
            wrong += [] if is_refused else [edit]
    print(f"wrong: {len(edits)} edits, in {time.monotonic() - begun:.0f} s; "
          + (f"not refused: {' '.join(sorted(map(name_of, wrong)))}" if wrong else "all refused"))
    return wrong


def try_changed(found):
    """Tries these edits, and writes the record."""
    print(f"wrong: {in_words(found) or 'the record is of the files as they are'}", flush=True)
    # (a file that changes meanwhile has another sum)
    lines = {edit: line_of(edit) for edit in every_edit()}
    wrong = tried(found) if found else []
    known = known_lines()
    kept = [line for edit, line in lines.items()
            if edit not in wrong and (edit in found or line in known)]
    RECORD.write_text(HEAD + "".join(line + "\n" for line in sorted(kept)))
    return 1 if wrong else 0


def look():
    """Prints which edits cannot be made, and returns the status."""
    wrong = 0
    for edit in every_edit():
        try:
            edited(edit, crates.TOP / "crates" / edit.parent.name)
            law_of(edit)
        except (ValueError, OSError, TypeError) as error:
            wrong += 1
            print(f"{edit.relative_to(crates.TOP)}:1: this edit cannot be made: {error}: "
                  "write it for the file as it is")
    print(f"wrong: {len(every_edit())} edits looked at, {wrong} cannot be made")
    return 1 if wrong else 0


def main():
    words = sys.argv[1:]
    if words == ["--look"]:
        return look()
    if words == ["--whole"]:
        found = changed()
        print(f"wrong: not tried as they are now: edits, {in_words(found)}: run `make wrong`"
              if found else "wrong: the record is of the files as they are")
        return 1 if found else 0
    if words in ([], ["--all"]):
        return try_changed(every_edit() if words else changed())
    is_shown = words[0] == "--show"
    named = [edit for word in words[is_shown:] for edit in
             ([WRONG / f"{word}.edit"] if "/" in word else edits_of(word))]
    if not named or not all(edit.is_file() for edit in named):
        sys.exit(__doc__)
    return 1 if tried(named, is_shown) else 0


if __name__ == "__main__":
    sys.exit(main())
