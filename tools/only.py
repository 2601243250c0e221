#!/usr/bin/env python3
"""Proves functions of a crate over the sources of the crates below it, in a fresh clone.

    tools/only.py CRATE FUNCTION ..    FUNCTION is the end of a path that fits one function alone:
                                       `call`, `Type::call`, `TypeTrait::call`; or the whole path
                                       of a module or a type, for all its functions

Nothing has to be proved or built before: the prover proves these functions and those that they
call, in the crates below too, and nothing else of these. So a run takes half a minute of the
processor for a function that calls little, and minutes for one that calls much. What it keeps is in
the crate's out/only, and the next run begins with it. A name that fits nothing or several is
refused at once, with those that are near to it. It is no verdict on the crate: `rt ci CRATE` gives
that.
"""
import difflib
import functools
import os
import re
import subprocess
import sys
import time

import crates

# What a function stands in, by the indentation of `rt fmt`: an impl of a type or of a trait for it,
# or a trait.
HEAD = re.compile(r"(?:impl\b(?:<[^{]*?>)? (?:([\w:]+)(?:<[^{]*?>)? for )?|"
                  r"(?:pub(?:\([^)]*\))? )?trait )&?(?:'\w+ )?(?:mut )?([\w:]+)")
DECLARED = re.compile(r"(?:pub(?:\([^)]*\))? )?(?:struct|enum|trait) (\w+)")
FUNCTION = re.compile(r'( *)(?:pub(?:\([^)]*\))? )?(?:(?:final|const|unsafe|extern "C") )*fn (\w+)')


def last(path):
    return path.strip(":").rpartition("::")[2]


def modules(crate):
    """The modules of a crate that are files, each with its path, its file and its lines."""
    folder = crates.TOP / "crates" / crate
    for file in sorted((folder / "src").rglob("*.rt")):
        module = [part for part in file.relative_to(folder / "src").with_suffix("").parts
                  if part not in ("lib", "main", "mod")]
        yield module, str(file.relative_to(folder)), file.read_text().split("\n")


@functools.lru_cache(None)
def paths_of(crate):
    """The paths of the functions of a crate, each with its file and line, and those of its types and
    modules, below the crate. A method is named by the module that declares its type, and in an impl
    of a trait by both."""
    functions, others, at = {}, set(), {}
    for module, _, lines in modules(crate):
        declared = filter(None, map(DECLARED.match, lines))
        at |= {(kind, tuple(module)): module for kind in (one[1] for one in declared)}
        others |= {"::".join(module[:end]) for end in range(1, len(module) + 1)}
    homes = {kind: module for (kind, _), module in reversed(at.items())}
    others |= {"::".join([*module, kind]) for (kind, _), module in at.items()}
    for module, file, lines in modules(crate):
        inside = []
        for number, line in enumerate(lines):
            head, function = HEAD.match(line), FUNCTION.match(line)
            if head:
                trait, kind = head.groups()
                home = at.get((last(kind), tuple(module)), homes.get(last(kind), module))
                inside = [*home, last(kind) + last(trait or "")]
            elif line[:1] == "}":
                inside = []
            elif function:
                path = [*(inside if function[1] and inside else module), function[2]]
                functions[file, number] = "::".join(path)
    return functions, others


def path_of(word, functions, others):
    """The path that a word stands for, or None, after it was said what is near to it."""
    if word in functions | others:
        return word
    fits = sorted(path for path in functions if path.endswith("::" + word))
    if len(fits) == 1:
        return fits[0]
    # What is derived, and an impl of `From`, which is named by what it is from: a type and a trait.
    around = last(word.rpartition("::")[0])
    if not fits and any(re.match(re.escape(last(one)) + "[A-Z]", around) for one in others):
        return word
    names = {path.rpartition("::")[2] for path in functions}
    near = difflib.get_close_matches(last(word), names, 3, 0.5)
    near = fits or sorted(path for path in functions if path.rpartition("::")[2] in near)
    print(f"only: {word} fits {len(fits) or 'no'} functions of the crate, and no module or type"
          + (f": it has {', '.join(near[:8])}" if near else ""), file=sys.stderr)
    return None


def main():
    if len(sys.argv) < 3:
        sys.exit(__doc__)
    crate, *words = sys.argv[1:]
    if crate not in crates.lines():
        sys.exit(f"only: crates.txt has no crate {crate}: it has {' '.join(crates.lines())}")
    functions, others = paths_of(crate)
    found = [path_of(word.removeprefix(crate + "::"), set(functions.values()), others)
             for word in words]
    if None in found:
        return 2
    folder = crates.TOP / "crates" / crate
    command = crates.over_sources(crate, "--jobs", "1", "--incremental", str(folder / "out/only"))
    for path in found:
        command += ["--only", path]
    (folder / "out").mkdir(exist_ok=True)
    begun = time.monotonic()
    status = subprocess.run(command, cwd=folder, stdin=subprocess.DEVNULL, check=False).returncode
    took = os.times()
    print(f"only: {time.monotonic() - begun:.0f} s, of the processor "
          f"{took.children_user + took.children_system:.0f} s")
    return status


if __name__ == "__main__":
    sys.exit(main())
