#!/usr/bin/env python3
"""Checks that each definition is in its room: what a clause of a public call says, transitively,
stands in `specs/`, and all other definitions in `specs/code/`. A Model's coding, view and invariant
may cite `specs/code/`, and so may private functions.

Each module that a file of specs or proofs declares has a file.

Run at the top of the repository. Prints each definition in the wrong room, with its file and line
and a definition that cites it, and each module without a file.
"""

import glob
import os
import re
import sys

from crates import lines
from definitions import Repository, sources


def place(definition):
    return "%s:%d: %s" % (definition.path.removeprefix("./"), definition.line, definition)


def is_code(definition):
    return definition.module.split(".")[3] == "code"


def without_a_file():
    """The modules that are declared and have no file: only a proof would tell."""
    for path in sorted(glob.glob("crates/*/[ps]*s/**/*.antt", recursive=True)):
        folder = path.removesuffix("/Lib.antt").removesuffix(".antt")
        with open(path, encoding="utf-8") as opened:
            for number, line in enumerate(opened, 1):
                declared = re.match(r"(?:pub )?mod (\w+)\s*$", line)
                if declared and not any(os.path.exists(folder + "/" + declared.group(1) + end)
                                        for end in (".antt", "/Lib.antt")):
                    yield "%s:%d: the module %s has no file: write it, or drop this line" % (
                        path, number, declared.group(1))


def main():
    repository = Repository(".")
    stated = set()
    for crate in lines():
        for source in sources(".", crate):
            for clause in source.public:
                stated.update(repository.cited_in(None, source.imports, clause.split("\n")))
    because = repository.closure(stated)
    missing = list(without_a_file())
    for line in missing:
        print(line)
    wrong = len(missing)
    for read in repository.files.values():
        for definition in read.definitions:
            if is_code(definition) and definition in because:
                wrong += 1
                citing = because[definition]
                by = ", by %s" % citing if citing else ""
                print("%s is in a public clause%s: move it from specs/code/ to specs/"
                      % (place(definition), by))
            elif not is_code(definition) and definition not in because:
                wrong += 1
                print("%s is in no public clause: move it to specs/code/" % place(definition))
    in_wrong = "%d in the wrong room or missing" % wrong
    print("rooms: %s" % (in_wrong if wrong else "each definition in its room"))
    return 1 if wrong else 0


if __name__ == "__main__":
    sys.exit(main())
