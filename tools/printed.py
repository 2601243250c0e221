#!/usr/bin/env python3
"""Checks the definitions that docs/DEFINITIONS.md prints against the files that they come from,
with file and line.

A block begins with a line `<!-- definition CRATE FILE NAME -->` or `<!-- file PATH -->`. It ends
with the next line of three backticks after its first. With the word `write` the blocks are written
anew.

Run at the top of the repository.
"""

import re
import sys

from definitions import Repository

PAGE = "docs/DEFINITIONS.md"
BLOCK = re.compile(r"<!-- (definition|file) ([^\n]*?) -->\n.*?\n```\n.*?\n```\n", re.S)


def block(repository, kind, words, line):
    """The block that a marker asks for, which is in this line of the page."""
    if kind == "file":
        with open(words) as opened:
            where, text = "[%s](../%s)" % (words, words), opened.read().rstrip("\n")
    else:
        crate, file, name = words.split()
        definition = repository.named.get(("Rattle.%s.specs.%s" % (crate, file), name))
        if definition is None:
            sys.exit("%s:%d: no file has the definition %s: name one that is there"
                     % (PAGE, line, words))
        path = definition.path.removeprefix("./")
        where = "[%s:%d](../%s#L%d)" % (path, definition.line, path, definition.line)
        text = "\n".join(definition.lines)
    return "<!-- %s %s -->\n%s\n\n```\n%s\n```\n" % (kind, words, where, text)


def main():
    repository = Repository(".")
    with open(PAGE) as opened:
        page = opened.read()
    wrong = []

    def anew(found):
        line = page.count("\n", 0, found.start()) + 1
        text = block(repository, found.group(1), found.group(2), line)
        if text != found.group(0):
            wrong.append("%s:%d: %s is not printed as it is" % (PAGE, line, found.group(2)))
        return text

    fresh = BLOCK.sub(anew, page)
    if sys.argv[1:] == ["write"]:
        with open(PAGE, "w") as opened:
            opened.write(fresh)
    elif fresh != page:
        print("\n".join(wrong + ["printed: %d differ: run tools/printed.py write" % len(wrong)]))
        return 1
    print("printed: %d definitions as they are" % len(BLOCK.findall(page)))
    return 0


if __name__ == "__main__":
    sys.exit(main())
