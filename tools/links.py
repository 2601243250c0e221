#!/usr/bin/env python3
"""Checks the links of all pages, how long the pages are, and that docs/TOUR.md quotes README.md.
Run at the top of the repository.

A relative link must lead to a file or folder of the repository, its anchor to a heading of that
page or to a line that the file has. A page that a file names, as `docs/SERVER.md`, must be there.
Prints each that is not, with its file and line, and fails then.
"""

import os
import pathlib
import re
import subprocess
import sys

LINK = re.compile(r"\[[^\]\n]*(?:\n[^\]\n]*)?\]\(([^)\s]+)\)")
BLOCK = re.compile(r"(?ms)^```.*?^```")
MOST_WORDS = {"README.md": 1400, "docs/PROVED.md": 6000, "all pages": 76000}
NAMED = re.compile(r"(?<![\w/.-])((?:docs|rust|bench|examples)/[\w/]*\.md)\b")


def blank(block):
    """A block without its text, of as many lines."""
    return "\n" * block.group(0).count("\n")


def anchors(text):
    """The anchors of a page's headings, as a forge makes them."""
    found = set()
    for heading in re.findall(r"(?m)^#{1,6} +(.*?) *$", BLOCK.sub("", text)):
        plain = re.sub(r"\[([^\]]*)\]\([^)]*\)", r"\1", heading)
        name = re.sub(r"[^\w\- ]", "", plain.lower()).replace(" ", "-")
        again = re.compile(re.escape(name) + r"(-\d+)?")
        same = sum(again.fullmatch(other) is not None for other in found)
        found.add(name if same == 0 else "%s-%d" % (name, same))
    return found


def reason(page, target):
    """Why a link of a page leads nowhere, or None."""
    path, _, anchor = target.partition("#")
    file = os.path.normpath(os.path.join(os.path.dirname(page), path)) if path else page
    if not os.path.exists(file) or not anchor:
        return None if os.path.exists(file) else "is not there"
    with open(file) as opened:
        text = opened.read()
    line = re.fullmatch(r"L(\d+)", anchor)
    if line:
        return None if int(line.group(1)) <= text.count("\n") else "has fewer lines"
    return None if anchor in anchors(text) else "has no such heading"


def long_pages(files):
    """The pages with more words than they may have. Those of rustdoc do not count."""
    words = {file: len(pathlib.Path(file).read_text().split()) for file in files
             if file.endswith(".md") and not file.startswith(("rust/pages/", "rust/src/"))}
    words["all pages"] = sum(words.values())
    return ["%s: %d words, at most %d: tell less, or link" % (page, words[page], most)
            for page, most in MOST_WORDS.items() if words[page] > most]


def plain(text):
    """A text without links, the marks of a quotation, and line breaks."""
    return " ".join(re.sub(r"\[([^\]]*)\]\([^)]*\)|(?m:^> )", r"\1", text).split())


def misquoted():
    """The quotations in docs/TOUR.md that README.md does not have."""
    readme, tour = (pathlib.Path(page).read_text() for page in ("README.md", "docs/TOUR.md"))
    quotes = map(plain, re.findall(r"(?m)(?:^> .*\n)+", tour))
    return ["README.md does not say: " + quote for quote in quotes if quote not in plain(readme)]


def main():
    command = ["git", "ls-files", "-co", "--exclude-standard"]
    files = subprocess.run(command, capture_output=True, text=True, check=True).stdout.split("\n")
    files = list(filter(os.path.isfile, files))
    others = long_pages(files) + misquoted()
    print("".join("links: %s\n" % other for other in others), end="")
    links = wrong = 0
    for file in files:
        with open(file, errors="ignore") as opened:
            text = opened.read()
        targets = BLOCK.sub(blank, text) if file.endswith(".md") else ""
        named = [(found.start(1), found.group(1),
                  None if os.path.exists(found.group(1)) else "is not there")
                 for found in NAMED.finditer(text)]
        linked = [(found.start(1), found.group(1), reason(file, found.group(1)))
                  for found in LINK.finditer(targets) if not re.match(r"\w+:", found.group(1))]
        for at, target, why in named + linked:
            links += 1
            if why:
                wrong += 1
                line = text.count("\n", 0, at) + 1
                print("%s:%d: the link to %s: it %s" % (file, line, target, why))
    print("links: %d looked at, %d lead nowhere%s"
          % (links, wrong, ": name a file, heading or line that is there" if wrong else ""))
    return 1 if wrong or others else 0


if __name__ == "__main__":
    sys.exit(main())
