#!/usr/bin/env python3
"""Checks MUSTS.md: each paragraph that it names is there, and is marked as its row says. And each
departure of this library's endpoints in differences.txt is printed in docs/DIFFERENCES.md.

    conformance/musts.py            prints how many rows have lines, and fails where a link is wrong
    conformance/musts.py --write    moves each line number to the paragraph that it named in the
                                    commit before (`git show HEAD:..`), for a file to which lines
                                    were added

A link `[FILE:LINE](PATH)` leads to the first line of a paragraph of `levels/`, or to a line of a
transcript, and `[FILE](PATH)` to a file that exists. A row has a link, or the word none with its
reason. A paragraph of a row without the word CHOICE is marked MUST.
"""
import re
import subprocess
import sys
from pathlib import Path

from reasons import read_reasons, unprinted
from shipped import ENDPOINTS

HERE = Path(__file__).resolve().parent
PAGE = HERE / "MUSTS.md"
ROW = re.compile(r"^\| (\d+) \| ([^|]+) \| ([^|]+) \| (.*) \|$", re.M)
LINK = re.compile(r"\[([\w.-]+)(?::(\d+))?\]\(([^)]+)\)")


def paragraphs(text):
    """The lines of each paragraph, by the number of its first line."""
    found, first = {}, None
    for number, line in enumerate(text.splitlines(), 1):
        if not line.strip():
            first = None
        elif first is None:
            first = number
            found[first] = [line]
        else:
            found[first].append(line)
    return found


def is_level(path):
    return path.startswith("levels/")


def faults(row):
    """What is wrong with the links of a row, in words."""
    number, section, words, asked = row
    links = LINK.findall(asked)
    if not links and not re.search(r"\bnone\b|the same", asked):
        yield "it has neither a link nor a reason"
    for name, line, path in links:
        file = HERE / path
        if file.name != name or not file.is_file():
            yield f"{path} is not a file"
        elif line and not is_level(path):
            lines = file.read_text().splitlines()
            if not 0 < int(line) <= len(lines) or not lines[int(line) - 1].strip():
                yield f"{name}:{line} is not a line of it"
        elif line:
            text = paragraphs(file.read_text()).get(int(line))
            if text is None:
                yield f"{name}:{line} is not the first line of a paragraph"
            elif "CHOICE" not in asked and not any(one.startswith("MUST ") for one in text):
                yield f"{name}:{line} is not marked MUST"


def moved(text):
    """The page with the line numbers of the paragraphs as the files are now."""
    def place(match):
        name, line, path = match.groups()
        if not line:
            return match[0]
        shown = subprocess.run(["git", "show", f"HEAD:./{path}"], cwd=HERE, text=True,
                               capture_output=True, check=True).stdout
        before = paragraphs(shown).get(int(line))
        now = [at for at, lines in paragraphs((HERE / path).read_text()).items() if lines == before]
        return f"[{name}:{now[0]}]({path})" if len(now) == 1 else match[0]
    return LINK.sub(place, text)


def main():
    if "--write" in sys.argv[1:]:
        PAGE.write_text(moved(PAGE.read_text()))
    rows = ROW.findall(PAGE.read_text())
    wrong = [f"row {row[0]}: {fault}" for row in rows for fault in faults(row)]
    if [int(row[0]) for row in rows] != list(range(1, len(rows) + 1)):
        wrong.append("the rows are not numbered from 1 on")
    hidden = unprinted(ENDPOINTS, read_reasons())
    for fault in wrong:
        print(f"{PAGE.name}: {fault}")
    for departure in hidden:
        print(f"docs/DIFFERENCES.md does not print: {departure}")
    without = sum(not LINK.search(row[3]) for row in rows)
    print(f"musts: {len(rows)} rows, {len(rows) - without} with lines, "
          f"{without} with a reason, {len(wrong)} wrong")
    return bool(wrong or hidden)


if __name__ == "__main__":
    sys.exit(main())
