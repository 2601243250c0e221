#!/usr/bin/env python3
"""Writes the figures that programs have printed into the tables of README.md.

    bench/endpoint.py | bench/tables.py      the output of one program, or of several

A table of README.md takes the cells of a printed table if the first cells of their heads are equal
up to a comma, and both have the row and the column. Prints how many cells of each table were
written. Status 1 if no table was found.
"""

import pathlib
import re
import sys

PAGE = pathlib.Path(__file__).resolve().parent / "README.md"
TABLE = re.compile(r"(?m)^(\|.*\n)(\|[-|]+\n)((?:\|.*\n?)+)")


def cells(line):
    return [cell.strip() for cell in line.strip().strip("|").split("|")]


def row_of(head, row):
    """What names a row: its first cell, and what was sent to a server."""
    return tuple(row[:2 if head[1] == "Sent" else 1])


def printed(text):
    """The tables of an output, each with its name, its columns, and its cells by row and column."""
    for line, _, rows in TABLE.findall(text):
        head = cells(line)
        yield head[0].split(",")[0], set(head[1:]), {
            (row_of(head, row), column): cell for row in map(cells, rows.splitlines())
            for column, cell in zip(head[1:], row[1:]) if cell}


def rewritten(table, outputs):
    """A table of the page with the cells that were printed, or the table itself."""
    head = cells(table[1])
    figures = {}
    for name, columns, output in outputs:
        if name == head[0].split(",")[0] and columns & set(head[1:]):
            figures.update(output)
    if not figures:
        return table[0]
    rows = [cells(line) for line in table[3].splitlines()]
    keys = [[(row_of(head, row), column) for column in head[1:]] for row in rows]
    print(f"tables: {head[0] or head[1]}: {sum(key in figures for row in keys for key in row)} cells")
    lines = [[row[0]] + [figures.get(key, cell) for key, cell in zip(of_row, row[1:])]
             for row, of_row in zip(rows, keys)]
    return table[1] + table[2] + "".join(
        "".join(f"| {cell} " if cell else "| " for cell in line) + "|\n" for line in lines)


def main():
    outputs, page = list(printed(sys.stdin.read())), PAGE.read_text()
    heads = {(name, column) for name, columns, _ in outputs for column in columns}
    found = [line for line, _, _ in TABLE.findall(page) for head in [cells(line)]
             if any((head[0].split(",")[0], column) in heads for column in head[1:])]
    PAGE.write_text(TABLE.sub(lambda table: rewritten(table, outputs), page))
    return 0 if found else "tables: no table of README.md has such a head"


if __name__ == "__main__":
    sys.exit(main())
