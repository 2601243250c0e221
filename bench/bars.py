#!/usr/bin/env python3
"""Compares README.md's tables with the programs that print them: the same rows, the same bars, and
a word where a bar is missed.

    bench/bars.py

It reads the sources of bench.c, growth.c and endpoint.py, and runs none of them. Status 1, and a line
for each difference.
"""

import ast
import pathlib
import re
import sys

HERE = pathlib.Path(__file__).resolve().parent
README = (HERE / "README.md").read_text()


def table(*columns):
    """The rows of the table whose head begins with these columns."""
    lines = iter(README.splitlines())
    head = "| " + " | ".join(columns)
    if not any(line.startswith(head) for line in lines):
        return {}
    next(lines)
    rows = {}
    for line in lines:
        if not line.startswith("|"):
            break
        name, *cells = (cell.strip() for cell in line.strip("|").split("|"))
        rows[name] = cells
    return rows


def number(cell):
    """The number of a cell, or None where it is empty or tells a range."""
    cell = cell.replace(",", "")
    return float(cell) if re.fullmatch(r"-?[0-9.]+", cell) else None


def value(program, name):
    """What a name of a program in Python is set to."""
    for node in ast.parse((HERE / program).read_text()).body:
        if isinstance(node, ast.Assign):
            targets = node.targets[0]
            if isinstance(targets, ast.Name) and targets.id == name:
                return ast.literal_eval(node.value)
            if isinstance(targets, ast.Tuple):
                names = [one.id for one in targets.elts]
                if name in names:
                    return ast.literal_eval(node.value)[names.index(name)]
    raise KeyError(f"{program} has no {name}")


def works():
    """Of bench.c: a title, the bar on the ratio and that on instructions, 0 where there is none."""
    row = r'\{"\w+", "([^"]+)", "\w+", \w+, \w+, \w+, ([0-9.]+), ([0-9]+)\},'
    found = re.findall(row.replace(", ", r",\s+"), (HERE / "bench.c").read_text())
    return [(title, float(ratio), int(most)) for title, ratio, most in found]


def same_rows(what, ours, theirs):
    if list(ours) != list(theirs):
        left = [one for one in ours if one not in theirs]
        right = [one for one in theirs if one not in ours]
        yield f"{what}: rows {left} and {right}, or another order"


def told(what, row, measured, bar):
    """A bar that is missed is told."""
    if measured is None or not bar or measured <= bar:
        return
    missed = f"missed by {measured - bar:,.0f}"
    if missed not in README:
        yield (f"{what}, {row}: {measured:,.0f} is above {bar:,.0f}, "
               f"and the text does not say `{missed}`")


def of_bench():
    rows = table("Call", "Instructions", "at most")
    yield from same_rows("bench.c", [title for title, _, _ in works()], rows)
    for title, ratio, most in works():
        if title not in rows:
            continue
        cells = rows[title]
        for kind, bar, cell in (("instructions", most, cells[1]), ("ratio", ratio, cells[-1])):
            if (number(cell) or 0) != bar:
                yield f"bench.c, {title}: {kind} at most {bar:g}, README.md has `{cell}`"
        yield from told("bench.c", title, number(cells[0]), most)


def of_growth():
    source = (HERE / "growth.c").read_text()
    sizes = re.search(r"counts\[SIZES\] = \{([^}]*)\}", source)[1].split(", ")
    rows = table("Call", *(f"{int(size):,}" for size in sizes), "grows as N to the")
    yield from same_rows("growth.c", re.findall(r'^    \{"(`[^"]*)", \w+\},$', source, re.M), rows)


def of_endpoint():
    rows = table("A datagram at a server", "`endpoint::Server`")
    yield from same_rows("endpoint.py", [title for title, _, _ in value("endpoint.py", "ROWS")],
                         rows)
    for title, _, bar in value("endpoint.py", "ROWS"):
        cells = rows.get(title, ["", "", ""])
        if number(cells[-1]) != bar:
            yield f"endpoint.py, {title}: at most {bar}, README.md has `{cells[-1]}`"
        yield from told("endpoint.py", title, number(cells[0]), bar)
    rows = table("A request whose user is looked up, through C", "instructions")
    looking = value("endpoint.py", "LOOK_UPS")
    yield from same_rows("endpoint.py", [title for title, _, _ in looking], rows)
    for title, _, bar in looking:
        cells = rows.get(title, ["", ""])
        if number(cells[-1]) != bar:
            yield f"endpoint.py, {title}: at most {bar}, README.md has `{cells[-1]}`"
        yield from told("endpoint.py", title, number(cells[0]), bar)


def main():
    parts = (of_bench, of_growth, of_endpoint)
    differences = [one for part in parts for one in part()]
    for one in differences:
        print(f"bars: {one}", file=sys.stderr)
    if differences:
        print(f"bars: {len(differences)} differences")
        return 1
    print("bars: README.md has the rows and the bars of the programs")
    return 0


if __name__ == "__main__":
    sys.exit(main())
