#!/usr/bin/env python3
"""Checks the table of the client's rule in docs/DIFFERENCES.md against the sources.

Each reason to drop a response (`DropReason` of stun_client_endpoint) must be in a row, and each
name in the last column must be a function, a clause or a definition of the sources. Run at the top
of the repository. Prints each that is missing, and fails then.
"""

import pathlib
import re
import sys

DEFINED = re.compile(r"(?:fn|ensures\*?|abbrev pub|record|data) (\w+)")


def main():
    page = pathlib.Path("docs/DIFFERENCES.md").read_text()
    rule = page.split("\n#### The client's rule\n")[1].split("\n\nWhere a row")[0]
    table = [re.split(r" *\| *", row.strip("| ")) for row in re.findall(r"(?m)^\| \d+ \|.*$", rule)]
    known = {name for files in ("src/**/*.rt", "specs/**/*.antt")
             for file in pathlib.Path("crates").glob(f"stun_*/{files}")
             for name in DEFINED.findall(file.read_text())}
    ends = pathlib.Path("crates/stun_client_endpoint/src/ended.rt").read_text()
    reasons = re.search(r"enum DropReason \{(.*?)\n\}", ends, re.S)[1]
    told = set(re.findall(r"`(\w+)`", " ".join(row[2] for row in table)))
    missing = [f"no row has {reason}" for reason in re.findall(r"(?m)^    (\w+),$", reasons)
               if reason not in told]
    missing += [f"row {row[0]}: {name} is not in the sources" for row in table
                for name in re.findall(r"`(\w+)`", row[3]) if name not in known]
    print("\n".join([*missing, f"rule: {len(table)} rows, {len(missing)} wrong"]))
    return 1 if missing or not table else 0


if __name__ == "__main__":
    sys.exit(main())
