#!/usr/bin/env python3
"""Runs clippy over the exported workspace, once: prints its warnings, and asks it for every place of
the exported sources where Rust could panic or lose bits, and looks whether the exporter says there
why it does not.

usage: tests/export/argued.py EXPORT

EXPORT is what export.py wrote (target/export). Each place must be in a function whose body begins
with a comment `// proved:`. The status is 1 if one is not, or if clippy warns of anything else.
Without clippy it says so, and passes.
"""
import json
import re
import subprocess
import sys
from pathlib import Path

LINTS = ["unwrap_used", "expect_used", "panic", "unreachable", "todo", "unimplemented",
         "indexing_slicing", "arithmetic_side_effects", "cast_possible_truncation",
         "cast_possible_wrap", "cast_sign_loss", "string_slice"]


def messages(out):
    """What clippy says of the workspace with its tests and examples. It ends if clippy fails or
    warns of anything but these lints."""
    # (a lint that is forced to warn is no error under `-D warnings` of rust.sh)
    command = ["cargo", "clippy", "--offline", "--quiet", "--workspace", "--all-targets",
               "--features", "tracing", "--message-format=json", "--",
               *(word for lint in LINTS for word in ("--force-warn", f"clippy::{lint}"))]
    ran = subprocess.run(command, cwd=out, capture_output=True, text=True, check=False)
    found = [json.loads(line).get("message") or {} for line in ran.stdout.splitlines()]
    others = [told for told in found if told.get("spans") and lint_of(told) not in LINTS]
    for told in others:
        print(told["rendered"])
    if ran.returncode != 0 or others:
        sys.exit(ran.stderr or f"argued: clippy warns of {len(others)} places")
    return found


def lint_of(told):
    return (told.get("code") or {}).get("code", "").removeprefix("clippy::")


def places(out):
    """The file and the line of each place, and its lint."""
    for told in messages(out):
        for span in told.get("spans", []) if lint_of(told) in LINTS else []:
            if span["is_primary"]:
                yield span["file_name"], span["line_start"], lint_of(told)


def is_argued(lines, number):
    """Whether the function around a line begins with the comment."""
    while number > 0:
        number -= 1
        if re.match(r"\s*// proved: ", lines[number]):
            return True
        if re.match(r"\s*(?:pub(?:\(\w+\))? )?(?:const )?fn ", lines[number]):
            return False
    return False


def main():
    if len(sys.argv) != 2:
        sys.exit(__doc__)
    out = Path(sys.argv[1])
    if subprocess.run(["cargo", "clippy", "--version"], capture_output=True, check=False).returncode:
        print("argued: left out, no clippy is there")
        return 0
    count = wrong = 0
    for name, number, lint in sorted(set(places(out))):
        if not name.startswith("src/exported/"):
            continue
        count += 1
        if not is_argued((out / name).read_text().splitlines(), number):
            wrong += 1
            print(f"{name}:{number}: {lint}: no `// proved:` stands in its function: see "
                  "tools/export/export_argued.py, whose PLACES name what it looks for")
    print(f"argued: {count} places where Rust could panic, {wrong} without a word on why they do not")
    return 1 if wrong or not count else 0


if __name__ == "__main__":
    sys.exit(main())
