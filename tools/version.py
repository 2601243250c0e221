#!/usr/bin/env python3
"""Compares the version in the file VERSION with each place that has one. Run at the top of the
repository. With --write it writes the version there first, but for the heading of CHANGELOG.md,
which is written by hand.

Prints each place that has another, with file and line, then how many were compared."""

import re
import sys

# A file, and the text around the version as it is written.
TEXTS = (
    ("rust/Cargo.toml", r'(?m)^version = "(.*)"'),
    ("rust/capi/Cargo.toml", r'(?m)^version = "(.*)"'),
    ("rust/checks/Cargo.toml", r'(?m)^version = "(.*)"'),
    ("crates/stun_inspect/src/usage.rt", r'VERSION: &str = "stun_inspect (.*)\\n"'),
    ("crates/stun_inspect/specs/Run.antt", r'codes "stun_inspect ([0-9.]*)"'),
    ("tests/programs/inspect/words.txt", r"(?m)^> stun_inspect (.*)$"),
    ("CHANGELOG.md", r"(?m)^## (.*)"),
    ("debian/changelog", r"(?m)^stunp \(([0-9.]*)\+"),
    ("README.md", r"\| Version \| ([0-9.]+[0-9])"),
)
# The same, where it is the number of C: 10000, 100 and 1 times its parts.
NUMBERS = (
    ("include/stunp.h", r"#define STUNP_VERSION (\d+)"),
    ("crates/stun_c/src/lib.rt", r"fn stunp_version\(\) -> i64\n[^{]*\{[^}]*\}\n\{\n    (\d+)\n"),
    ("crates/stun_c_endpoint/src/release.rt", r"const VERSION: i64 = (\d+);"),
)
# The same, where its first two parts are in the names of calls, each time that they are named.
RELEASE = r"\bstunp_release_(\d\w*)"
ENDPOINT_RELEASE = r"\bstunp_endpoint_release_(\d\w*)"
NAMES = (
    ("include/stunp.h", RELEASE),
    ("include/stunp_endpoint.h", RELEASE),
    ("include/stunp_endpoint.h", ENDPOINT_RELEASE),
    ("crates/stun_c/src/lib.rt", RELEASE),
    ("crates/stun_c_endpoint/src/release.rt", ENDPOINT_RELEASE),
    ("tests/refused.sh", r"-Dstunp_release_(\d\w*)="),
    ("tests/refused.sh", r"-Dstunp_endpoint_release_(\d\w*)="),
    ("tests/c/arguments.c", RELEASE),
    ("tests/c/endpoint.c", ENDPOINT_RELEASE),
    ("docs/PROVED.md", RELEASE),
)


def write(path, pattern, wanted, is_each):
    """Writes the version in a place of a file, or in each."""
    with open(path) as opened:
        text = opened.read()
    found = list(re.finditer(pattern, text))
    for one in reversed(found if is_each else found[:1]):
        text = text[:one.start(1)] + wanted + text[one.end(1):]
    with open(path, "w") as opened:
        opened.write(text)


def main():
    is_written = sys.argv[1:] == ["--write"]
    if sys.argv[1:] and not is_written:
        sys.exit(__doc__)
    with open("VERSION") as opened:
        version = opened.read().strip()
    first, second, third = map(int, version.split("."))
    compared = wrong = 0
    for places, wanted in (
            (TEXTS, version), (NUMBERS, str(10000 * first + 100 * second + third)),
            (NAMES, "%d_%d" % (first, second))):
        for path, pattern in places:
            if is_written and path != "CHANGELOG.md":
                write(path, pattern, wanted, places is NAMES)
            with open(path) as opened:
                text = opened.read()
            found = list(re.finditer(pattern, text))
            compared += 1
            others = [one for one in (found if places is NAMES else found[:1])
                      if one.group(1) != wanted]
            wrong += bool(others or not found)
            for one in others:
                print("%s:%d: the version is %s, not %s: write the one of the file VERSION"
                      % (path, text.count("\n", 0, one.start(1)) + 1, one.group(1), wanted))
            if not found:
                print("%s:1: no version, where %s is looked for by %s" % (path, wanted, pattern))
    print("version: %d compared, %d differ" % (compared, wrong))
    return wrong == 0


if __name__ == "__main__":
    sys.exit(0 if main() else 1)
