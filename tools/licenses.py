#!/usr/bin/env python3
"""Compares what is said of licenses. Run at the top of the repository.

    tools/licenses.py              each manifest has the field, README.md and the release name both
                                   licenses, docs/LICENSES.md has each crate of the toolchain that
                                   crates.txt names and, after `make export`, each crate of cargo
    tools/licenses.py --debian     prints Debian's file `copyright`

Prints what differs, then how much was compared.
"""

import json
import pathlib
import re
import subprocess
import sys

TERMS = "MIT OR Apache-2.0"
PAGE = "docs/LICENSES.md"
TEXTS = ("LICENSE-APACHE", "LICENSE-MIT")
# Where both texts have to be named, or copied.
PLACES = ("README.md", "CONTRIBUTING.md", PAGE, "tools/release.py", "tools/export/export.py")
FEATURES = "std rand tracing asm"


def text_of(path):
    return pathlib.Path(path).read_text("utf-8")


def same_terms(license):
    """One spelling of what crates write in four ways."""
    words = sorted(re.split(r"/| OR ", license))
    return TERMS if words == ["Apache-2.0", "MIT"] else license


def listed(heading):
    """The crates of a table of the page, each with its terms."""
    section = text_of(PAGE).split("\n## " + heading + "\n")[1].split("\n## ")[0]
    rows = re.findall(r"(?m)^\| (`.*?) \| (MIT OR Apache-2\.0|MIT|the kit names no terms)\b", section)
    return {name: terms for names, terms in rows for name in re.findall(r"`([\w-]+)`", names)}


def of_the_toolchain():
    """The crates of crates.txt that are not of this repository, and what is always there."""
    lines = [line.split("#")[0] for line in text_of("crates.txt").splitlines()]
    ours = {line.split(":")[0].split()[0] for line in lines if ":" in line}
    used = {name for line in lines if ":" in line for name in line.split(":")[1].split()}
    return (used - ours) | {"std"}


def of_cargo(folder):
    """The third-party crates that cargo takes for the exported workspace, with their terms."""
    ran = subprocess.run(["cargo", "metadata", "--format-version=1", "--features", FEATURES],
                         cwd=folder, capture_output=True, text=True)
    if ran.returncode != 0:
        return None
    packages = json.loads(ran.stdout)["packages"]
    return {one["name"]: one["license"] for one in packages if one["source"]}


def compared():
    """What is wrong, and how much was looked at."""
    wrong, count = [], 0
    for path in subprocess.run(["git", "ls-files", "*Cargo.toml"], capture_output=True,
                               text=True).stdout.split():
        count += 1
        if 'license = "%s"\n' % TERMS not in text_of(path):
            wrong.append("%s: has no license = \"%s\"" % (path, TERMS))
    for path in PLACES:
        count += 1
        wrong += ["%s: does not name %s" % (path, name) for name in TEXTS
                  if name not in text_of(path)]
    crates, library = listed("Crates"), listed("The library of the toolchain")
    count += len(library)
    for name in sorted(of_the_toolchain() ^ set(library)):
        wrong.append("%s: %s is in one of crates.txt and that page, and not in the other"
                     % (PAGE, name))
    found = of_cargo("target/export") if pathlib.Path("target/export/Cargo.toml").exists() else None
    if found is None:
        print("licenses: the crates of cargo: left out, they are not there (make export)")
    for name, license in sorted((found or {}).items()):
        count += 1
        if crates.get(name) != same_terms(license):
            wrong.append("%s: %s is under %s, and the page says %s"
                         % (PAGE, name, license, crates.get(name, "nothing")))
    return wrong, count


def debian():
    """Debian's file of this repository."""
    mit = "".join(" %s\n" % (line or ".") for line in text_of("LICENSE-MIT").split("\n")[2:-1])
    return ("Format: https://www.debian.org/doc/packaging-manuals/copyright-format/1.0/\n"
            "Upstream-Name: stunp\n\nFiles: *\nCopyright: 2026 The Seatcrane authors\n"
            "License: Expat or Apache-2.0\n\nLicense: Apache-2.0\n"
            " The text is in /usr/share/common-licenses/Apache-2.0.\n\nLicense: Expat\n" + mit)


def main():
    if sys.argv[1:] == ["--debian"]:
        print(debian(), end="")
        return True
    if sys.argv[1:]:
        sys.exit(__doc__)
    wrong, count = compared()
    for line in wrong:
        print(line)
    print("licenses: %d compared, %d differ" % (count, len(wrong)))
    return not wrong


if __name__ == "__main__":
    sys.exit(0 if main() else 1)
