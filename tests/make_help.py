#!/usr/bin/env python3
"""`make` alone prints its help, and runs nothing else.

    tests/make_help.py

It runs `make` where each program that it could find writes its name down in place of running. The
help must name every target, must have no other lines than the Makefile says, and nothing may have
been written down. The last line says what was tested. Without make it says so, with status 0.
"""
import os
import pathlib
import re
import shutil
import subprocess
import sys
import tempfile

TOP = pathlib.Path(__file__).resolve().parent.parent


def programs():
    """The names of all programs that can be found."""
    for folder in os.environ["PATH"].split(os.pathsep):
        if os.path.isdir(folder):
            yield from os.listdir(folder)


def faults(text, ran):
    """What is wrong with what `make` printed and ran."""
    makefile = (TOP / "Makefile").read_text()
    lines = re.findall(r'^\t@echo "(.*)"$', makefile, re.M)
    if text.split("\n") != [*lines, ""]:
        yield f"it prints {text!r}"
    targets = re.search(r"^\.PHONY: (.*)$", makefile, re.M)[1].split()
    yield from (f"{target} is not named" for target in targets
                if target != "help" and not re.search(rf"\bmake {target}\b", text))
    yield from (f"it runs {line}" for line in ran)


def main():
    make = shutil.which("make")
    if not make:
        print("make: not installed, nothing tested")
        return 0
    with tempfile.TemporaryDirectory() as folder:
        log, found = pathlib.Path(folder) / "ran", pathlib.Path(folder) / "bin"
        found.mkdir()
        for name in {*programs(), "rt"}:
            program = found / name
            program.write_text(f'#!/bin/sh\necho "{name} $*" >>{log}\n')
            program.chmod(0o755)
        ran = subprocess.run([make], cwd=TOP, capture_output=True, text=True, timeout=60,
                             env={**os.environ, "PATH": str(found)})
        written = log.read_text().split("\n")[:-1] if log.exists() else []
        wrong = [*faults(ran.stdout, written)]
        if ran.returncode or ran.stderr:
            wrong.append(f"status {ran.returncode}, {ran.stderr!r}")
    for one in wrong:
        print(f"make: {one}", file=sys.stderr)
    print("make: prints its help and runs nothing" if not wrong else "make: otherwise")
    return 1 if wrong else 0


if __name__ == "__main__":
    sys.exit(main())
