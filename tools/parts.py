#!/usr/bin/env python3
"""The two tiers of tests, each a list of parts with their commands.

    .ci/run                           runs the merge tier
    tools/parts.py release [PART ..]  runs parts of the release tier, or all, at this commit
    tools/parts.py whole              puts the results of the release tier together for this commit

A part that ends with LEFT_OUT cannot run on this machine. The parts of the release tier take at
most 170 minutes each on four cores. Their results are in target/release-tier and name the commit,
so they can be made on several machines and copied together. `edits` and `archives` take the
libraries that `merge` left in the same folder, or else sources. `release` is last, since it packs
what `merge` and `archives` built.
"""
import re
import subprocess
import sys
import time
from pathlib import Path

TOP = Path(__file__).resolve().parent.parent
MERGE_AT, RELEASE_AT = TOP / "target/merge", TOP / "target/release-tier"
LEFT_OUT = 77
# How a line says what this machine lacks. A number of calls that were left out says another thing.
SAID, LACKS = re.compile(r"^left out,|(?:[:;,]|\bis|\bare) left out\b"), "this machine lacks: "
ARCHIVE = "target/c/libstunp.a"
OVER = f'STUN_C="$PWD/{ARCHIVE}" STUN_ENDPOINT="$PWD/{ARCHIVE}"'

# The merge tier. What needs no proof:
CHECKS = {
    "layout": '"$(dirname "$(rt doc)")/bin/rattle" fmt --check $(git ls-files -co '
              '--exclude-standard "crates/*.rt" "crates/*.antt")',
    "export-look": "python3 tools/export/export.py target/merge/export",
    "rooms": "python3 tools/rooms.py",
    "printed": "python3 tools/printed.py",
    "clauses": "python3 tools/clauses.py",
    "links": "python3 tools/links.py",
    "rule": "python3 tools/rule.py",
    "package-files": "debian/generate.sh --check",
    "version": "python3 tools/version.py",
    "licenses": "python3 tools/licenses.py",
    "trusted": "python3 tools/trusted.py",
    "exports": "python3 tools/exports.py",
    "refusals": "python3 tools/refusals.py",
    "edits-look": "python3 tools/wrong.py --look",
    "plants-look": "python3 tests/export/export_plants.py --look",
    "proof-record": "python3 tools/proof.py --look",
    "gate": "python3 tests/gate.py",
    "door": "tests/door.sh",
    "make-help": "python3 tests/make_help.py",
    "first-minute": "python3 tools/transcripts.py --first-minute",
    "models": "python3 tests/endpoint_model.py tests/transcripts/endpoint.*.txt "
              "tests/transcripts/endpoints/*.txt",
}
# The proofs, and what they built: the programs on their transcripts, on messages of other programs
# and on those of the pages. The prover refuses the wrong edits that tests/wrong/RECORD lacks.
PROOFS = {
    "proofs": "python3 tools/proof.py",
    "programs": "tests/programs/tool/check.py crates/stun_tool/out/stun_tool; "
                "tests/programs/inspect/check.py; tests/programs/captures/check.py; "
                "tests/programs/tool/transcripts.py crates/stun_tool/out/stun_tool; "
                "tools/transcripts.py crates/*/out",
    "differ": "python3 tests/programs/differ.py target/export/target/debug/stun_tool "
              "crates/stun_tool/out/stun_tool",
    "edits": "python3 tools/wrong.py",
}
# The exported crate, with its tests and transcripts, and the conformance suite over it and over its
# calls for C.
EXPORTED = {
    "exported": f"tools/rust.sh --can || exit {LEFT_OUT}; tools/rust.sh",
    "exported-pages": "python3 tools/transcripts.py --rust target/export",
    "forged": "tests/forged.sh",
    "users": "python3 tests/users_page.py; python3 tests/users_database.py",
    "suite": "python3 conformance/musts.py; python3 conformance/play.py model; "
             "python3 conformance/play.py second; python3 conformance/play.py",
    "c-tests": f"{OVER} tests/check.sh",
    "c-pages": f"python3 tools/transcripts.py --c {ARCHIVE}",
}
# Its calls for C, and the examples over these, which wait for timers more than they compute.
EXPORTED_C = {
    "exported-c": '. tools/compiler.sh; there "${CC-}" cc || { echo "left out, no C compiler"; '
                  f"exit {LEFT_OUT}; }}; tools/rust_c.sh strict",
    "examples": f"{OVER} tests/examples.sh",
}
MERGE = (PROOFS, EXPORTED, EXPORTED_C, CHECKS)
AFTER = {
    "programs": ("proofs",), "edits": ("proofs",), "differ": ("proofs", "exported"),
    "exported-pages": ("exported",), "forged": ("exported",), "exported-c": ("exported",),
    **{name: ("exported-c",) for name in ("users", "suite", "c-tests", "c-pages", "examples")},
}

RELEASE = {
    "merge": ".ci/run",
    # PROOF.txt and tests/wrong/RECORD have a line of the files as they are for all.
    "records": "python3 tools/proof.py --whole; python3 tools/wrong.py --whole",
    "edits": "python3 tools/wrong.py --all",
    # Bugs in the exporter, in the library under the sources, in refusals and in the suite's model.
    "plants": "python3 tests/export/export_plants.py; python3 tests/refusals_plants.py; "
              "python3 conformance/plants.py",
    "least": "tools/rust.sh --export; tests/export/least.sh",
    "bare": "tests/bare.sh --test bookworm trixie; tests/bare.sh --test --newest trixie",
    # The sizes of the libraries for C, by the compiler of a release.
    "sizes": "tools/rust.sh --build; tools/rust_c.sh strict sizes",
    "package": "tests/package.sh",
    # The proved archives, with what strangers send to each of their calls for ten minutes.
    "archives": "tools/archives.sh; tests/check.sh; "
                "python3 tools/transcripts.py --c crates/stun_c/out/libstun_c.a; "
                "tests/examples.sh; tests/fuzz/run.sh 600",
    "browsers": "tools/rust.sh --build; (cd target/export; cargo build --quiet --examples); "
                "/usr/bin/python3 tests/udp/browsers.py",
    "forged": "tools/rust.sh --export; tests/forged.sh --all",
    # A release, which is made twice and tried in clean folders.
    "release": "make release; make verify-release",
}


def run(name, command, folder):
    """Runs a part, and returns its status. Its output is in the folder."""
    with open(folder / f"{name}.log", "w") as log:
        return subprocess.run(["sh", "-ec", command], cwd=TOP, stdin=subprocess.DEVNULL, stdout=log,
                              stderr=subprocess.STDOUT, check=False).returncode


def in_words(status):
    """What came of a part."""
    return {0: "passed", LEFT_OUT: "left out", None: "FAILED: it did not run"}.get(
        status, f"FAILED, with status {status}")


def lacking(names, folder):
    """What the machine lacks on which these parts ran, by the lines of their logs."""
    found = []
    for name in names:
        log = folder / f"{name}.log"
        lines = log.read_text(errors="replace").splitlines() if log.is_file() else []
        said = [line for line in lines if LACKS in line] or filter(SAID.search, lines)
        found += [f"{name}: {line.rpartition(LACKS)[2].strip()[:300]}" for line in said]
    return list(dict.fromkeys(found))


def git(*words):
    return subprocess.run(["git", *words], cwd=TOP, check=True, stdout=subprocess.PIPE,
                          text=True).stdout.strip()


def commit():
    """The commit whose files these are, or None if files differ from it."""
    return None if git("status", "--porcelain") else git("rev-parse", "HEAD")


def results(names):
    """The status and the seconds of each of these parts at this commit, if it ran."""
    at, found = commit(), {}
    for name in names:
        file = RELEASE_AT / f"{name}.result"
        of, status, seconds = file.read_text().split() if file.is_file() else ("", "0", "-")
        found[name] = (int(status), seconds) if of == at else (None, "-")
    return found


def whole(names):
    """Prints the results of these parts, and returns whether each passed or cannot run here."""
    found = results(names)
    for name, (status, seconds) in found.items():
        print(f"release tier: {name}: {in_words(status)} ({seconds} s)")
    for line in lacking(names, RELEASE_AT):
        print(f"release tier: the machine lacked: {line}")
    good = sum(status in (0, LEFT_OUT) for status, _ in found.values())
    print(f"release tier: {good} passed, {len(found) - good} failed at {commit() or 'no commit'}")
    return good == len(found)


def release(names):
    at = commit()
    if not at:
        print("release tier: files differ from those of the commit")
        return 1
    RELEASE_AT.mkdir(parents=True, exist_ok=True)
    for name in names:
        begun = time.monotonic()
        (RELEASE_AT / f"{name}.result").unlink(missing_ok=True)
        status = run(name, RELEASE[name], RELEASE_AT)
        if commit() != at:
            print(f"release tier: {name}: files changed while it ran, so it counts for no commit")
            return 1
        text = f"{at} {status} {time.monotonic() - begun:.0f}\n"
        (RELEASE_AT / f"{name}.result").write_text(text)
        print(f"release tier: {name}: {in_words(status)}: see target/release-tier/{name}.log",
              flush=True)
    return 0 if whole(names) else 1


def main():
    word, *names = sys.argv[1:] or [""]
    if word == "release" and set(names) <= set(RELEASE):
        return release(names or list(RELEASE))
    if word == "whole" and not names:
        return 0 if whole(RELEASE) else 1
    sys.exit(f"{__doc__}\nThe parts of the release tier: {' '.join(RELEASE)}")


if __name__ == "__main__":
    sys.exit(main())
