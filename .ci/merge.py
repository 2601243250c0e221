#!/usr/bin/env python3
"""The merge tier of tools/parts.py: all proofs and their programs, beside the exported crate with its
tests in Rust and in C, and beside what needs no proof.

The lanes begin together and run side by side. A part runs if those passed that AFTER names. Whether
it does depends on nothing else, neither on the time nor on what changed, and one that did not run
has failed. Without one that cannot run on this machine, those after it cannot either. What a part
prints goes to target/merge/NAME.log, and is printed whole when it ends. Before the last line stands
what this machine lacks: the lines of any log that say `left out`. The last line has the counts of
`rt ci`, to which each other part that failed adds one, and the status is 1 if anything failed.

A run writes PROOF.txt and tests/wrong/RECORD, which are to be committed.
"""
import os
import re
import shutil
import sys
import threading
import time
from pathlib import Path

sys.path.insert(0, str(Path(__file__).resolve().parent.parent / "tools"))
from parts import AFTER, LACKS, LEFT_OUT, MERGE, MERGE_AT, in_words, lacking, run  # noqa: E402

NAMES = [name for lane in MERGE for name in lane]
BEGUN, STATUSES, PRINTING = time.monotonic(), dict.fromkeys(NAMES), threading.Lock()
ENDED = {name: threading.Event() for name in NAMES}


def log_of(name):
    return (MERGE_AT / f"{name}.log").read_text(errors="replace")


def status_of(name, command):
    """Runs a part after those that it needs, unless one of these failed or cannot run."""
    for other in AFTER.get(name, ()):
        ENDED[other].wait()
        if STATUSES[other] == LEFT_OUT:
            (MERGE_AT / f"{name}.log").write_text(f"left out, as {other} is\n")
        if STATUSES[other] != 0:
            return LEFT_OUT if STATUSES[other] == LEFT_OUT else None
    return run(name, command, MERGE_AT)


def follow(lane):
    """Runs the parts of a lane."""
    for name, command in lane.items():
        try:
            status = STATUSES[name] = status_of(name, command)
        finally:
            ENDED[name].set()
        if status is not None:
            with PRINTING:
                print(log_of(name), end="")
                print(f"== {name}: {in_words(status)} (after {time.monotonic() - BEGUN:.0f} s)",
                      flush=True)


def verdict():
    """Prints what failed and what this machine lacks, and returns the counts."""
    told = STATUSES["proofs"] is not None and re.findall(r"(?m)^(\d+) passed, (\d+) failed$",
                                                         log_of("proofs"))
    passed, failed = map(int, told[-1]) if told else (0, 1)
    for name, status in STATUSES.items():
        if status not in (0, LEFT_OUT):
            print(f"merge: {name}: {in_words(status)}")
            failed = max(failed, 1) if name == "proofs" else failed + 1
    for line in lacking(NAMES, MERGE_AT):
        print(f"merge: {LACKS}{line}")
    return passed, failed


def main():
    shutil.rmtree(MERGE_AT, ignore_errors=True)
    MERGE_AT.mkdir(parents=True)
    half = str(((os.cpu_count() or 1) + 1) // 2)
    os.environ |= {"CARGO_BUILD_JOBS": half, "RUST_TEST_THREADS": half}
    print(f"merge: {len(NAMES)} parts: {' '.join(NAMES)}")
    print("merge: to follow the proofs, tail -f target/merge/proofs.log", flush=True)
    threads = [threading.Thread(target=follow, args=(lane,)) for lane in MERGE]
    for thread in threads:
        thread.start()
    for thread in threads:
        thread.join()
    passed, failed = verdict()
    took = os.times()
    print(f"merge: {time.monotonic() - BEGUN:.0f} s, of the processor "
          f"{took.children_user + took.children_system:.0f} s")
    print(f"{passed} passed, {failed} failed")
    return 1 if failed else 0


if __name__ == "__main__":
    sys.exit(main())
