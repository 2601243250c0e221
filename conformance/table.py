#!/usr/bin/env python3
"""table.py: plays the suite over each subject that is shipped and installed, and writes RESULTS.md.

differences.txt explains the differences. Those that it does not explain are printed. The last line
counts. The status is 1 if a difference is not explained."""

import collections
import os
import subprocess
import sys
import time

from grammar import TOP
from play import LEVELS, by_level, cell, play_all
from reasons import read_reasons, reason_of
from shipped import NAMES

HERE = os.path.dirname(os.path.abspath(__file__))
PACKAGES = {"aioice": "python3-aioice", "pion": "golang-github-pion-stun-dev",
            "libnice": "libnice-dev", "coturn": "coturn", "libre": "libre-dev",
            "turnserver": "coturn", "p1_stun": "erlang-p1-stun"}
COLUMNS = ("| Section | What it does | MUST | Choice | Example | Actual answer |",
           "|---|---|---|---|---|---|")
HEAD = """\
`conformance/table.py` writes this page, so do not edit it. [README.md](README.md) says what a
result means.

The first table has the counts of each subject. Each cell has four numbers: how many calls the
subject answered as the suite expects, how many answers violate a MUST of an RFC, how many differ
only from a choice of this library, and how many calls were left out because the subject lacks a
call that they need, or does not claim what their messages need, such as the RFC that defines an
attribute.

Each of the tables after it has the differences of one subject. A row describes one difference, says
how many calls show it, and shows the first of these calls. If an example expects a name such as
`NotStun`, this is the name of an error of this library, and any other subject only has to answer
`refused`.

`endpoint` and `endpoint-rust` are this library's endpoints through C and in Rust. If they differ
from a MUST, [docs/DIFFERENCES.md](../docs/DIFFERENCES.md) describes the departure and its reason.
That page also describes departures that no line of the suite tests.""".split("\n")


def version_of(name):
    if name not in PACKAGES:
        return "this tree"
    done = subprocess.run(["dpkg-query", "-W", "-f", "${Version}", PACKAGES[name]],
                          capture_output=True, text=True)
    return done.stdout if done.returncode == 0 else "version unknown"


def unused(name, reports, reasons):
    """Explanations of a subject that explain nothing any more."""
    used = {reason_of(other, reasons[name]) for report in reports.values()
            for other in report.others}
    return [reason for reason in reasons[name] if reason not in used]


def explained(name, reports, reasons):
    """The rows of a subject's differences, and the differences that have no explanation."""
    found, missing = {}, []
    for report in reports.values():
        for other in report.others:
            reason = reason_of(other, reasons[name])
            if reason is None:
                missing.append(other)
            else:
                found.setdefault(reason[:2], []).append(other)
    rows = [row(section, words, others) for (section, words), others in found.items()]
    return rows, missing


def row(section, words, others):
    """A difference as a row: how many lines of each mark, and the first of them."""
    marks = collections.Counter(other.mark.split()[0] for other in others)
    raw, came = (text.replace("|", "\\|") for text in (others[0].raw, str(others[0].came)))
    return (f"| {section} | It {words} | {marks['MUST']} | {marks['CHOICE']} | {place(others[0])} "
            f"`{raw[:120]}` | `{came[:80]}` |")


def place(other):
    """The file and the line of a difference, as a link."""
    path = os.path.relpath(os.path.join(TOP, other.file), HERE)
    return f"[{os.path.basename(path)}:{other.line}]({path})"


def page(results, reasons):
    """RESULTS.md, and the differences that are not explained."""
    lines = [f"# Results of {time.strftime('%Y-%m-%d')}", "", *HEAD, "",
             "| Subject | Version | " + " | ".join(LEVELS) + " |",
             "|---|---|" + "---|" * len(LEVELS)]
    unexplained = []
    for name, (reports, why) in results.items():
        if reports is None:
            lines.append(f"| {name} | left out: {why} |" + " |" * len(LEVELS))
            continue
        cells = [cell(report) for report in by_level(reports).values()]
        lines.append(f"| {name} | {version_of(name)} | " + " | ".join(cells) + " |")
    for name, (reports, _) in results.items():
        told, missing = explained(name, reports, reasons) if reports else ([], [])
        unexplained += [(name, other) for other in missing]
        if told:
            lines += ["", f"## {name}", "", *COLUMNS, *told]
    return "\n".join(lines) + "\n", unexplained


def main(words):
    reasons = read_reasons()
    results = {name: play_all(name) for name in NAMES}
    text, unexplained = page(results, reasons)
    for name, other in unexplained:
        print(f"not explained: {name}: {other.file}:{other.line}\n  {other.raw}\n  {other.came}")
    for name, (reports, _) in results.items():
        for reason in unused(name, reports, reasons) if reports else []:
            print(f"explains nothing: {name}: {reason.words}")
    with open(os.path.join(HERE, "RESULTS.md"), "w", encoding="utf-8") as file:
        file.write(text)
    there = sum(reports is not None for reports, _ in results.values())
    print(f"table: {there} of {len(results)} subjects, {len(unexplained)} differences not "
          f"explained")
    return 1 if unexplained else 0


if __name__ == "__main__":
    sys.exit(main(sys.argv[1:]))
