#!/usr/bin/env python3
"""play.py [SUBJECT] [--level 0,1,..] [--left-out] [--explained] [FILE ..]: plays the suite over a
subject.

SUBJECT is a file of Python (`subjects/model.py`), the command of a program in one word, or the name
of a subject that is shipped here: `endpoint` (this library's endpoints through C), `endpoint-rust`
(in Rust), `stunp` (its messages), `model`, `second`, `aioice`, `pion`, `libnice`,
`coturn`, `libre`, `turnserver`, `p1_stun`. Without a subject the three of this library are played.
FILE is a file of `levels/`, or one in the grammar of transcripts.

Each answer that differs is printed. Those of a shipped subject that differences.txt explains are
printed with `--explained` alone. The last line has the counts: calls that were answered as written,
that differ from a MUST of an RFC, that differ from a choice of this library, and that were left out
because the subject does not have them, and how many differences are explained. The line before it
has the first four of each level. The status is 1 if a difference is not explained. `--table` plays
all subjects and writes RESULTS.md (table.py)."""

import argparse
import collections
import os
import struct
import sys
import time

import index
from calls import Stage
from grammar import Words
from reasons import read_reasons, reason_of
from shipped import OURS, start
from subject import Asker, Left, Ours, Refused, Strange
from transcripts import is_telling, name_of

LEVELS = ("0-read", "1-write", "2-credentials", "3-transactions", "4-ice")
HERE = os.path.dirname(os.path.abspath(__file__))
# A line whose answer differs.
Other = collections.namedtuple("Other", "file line raw came mark title")


class Report:
    """What a subject answered."""

    def __init__(self):
        self.right, self.others = 0, []
        self.left, self.ours = collections.Counter(), collections.Counter()
        self.by_mark = collections.Counter()

    def add(self, other):
        self.right += other.right
        self.others += other.others
        self.left.update(other.left)
        self.ours.update(other.ours)
        self.by_mark.update(other.by_mark)

    def of(self, mark):
        return [other for other in self.others if other.mark.startswith(mark)]

    def counts(self):
        return (f"{self.right} as written, {len(self.of('MUST'))} differ from a MUST, "
                f"{len(self.of('CHOICE'))} differ from a choice, "
                f"{sum(self.left.values())} left out")


class Player:
    """Plays files over one subject."""

    def __init__(self, subject):
        self.asker = Asker(subject)

    def play(self, part):
        """Plays a file, or those of its paragraphs that an index names."""
        report = Report()
        for paragraph in part.file.paragraphs:
            mark = part.mark_of(paragraph)
            if mark is not None:
                self.play_paragraph(part, paragraph, mark, report)
        return report

    def play_paragraph(self, part, paragraph, mark, report):
        stage, cause = Stage(self.asker, part.file.meanings), None
        for line in paragraph.lines:
            if part.is_left(paragraph, line):
                continue
            try:
                if cause is not None:
                    raise cause
                if line.words[0] == "like":
                    self.repeat(stage, part.file.named(" ".join(line.words[1:])), part)
                    continue
                came = self.make(stage, line, part)
            except Left as left:
                counted = report.ours if isinstance(left, Ours) else report.left
                counted[str(left)] += line.answer is not None
                cause = cause or (None if is_telling(line.words) else left)
                continue
            if line.answer is None and came is None:
                continue
            if part.is_alike(stage, line, came):
                report.right += 1
                report.by_mark[mark.split()[0]] += 1
            else:
                report.others.append(Other(part.path, line.at, line.raw, came, mark,
                                           paragraph.title))

    def repeat(self, stage, paragraph, part):
        """Plays the lines of another paragraph, whatever is answered."""
        for line in paragraph.lines:
            try:
                self.make(stage, line, part)
            except Left:
                if not is_telling(line.words):
                    raise

    def make(self, stage, line, part):
        if part.is_ours(line):
            raise Ours(name_of(line.words))
        try:
            return stage.answer(line.words)
        except Words:
            return "?"
        except Ours:
            if part.has_ours:
                raise
            return "?"
        except Refused:
            return "refused"
        except Strange as strange:
            return str(strange)
        except (ValueError, IndexError, struct.error) as error:
            return f"an answer that cannot be read: {error}"


def parts_of(levels, files):
    """The files to play, with their marks."""
    if files:
        return [index.file(path) for path in files]
    return [part for level in levels for part in index.level(os.path.join(HERE, "levels", level))]


def play_all(word, levels=LEVELS, files=()):
    """What the subject of a word answers, by file; or why it is not there."""
    subject, why = start(word)
    if subject is None:
        return None, why
    player, reports = Player(subject), {}
    for part in parts_of(levels, files):
        reports.setdefault(part.path, Report()).add(player.play(part))
    subject.end()
    return reports, None


def summed(reports):
    """One report of all files."""
    whole = Report()
    for report in reports.values():
        whole.add(report)
    return whole


def by_level(reports, levels=LEVELS):
    """A report of each level: the files of the levels, and those that their indexes name."""
    whole = {}
    for name in levels:
        whole[name] = Report()
        for path in {part.path for part in index.level(os.path.join(HERE, "levels", name))}:
            whole[name].add(reports[path])
    return whole


def cell(report):
    if not report.right + len(report.others):
        return "not claimed"
    return (f"{report.right} / {len(report.of('MUST'))} / {len(report.of('CHOICE'))} / "
            f"{sum(report.left.values())}")


def show(others):
    for other in others:
        print(f"{other.file}:{other.line}: {other.mark}\n  written: {other.raw[:300]}\n"
              f"  actual:  {other.came}")


def play_one(word, options):
    """Plays one subject, and prints what it comes to. Whether a difference is not explained."""
    begun = time.monotonic()
    levels = [LEVELS[int(number)] for number in options.level.split(",")]
    reports, why = play_all(word, levels, options.files)
    if reports is None:
        print(f"conformance: {word} is left out: {why}")
        return False
    whole, reasons = summed(reports), read_reasons()[word]
    missing = [other for other in whole.others if reason_of(other, reasons) is None]
    show(whole.others if options.explained else missing)
    if options.left_out:
        for call, count in whole.left.most_common():
            print(f"left out: {call} ({count})")
    if not options.files:
        cells = (f"{name} {cell(report)}" for name, report in by_level(reports, levels).items())
        print("conformance: by level, as below: " + ", ".join(cells))
    print(f"conformance: {word}, {len(reports)} files, {whole.counts()}, "
          f"{len(whole.others) - len(missing)} explained ({time.monotonic() - begun:.1f} s)")
    return bool(missing)


def main(words):
    options = argparse.ArgumentParser(description=__doc__,
                                      formatter_class=argparse.RawDescriptionHelpFormatter)
    options.add_argument("subject", nargs="?")
    options.add_argument("files", nargs="*")
    options.add_argument("--level", default="0,1,2,3,4")
    options.add_argument("--left-out", action="store_true")
    options.add_argument("--explained", action="store_true")
    options.add_argument("--table", action="store_true")
    options = options.parse_args(words)
    if options.table:
        import table
        return table.main([])
    played = OURS if options.subject is None else [options.subject]
    return int(any([play_one(word, options) for word in played]))


if __name__ == "__main__":
    sys.exit(main(sys.argv[1:]))
