#!/usr/bin/env python3
"""play.py PLAY FILE ..: plays transcripts (docs/maintainers/TRANSCRIPTS.md) over the archives for
C, by the program tests/c/play.c.

Messages and their digests are spelled here (spelling.py), so they come from outside the library.
Each answer is compared with that of the transcript. Then each allocation of each line is refused in
turn, as rust/checks/src/player/refusals.rs does: the call must say so. If the call is made again,
everything goes on as the transcript says, and if it is not, as in a transcript without its line.
Only a client that hears a response after which it sends another message may succeed all the same,
and forget the message that it sent before: then everything goes on as the transcript says up to a
response to the forgotten message, or up to a message that is sent in place of it. Each play frees
all blocks.

Calls that the archives do not have are left out, and counted: a call that only reads something
alone, and one that changes something together with the rest of its paragraph. The last lines are
these counts. The status is 1 if an answer is wrong."""

import collections
import sys

from spelling import begins_with_digit
from stage import APART, TELLING, Child, Left, Stage
from wording import fits, name_of

MOST_ALLOCATIONS = 400
WITHOUT, REFUSED, AGAIN = range(3)

# The line in question: its place, how it is played, and which of its allocations is refused.
Cut = collections.namedtuple("Cut", "at turn nth")
# What was answered, and when; how many allocations were asked for, and how many calls made.
Answer = collections.namedtuple("Answer", "name came now asked calls")


def is_played(line):
    return bool(line) and not line.startswith(("#", "@")) and not line.endswith(":")


def parted(line):
    """The call of a line, and what is written behind it."""
    call, _, written = line.partition("->")
    return call.strip(), written.strip()


def called(call):
    """The name of a call, without its time and the name that keeps its answer."""
    words = call.split()
    if begins_with_digit(words[0]) or words[0] == "max":
        words = words[1:]
    return name_of(words[2:] if words[1:2] == ["="] else words)


def leaves_rest(left, call):
    """Whether the rest of the paragraph is left out, too: the call changes what is played, or keeps
    a message."""
    is_change = str(left).split()[0] not in APART and str(left) not in TELLING
    return is_change or "=" in call.split()[1:3]


def forgets(answer):
    """Whether a client has heard a response although an allocation was refused."""
    return (answer.name, answer.came) == ("endpoint client", "consumed")


def until_forgotten(came, whole):
    """What came up to what a client that has forgotten a message does otherwise, and then what is
    written."""
    differing = sorted(at for at in whole if came.get(at) != whole[at])
    if differing and came.get(differing[0], "").startswith(("not ours", "sends ")):
        return {at: came.get(at) if at < differing[0] else whole[at] for at in whole}
    return came


def told(answers):
    return {at: str(answer) if isinstance(answer, Left) else answer.came for at,
            answer in answers.items()}


class Transcript:
    def __init__(self, child, path):
        self.child, self.path = child, path
        with open(path, encoding="utf-8") as file:
            self.paragraphs = [paragraph.split("\n")
                               for paragraph in file.read().rstrip("\n").split("\n\n")]
        self.named = {lines[0][:-1]: lines for lines in self.paragraphs if lines[0].endswith(":")}
        words = (line.split() for lines in self.paragraphs for line in lines
                 if line.startswith("@"))
        self.meanings = {name: meaning for name, *meaning in words}
        self.is_right, self.refused = True, 0
        self.played, self.lacking, self.behind = (collections.Counter() for _ in range(3))

    def wrong(self, number, line, came):
        self.is_right = False
        print(f"{self.path}: line {number}\n  written: {line}\n  came:    {came}")

    # ---- One play of a paragraph.

    def play(self, lines, cut=None):
        """Plays a paragraph. Gives the answers by line, that of the call that was refused, and
        whether all blocks came back."""
        stage, answers, refusal, cause = Stage(self.child, self.meanings), {}, None, None
        for at, line in enumerate(lines):
            if not is_played(line):
                continue
            call, written = parted(line)
            try:
                if cause:
                    raise Left(cause)
                if call.startswith("like "):
                    self.repeat(stage, call[5:])
                    continue
                if cut and cut.at == at:
                    if cut.turn == WITHOUT:
                        stage.pass_time(call)
                        continue
                    self.child.ask("refuse", cut.nth)
                    refusal = self.make(stage, call, written)
                    self.child.ask("refuse", 0)
                    if cut.turn == REFUSED:
                        continue
                answers[at] = self.make(stage, call, written)
            except Left as left:
                answers[at] = left
                if call.startswith("like ") or leaves_rest(left, call):
                    cause = str(left)
        return answers, refusal, self.child.reset()

    def repeat(self, stage, name):
        """Plays the lines of another paragraph, whatever is answered."""
        for line in filter(is_played, self.named[name]):
            try:
                stage.answer(*parted(line))
            except Left as left:
                if leaves_rest(left, line):
                    raise

    def make(self, stage, call, written):
        self.child.at = f"{self.path}: {call}"
        self.child.asked = self.child.calls = 0
        name, came = stage.answer(call, written)
        return Answer(name, came, stage.now, self.child.asked, self.child.calls)

    # ---- A paragraph, and each of its allocations refused.

    def play_paragraph(self, first, lines):
        answers, _, is_clean = self.play(lines)
        is_right = is_clean
        for at, answer in answers.items():
            call, written = parted(lines[at])
            if isinstance(answer, Left):
                (self.lacking if called(call) == str(answer) else self.behind)[str(answer)] += 1
                continue
            if answer.calls:
                self.played[answer.name.split()[0]] += 1
            if not fits(answer.name, answer.came, written, answer.now):
                is_right = False
                self.wrong(first + at, lines[at], answer.came)
        if not is_clean:
            self.wrong(first, lines[0], "blocks are left at the end")
        if is_right:
            self.refuse_each(first, lines, answers)

    def refuse_each(self, first, lines, answers):
        for at, answer in answers.items():
            if not isinstance(answer, Left) and answer.asked:
                without, _, _ = self.play(lines, Cut(at, WITHOUT, 0))
                self.refuse_line(first, lines, at, told(answers), told(without))

    def refuse_line(self, first, lines, at, whole, without):
        for nth in range(1, MOST_ALLOCATIONS):
            again, refusal, is_clean = self.play(lines, Cut(at, AGAIN, nth))
            if refusal.asked < nth:
                return
            alone, other, is_clean_too = self.play(lines, Cut(at, REFUSED, nth))
            self.refused += 1
            turns = [("made again", told(again), whole), ("not made again", told(alone), without)]
            if forgets(other):
                came = told({**alone, at: other})
                turns = [("not made again", until_forgotten(came, whole), whole)]
            for came in {refusal.came, other.came} - {"OutOfMemory"}:
                if not forgets(other):
                    self.wrong(first + at, lines[at], f"{came}, at refused allocation {nth}")
            if not (is_clean and is_clean_too):
                self.wrong(first + at, lines[at],
                           f"blocks are left at the end, at refused allocation {nth}")
            for turn, came, wanted in turns:
                for place in sorted(place for place in wanted if came.get(place) != wanted[place]):
                    self.wrong(first + place, lines[place],
                               f"{came.get(place)}, where line {first + at} is {turn} after "
                               f"refused allocation {nth}")

    def run(self):
        number = 1
        for lines in self.paragraphs:
            self.play_paragraph(number, lines)
            number += len(lines) + 1
        print(f"{self.path.rpartition('/')[2]}: {'right' if self.is_right else 'wrong'}, "
              f"{sum(self.played.values())} calls, "
              f"{self.refused} refused allocations, "
              f"{sum((self.lacking + self.behind).values())} left out")


def main(words):
    if len(words) < 2:
        sys.exit(__doc__)
    child = Child(words[0])
    transcripts = [Transcript(child, path) for path in words[1:]]
    for transcript in transcripts:
        transcript.run()
    child.process.stdin.close()
    is_right = all(transcript.is_right for transcript in transcripts) and child.process.wait() == 0
    played, lacking, behind = (sum((getattr(one, name) for one in transcripts),
                                   collections.Counter())
                               for name in ("played", "lacking", "behind"))
    for title, counts in (("played", played), ("left out", lacking), ("left out behind", behind)):
        print(f"{title}: " + ", ".join(f"{name} {count}" for name, count in sorted(counts.items())))
    print(f"transcripts: {'right' if is_right else 'wrong'}, {len(transcripts)} files, "
          f"{sum(played.values())} calls, "
          f"{sum(one.refused for one in transcripts)} refused allocations, "
          f"{sum((lacking + behind).values())} left out")
    return 0 if is_right else 1


if __name__ == "__main__":
    sys.exit(main(sys.argv[1:]))
