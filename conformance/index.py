"""Which paragraphs a level has, and what each is: a MUST of an RFC, or a choice of this library.

The files of a level carry their marks. `INDEX` names files of tests/transcripts, which are
played as they are (GRAMMAR.md, "INDEX")."""

import os

from grammar import TOP, read_file
from transcripts import name_of, wanted_of

DATA = os.path.join(TOP, "tests", "transcripts")


class Own:
    """A file of a level. A paragraph without a mark is only repeated by others."""

    has_ours = False  # each call is one of the suite

    def __init__(self, path, file):
        self.path, self.file = os.path.relpath(path, TOP), file
        for paragraph in file.paragraphs:
            is_asked = any(line.answer is not None for line in paragraph.lines)
            if is_asked and paragraph.mark is None and paragraph.name is None:
                raise SystemExit(f"{self.path}:{paragraph.at}: a paragraph without a mark")

    def mark_of(self, paragraph):
        return paragraph.mark

    def is_alike(self, stage, line, came):
        return came == line.answer

    def is_ours(self, line):
        return False

    def is_left(self, paragraph, line):
        return False


class Transcript:
    """A file of tests/transcripts, with the marks of an index."""

    has_ours = True

    def __init__(self, path, mark):
        self.path, self.mark, self.exceptions = os.path.relpath(path, TOP), mark, []
        self.file = read_file(path)

    def except_for(self, mark, title):
        if not any(paragraph.title.startswith(title) for paragraph in self.file.paragraphs):
            raise SystemExit(f"INDEX: {self.path} has no paragraph that begins with: {title}")
        self.exceptions.append((title, mark, []))

    def leave(self, words):
        """Leaves out the lines with these words in the paragraphs of the last exception."""
        title, _, left = self.exceptions[-1]
        if not any(words in line.raw for paragraph in self.file.paragraphs
                   if paragraph.title.startswith(title) for line in paragraph.lines):
            raise SystemExit(f"INDEX: {self.path} has no line with {words} under: {title}")
        left.append(words)

    def exception_of(self, paragraph):
        """The mark of a paragraph, and the words of its lines that are left out."""
        for title, mark, left in self.exceptions:
            if paragraph.title.startswith(title):
                return mark, left
        return self.mark, []

    def mark_of(self, paragraph):
        mark, _ = self.exception_of(paragraph)
        return None if mark == "LEFT" else mark

    def is_left(self, paragraph, line):
        return any(words in line.raw for words in self.exception_of(paragraph)[1])

    def is_alike(self, stage, line, came):
        return wanted_of(stage, line, came) == came

    def is_ours(self, line):
        """The nonces of a server in a transcript are made of drawn numbers as this library does."""
        return name_of(line.words).startswith("server ")


def read_index(path):
    """A line at the margin is a file and its mark; one that is set in, `MARK: TITLE`, an exception;
    and one that is set in further, `LEFT: WORDS`, leaves lines of it out."""
    made = []
    with open(path, encoding="utf-8") as lines:
        for line in lines:
            words = line.split()
            if not words or line.startswith("#"):
                continue
            if line[0] != " ":
                made.append(Transcript(os.path.join(DATA, words[0]), " ".join(words[1:])))
                continue
            mark, _, title = line.strip().partition(": ")
            if line.startswith(" " * 8):
                made[-1].leave(title)
            else:
                made[-1].except_for(mark, title)
    return made


def file(path):
    """A file by its path: one of a level, or a transcript, whose paragraphs have no marks."""
    if os.path.dirname(os.path.abspath(path)) == DATA:
        return Transcript(os.path.abspath(path), "CHOICE as this transcript says")
    return Own(path, read_file(path))


def level(folder):
    """All that is played at a level."""
    names = sorted(name for name in os.listdir(folder) if name.endswith(".txt"))
    made = [Own(os.path.join(folder, name), read_file(os.path.join(folder, name)))
            for name in names]
    path = os.path.join(folder, "INDEX")
    return made + (read_index(path) if os.path.exists(path) else [])
