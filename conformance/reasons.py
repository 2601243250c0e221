"""Why subjects differ: the explanations of differences.txt."""

import collections
import os

HERE = os.path.dirname(os.path.abspath(__file__))
PAGE = os.path.join(os.path.dirname(HERE), "docs", "DIFFERENCES.md")
# An explanation, with the lines that it explains: a file, a part of the line, and the actual
# answer, or nothing for any answer. `printed` are the words of DIFFERENCES.md that print it.
Reason = collections.namedtuple("Reason", "section words printed patterns")


def read_reasons(path=os.path.join(HERE, "differences.txt")):
    """The explanations of each subject, in their order."""
    reasons = collections.defaultdict(list)
    with open(path, encoding="utf-8") as file:
        for line in file:
            if line.startswith("  "):
                for subject in subjects:
                    reasons[subject][-1] = with_line(reasons[subject][-1], line.strip())
            elif line.strip() and not line.startswith("#"):
                names, section, words = (part.strip() for part in line.split("|"))
                subjects = names.split(", ")
                for subject in subjects:
                    reasons[subject].append(Reason(section, words, (), ()))
    return reasons


def with_line(reason, line):
    """An explanation with one more of its lines."""
    name, _, rest = line.partition(":")
    if name == os.path.basename(PAGE):
        return reason._replace(printed=(*reason.printed, rest.strip()))
    part, _, answer = rest.partition(" => ")
    return reason._replace(patterns=(*reason.patterns, (name, part.strip(), answer)))


def unprinted(subjects, reasons):
    """The departures of subjects that DIFFERENCES.md does not print."""
    with open(PAGE, encoding="utf-8") as file:
        page = " ".join(file.read().replace("**", "").split())
    return [f"{subject}: {reason.words}" for subject in subjects for reason in reasons[subject]
            if not reason.printed or any(words not in page for words in reason.printed)]


def reason_of(other, reasons):
    """The first explanation of a line that differs, or None."""
    for reason in reasons:
        for name, part, answer in reason.patterns:
            is_line = os.path.basename(other.file) == name and part in other.raw
            if is_line and answer in ("", other.came):
                return reason
    return None
