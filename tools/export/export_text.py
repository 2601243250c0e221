"""Changes in source text, for tools/export/export.py: in code apart from comments and texts."""
import functools
import re

QUOTED = re.compile(
    r'//[^\n]*|/\*.*?\*/|b?r(#*)".*?"\1|b?"(?:\\.|[^"\\])*"|b?\'(?:\\[^\n\']+|[^\'\\\n])\'', re.S)
DOCS = re.compile(r"(?:^[ \t]*//[/!].*\n)+", re.M)
CLOSING = {"{": "}", "(": ")", "[": "]"}


class Unknown(Exception):
    """A form that no rule knows."""


@functools.lru_cache(maxsize=2)
def mask(text):
    """The text with blanks for comments and noughts for texts and characters, so that what is
    left is code."""
    return QUOTED.sub(lambda found: re.sub(r"[^\n]", " " if found.group(0)[0] == "/" else "\0",
                                           found.group(0)), text)


def closing(masked, at):
    """The place after the bracket that closes the one at a place."""
    depth = 0
    for place in range(at, len(masked)):
        depth += (masked[place] in "{([") - (masked[place] in "})]")
        if depth == 0 and masked[place] == CLOSING[masked[at]]:
            return place + 1
        if depth == 0:
            break
    raise Unknown("a bracket is not closed: " + masked[at:at + 40])


def whole_lines(text, start, end):
    """The range with the comments and attributes right above it, where it begins its line."""
    line = text.rfind("\n", 0, start) + 1
    if text[line:start].strip():
        return start, end
    start = line
    while start > 0:
        above = text.rfind("\n", 0, start - 1) + 1
        words = text[above:start].strip()
        if not re.match(r"//(?!!)|#\[", words):
            break
        start = above
    blank = re.compile(r"[ \t]*\n").match(text, end)
    return start, blank.end() if blank else end


def erase(text, pattern, end_of):
    """Erases each range of code that begins with a pattern."""
    masked, kept, at = mask(text), [], 0
    for found in re.compile(pattern, re.M).finditer(masked):
        if found.start() < at:
            continue
        start, end = whole_lines(text, found.start(), end_of(masked, found))
        kept.append(text[at:max(at, start)])
        at = end
    return "".join(kept) + text[at:] if kept else text


def in_code(text, pattern, new):
    """Replaces in code alone. Groups that the replacement names are taken as they stand."""
    if not callable(new):
        template, new = new, lambda found: re.sub(
            r"\\(\d)", lambda number: text[slice(*found.span(int(number.group(1))))], template)
    kept, at = [], 0
    for found in re.compile(pattern, re.M).finditer(mask(text)):
        kept += [text[at:found.start()], new(found)]
        at = found.end()
    return "".join(kept) + text[at:] if kept else text


def in_docs(text, pattern, new):
    """Replaces in doc comments alone."""
    return DOCS.sub(lambda found: re.sub(pattern, new, found.group(0), flags=re.M), text)
