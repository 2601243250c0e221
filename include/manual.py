#!/usr/bin/env python3
"""Writes the manual pages of the calls from the comments of the headers beside this file.

    manual.py FOLDER     FOLDER/man3/NAME.3 for each call, macro with a parameter, struct, enum and
                         handle, and FOLDER/man7/HEADER.7 for each header as a whole

All text comes from the headers. A comment begins with what a call does. From `Returns` on it
describes the result, and from `Errors` on it lists the errors in the order of testing. A comment
that no declaration follows is about the calls after it, up to the next title (`---- Title`). The
pages of these calls repeat it, except those of calls that free or wipe something or return a text
or a version. Lines that are indented by four are code. Text in backquotes is bold.
"""
import re
import sys
import textwrap
from pathlib import Path

HERE = Path(__file__).resolve().parent
HEADERS = ("stunp.h", "stunp_endpoint.h", "stunp_sockaddr.h", "stunp_log.h")
PIECE = re.compile(r"^/\*(.*?)\*/\n|^((?:extern )?\w[^;{}]*?\b(\w+)\([^)]*\))(?:;| \{)"
                   r"|^typedef (?:struct|enum)\b[^\n]*?(?:\n(?!\})[^\n]*)*?\n?\} (\w+);", re.M | re.S)
# The macros that a comment is about: the lines after the comment define them for C++ and for C.
MACROS = re.compile(r"#ifdef __cplusplus\n(?:(?!#else|#endif).*\n)*#else\n"
                    r"((?:#define \w+\(type\) .*\n)+)#endif\n")
# How the declaration of a call begins if the call is compiled into the program.
INLINE = "STUNP_INLINED |static inline |extern "
NAME = re.compile(r"\b(?:stunp|rattle)_\w+|\bSTUNP_(?:INIT|ANEW)\b")
# The calls whose pages do not repeat the comment on their group.
PLAIN = re.compile(r"_(?:free|clear|text|wipe|version)$")
ORDER = "If several apply, the call returns the first of this list."


def escaped(line):
    line = line.replace("\\", "\\e").replace("-", "\\-")
    return "\\&" + line if line[:1] in (".", "'") else line


def coded(line):
    """A line of code, without the backquotes in its comments."""
    return escaped(line).replace("`", "")


def quoted(lines):
    """Lines of text, in which the text in backquotes is bold."""
    return re.sub(r"`([^`]*)`", r"\\fB\1\\fR", "\n".join(lines)).split("\n")


def paragraphs(text):
    """The parts of a comment between empty lines, without the stars before its lines."""
    lines = [re.sub(r"^ \* ?", "", line).rstrip() for line in text.strip(" *").split("\n")]
    return re.split(r"\n{2,}", "\n".join(lines).strip("\n"))


def kind_of(line, before):
    """The kind of a line that follows a line of the kind `before`."""
    if line.startswith("- ") or before == "item" and line.startswith("  "):
        return "item"
    if line.startswith("    ") and before != "names":
        return "code"
    return "names" if line.startswith("  ") else "prose"


def named(lines):
    """Lines that are indented by two: names, each with its meaning in one or more lines."""
    deep = min(len(line) - len(line.lstrip()) for line in lines)
    for line in lines:
        name, _, about = line.strip().partition("  ")
        if line[deep] == " ":
            yield escaped(line.strip())
        else:
            yield from [".TP", ".B " + escaped(name)] + [escaped(about.strip())] * (about != "")
    yield ".PP"


def paragraph(text):
    """A paragraph: prose, code, names, and items."""
    deep = re.match(r"( *)- |", text)[1] or ""
    roff, lines = [], [line.removeprefix(deep) for line in text.split("\n")]
    for kind, lines in blocks(lines):
        if kind == "code":
            roff += [".PP", ".in +4n", ".EX", *(coded(line[4:]) for line in lines), ".EE", ".in"]
        elif kind == "names":
            roff += quoted(named(lines))
        elif kind == "item":
            roff += quoted(text for line in lines for text in
                           [".IP \\(bu 2"] * line.startswith("- ") + [escaped(line[2:])])
        else:
            roff += quoted([".PP", *map(escaped, lines)])
    return roff


def blocks(lines):
    """Each kind of line, with the lines of this kind that follow each other."""
    found, kind = [], ""
    for line in lines:
        before, kind = kind, kind_of(line, kind)
        if kind != before:
            found.append((kind, []))
        found[-1][1].append(line)
    return found


def brief(text, name):
    """The first sentence, as a line of NAME, which has 80 columns: without what is in brackets, and,
    if it does not fit, without a clause at its end or with dots at the end of the line."""
    first = re.split(r"[.:](?:\s|$)", " ".join(text.split()))[0].replace("`", "")
    words = re.sub(r" \([^()]*\)", "", first[0].lower() + first[1:]).split()
    room = 80 - len(f"       {name} - ")
    if len(" ".join(words)) > room:
        words = re.split(r", (?=which|but|like|with|from|for|and (?:returns|writes|whose))",
                         " ".join(words))[0].split()
    if len(" ".join(words)) > room:
        while len(" ".join(words)) + len(" ..") > room:
            words.pop()
        words[-1] = words[-1].rstrip(",;") + " .."
    return escaped(" ".join(words))


def written(folder, name, header, version, what, synopsis, sections):
    """Writes a page of NAME, SYNOPSIS and sections, each with its lines. The page of a header is in
    section 7, and all others are in section 3."""
    includes, section = f"#include <{header}>", 7 if name == header[:-2] else 3
    # A line of 78 columns has the name twice. What is between them is left out if it does not fit.
    middle = "STUN (RFC 8489)" if not 27 < len(name) <= 35 else " "
    top = name if len(name) <= 35 else header[:-2]
    # (some releases of groff adjust each section anew, as AD says)
    roff = [f".TH {top} {section} \"\" \"stunp {version}\" \"{middle}\"", ".ds AD l", ".nr HY 0",
            ".nh", ".ad l", ".SH NAME", f"{name} \\- {what}", ".SH SYNOPSIS", ".nf", escaped(includes)]
    roff += [".PP", *map(coded, synopsis)] if synopsis else []
    roff += [".fi"]
    for title, lines in sections:
        roff += [f".SH {title.upper()}", *lines] if lines else []
    to = folder / f"man{section}"
    to.mkdir(parents=True, exist_ok=True)
    (to / f"{name}.{section}").write_text("\n".join(roff) + "\n", "utf-8")


def folded(lines):
    """The declaration of a call in lines of at most 72 columns, which have as many whole parameters
    as fit."""
    head, _, rest = " ".join(" ".join(lines).split()).partition("(")
    whole = re.sub(r"(?<!,) ", "\0", rest)
    return [head + "(", *(line.replace("\0", " ") for line in textwrap.wrap(
        whole, 72, initial_indent="    ", subsequent_indent="    ", break_on_hyphens=False))]


def constants(lines):
    """The declaration of an enum without the comments on its constants, and these comments."""
    text = "\n".join(lines)
    roff = []
    for name, about in re.findall(r"(?:(\w+) = -?\w+,? *)?/\*(.*?)\*/", text, re.S):
        about = escaped(" ".join(re.sub(r"\n *\*", " ", about).split()))
        roff += quoted([".TP", ".B " + name, about] if name else [".PP", about])
    return re.sub(r"(?m)^ +/\*[^/]*\*/\n| */\*.*?\*/", "", text, flags=re.S).split("\n"), roff


def parted(comment):
    """The paragraphs of a comment on a call: what it does, its result, and its errors."""
    parts = {"DESCRIPTION": [], "RETURN VALUE": [], "ERRORS": []}
    to = "DESCRIPTION"
    for number, text in enumerate(comment):
        if to == "DESCRIPTION" and number and re.match(r"(Or )?[Rr]eturns\b", text):
            to = "RETURN VALUE"
        before, found, after = text.partition("Errors")
        if found and re.match(r"[^.:]*:\n", after):
            about, _, after = after.partition(":\n")
            parts[to] += paragraph(before.strip()) if before.strip() else []
            to = "ERRORS"
            parts[to] += quoted([".PP", escaped(f"Errors{about}:")]) if about else []
            parts[to] += paragraph(after)
        else:
            if to == "ERRORS" and not text.startswith(" "):
                to = "RETURN VALUE" if text.startswith("Returns") else "DESCRIPTION"
            parts[to] += paragraph(text)
    if parts["ERRORS"]:
        parts["ERRORS"] = [ORDER] + parts["ERRORS"]
    return list(parts.items())


def page(folder, header, version, declared, name, comment, shared, pages):
    lines = re.sub(r"^STUNP_(?!INLINED)[A-Z_]+.*\n", "", declared, flags=re.M).strip()
    first = re.match(f"(?:{INLINE})?", lines)[0]
    lines = lines.removeprefix(first).replace("\n" + " " * len(first), "\n").split("\n")
    is_wide, values = max(map(len, lines)) > 72, []
    if is_wide and lines[0].startswith("typedef enum"):
        lines, values = constants(lines)
    elif is_wide and lines[-1].endswith(");"):
        lines = folded(lines)
    others = sorted({*NAME.findall("\n".join(comment))} & {*pages} - {name})
    notes = [line for text in shared if not PLAIN.search(name) for line in paragraph(text)]
    written(folder, name, header, version, brief(comment[0], name), lines,
            [*parted(comment), ("CONSTANTS", values), ("NOTES", notes),
             ("SEE ALSO", [",\n".join([f".BR {other} (3)" for other in others]
                                      + [f".BR {header[:-2]} (7)"])])])


def overview(folder, header, version, comment):
    """The page of a header, from its first comment: sections have two empty lines before them."""
    text = re.sub(r"^ \* ?", "", comment.strip(" *"), flags=re.M)
    first, *parts = re.split(r"\n{3,}", text)
    title, _, rest = first.partition("\n")
    sections = [("DESCRIPTION", [line for one in re.split(r"\n{2,}", rest.strip())
                                 for line in paragraph(one)])]
    for part in parts:
        head, _, rest = part.strip("\n").partition("\n")
        sections.append((head, [line for one in re.split(r"\n{2,}", rest.strip("\n"))
                                for line in paragraph(one)]))
    written(folder, header[:-2], header, version, escaped(title.split(": ", 1)[1]), [], sections)


def documented(text):
    """The declarations of a header that have a comment right before them: text, name, comment, and
    the comments on the calls of this section."""
    comment, end, shared, is_titled = None, 0, [], False
    for found in list(PIECE.finditer(text))[1:]:
        if found[1] is None:
            name = found[3] or found[4]
            if comment and found.start() == end and NAME.fullmatch(name):
                is_call = found[2] is not None
                yield (found[2] + ";" if is_call else found[0], name, comment,
                       shared if is_call else [])
            comment = None
            continue
        comment, end, macros = paragraphs(found[1]), found.end(), MACROS.match(text, found.end())
        if macros:
            names = re.findall(r"#define (\w+)\(type\)", macros[1])
            yield from ((f"{name}(type)", name, comment, []) for name in names)
        if comment[0].startswith("---- "):
            shared, is_titled, comment = comment[1:], True, None
        elif text[end] == "\n":
            shared, comment = shared + comment * is_titled, None


def main():
    if len(sys.argv) != 2 or sys.argv[1].startswith("-"):
        sys.exit(__doc__)
    folder, version = Path(sys.argv[1]), (HERE / "../VERSION").read_text().strip()
    texts = {header: (HERE / header).read_text("utf-8") for header in HEADERS}
    pages = {name for text in texts.values() for _, name, _, _ in documented(text)}
    for header, text in texts.items():
        overview(folder, header, version, PIECE.search(text)[1])
        for declared, name, comment, shared in documented(text):
            page(folder, header, version, declared, name, comment, shared, pages)


if __name__ == "__main__":
    main()
