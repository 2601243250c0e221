#!/bin/sh
# Makes the manual pages of the headers (include/manual.py), and reads each as `man -l` does, if
# that is installed. A warning is a failure, unless WERROR is set and empty (rust_c.sh), and so is a
# page that whatis could not list, or whose NAME has more than one line. Each call
# that the headers declare must have a page, which shows the declaration and names the errors in
# order. Each struct, enum, handle and macro with a parameter has one too, and each header.
set -eu
cd "$(dirname "$0")/.."
scratch=$(mktemp -d)
trap 'rm -rf "$scratch"' EXIT
python3 include/manual.py "$scratch"
python3 - "$scratch" <<'CHECK'
import re, sys
from pathlib import Path
pages, count, errors = Path(sys.argv[1]), 0, 0
headers = ("stunp.h", "stunp_endpoint.h", "stunp_sockaddr.h", "stunp_log.h")
for header in headers:
    text = Path("include", header).read_text()
    for comment, declared, name in re.findall(
            r"^/\*((?:(?!\*/).)*)\*/\n"
            r"((?:STUNP_[A-Z_]+\b[^\n]*\n)*?(?:\w[^;{}()]*?\b)(stunp_\w+)\([^)]*\))",
            text, re.M | re.S):
        page = (pages / f"man3/{name}.3").read_text()
        count += 1
        plain = page.replace("\\-", "-").replace("\\&", "").replace("\\e", "\\")
        shown = re.sub(r"^(?:STUNP_(?!INLINED)[^\n]*\n)*(?:STUNP_INLINED |static inline |extern )?",
                       "", declared)
        if "".join(shown.split()) + ";" not in "".join(plain.split()):
            sys.exit(f"manual: {name}.3 does not show its declaration")
        listed = re.findall(r"^ \*   (STUNP_[A-Z_]+)", comment.partition("Errors")[2], re.M)
        told = re.findall(r"^\.B (STUNP_[A-Z_]+)", plain.partition("\n.SH ERRORS")[2], re.M)
        if listed != told[:len(listed)]:
            sys.exit(f"manual: {name}.3 names the errors {told}, and the header {listed}")
        errors += len(told)
    if not (pages / f"man7/{header[:-2]}.7").exists():
        sys.exit(f"manual: {header} has no page")
every = "".join(Path("include", header).read_text() for header in headers)
# Those that stunp_log.h declares for its own use have no pages.
inside = len(re.findall(r"(?m)^(?:\w[\w *]*\s[*]?)?(?!stunp_line_)stunp_\w+\([^;{}()]*\)(?:;| \{)",
                        every))
if inside != count:
    sys.exit(f"manual: {inside} calls are declared, and {count} have a comment")
types = re.findall(r"(?m)^(?:typedef .*)?\} (stunp_\w+|rattle_\w+);", every)
macros = re.findall(r"(?m)^#define (STUNP_\w+)\(type\)", every)
for name in types + macros:
    if not (pages / f"man3/{name}.3").exists():
        sys.exit(f"manual: {name} has no page")
for page in sorted(pages.glob("*/*")):
    text = page.read_text()
    if "`" in text:
        sys.exit(f"manual: {page.name} has a backquote")
    if len(text.partition(".SH NAME\n")[2].partition("\n")[0].replace("\\", "")) > 73:
        sys.exit(f"manual: {page.name} has a NAME of more than one line")
print(f"manual: {count} calls with {errors} errors, {len(types)} types", end="")
CHECK
# (the scripts of a minimal Debian put a program there that reads nothing)
if command -v man >/dev/null && man --version 2>/dev/null | grep -q '^man [0-9]'; then
    for page in "$scratch"/man?/*; do
        LC_ALL=C.UTF-8 MANROFFSEQ='' MANWIDTH=80 man --warnings -E UTF-8 -l -Tutf8 -Z "$page" \
            2>"$scratch/warned" >/dev/null || { cat "$scratch/warned" >&2; exit 1; }
        [ ! -s "$scratch/warned" ] || { cat "$scratch/warned" >&2; [ -z "${WERROR-yes}" ] || exit 1; }
        lexgrog "$page" >"$scratch/listed" || { cat "$scratch/listed" >&2; exit 1; }
    done
    echo ", $(ls "$scratch"/man?/* | wc -l) pages read by man"
else
    echo ', no man is here'
fi
