#!/usr/bin/env python3
"""Writes docs/CLAUSES.md from the sources: of each public function the clauses of its contract.

    tools/clauses.py          says whether the page is that of the sources
    tools/clauses.py write    writes it

A function is named below its module, by its type or trait. A clause without a name is counted. What
a type does as a trait is told by the contract of the trait. Run at the top of the repository.
"""
import re
import sys
import textwrap

import crates
import shown
from export_text import closing, mask

PAGE = crates.TOP / "docs/CLAUSES.md"
# The order of the crates on the page. The programs follow.
FIRST = ("stun_endpoint", "stun_client_calls", "stun_client_endpoint", "stun_ice", "stun_datagrams",
         "stun_client_runs", "stun_client_meetings", "stun_client_strength", "stun_client_plans",
         "stun_requests", "stun_exchanges", "stun_sessions", "stun_peers", "stun_peer_runs",
         "stun_proto", "stun_base", "stun_types", "stun_agent", "stun_judging", "stun_auth",
         "stun_extra", "stun_attributes", "stun_buffer", "stun_client", "stun_client_requests",
         "stun_numbers", "stun_c", "stun_handles", "stun_c_endpoint")
HEAD = """\
# The clauses of each public function

`tools/clauses.py` writes this page from the sources, and the gate compares them. In brackets stand
the names of the clauses of a contract (`ensures NAME { .. }`). A number counts clauses without a
name, and *premise* says that a caller has to meet something (`requires`). The comment above a call
says what they mean, and [PROVED.md](PROVED.md) what they rest on and what no clause states.
"""
CLAUSE = re.compile(r"\b(ensures|requires)\*?(?:\s+(\w+))?\s*\{")
HOLDER = re.compile(r"(?m)^(?:unsafe )?(?:(pub )?trait|impl)\b(?:<[^{]*?>)? ?([^{]*)\{")
NAME = re.compile(r"fn (\w+)")


def holders(masked):
    """Each impl and each trait of a file: where it begins and ends, and the name of its functions'
    type, or None if a trait's contract tells of them."""
    found = []
    for one in HOLDER.finditer(masked):
        is_trait = "trait" in one[0].split(one[2])[0]
        name = re.sub(r"<.*", "", one[2].split("where")[0].strip(), flags=re.S).strip()
        name = re.match(r"&?(?:[\w]+::)*(\w+)", name)
        is_told = re.search(r"\bfor\b", one[2]) or is_trait and not one[1]
        found.append((one.start(), closing(masked, one.end() - 1),
                      None if is_told or not name else name[1]))
    return found


def in_words(text, found, masked):
    """The clauses of the contract of a function, in brackets."""
    start, _ = shown.body_of(masked, found)
    names, nameless, premises = [], 0, 0
    for kind, name in CLAUSE.findall(masked[found.end():start]):
        premises += kind == "requires"
        nameless += kind == "ensures" and not name
        names += [f"`{name}`"] if kind == "ensures" and name else []
    said = [*names, *([str(nameless)] if nameless else []), *(["*premise*"] if premises else [])]
    return f" ({', '.join(said)})" if said else ""


def functions(path):
    """The public functions of a source file with their clauses, by the order of the file."""
    text = path.read_text()
    masked = mask(text)
    spans, said = holders(masked), []
    for found in shown.FUNCTION.finditer(masked):
        around = next((span for span in spans if span[0] < found.start() < span[1]), None)
        is_of_trait = around and re.match(r"(?:unsafe )?(?:pub )?trait", masked[around[0]:])
        if around and around[2] is None or not (found[2] == "pub " or is_of_trait):
            continue
        name = NAME.search(found[0])[1]
        said.append((around[2] if around else "", name, in_words(text, found, masked)))
    return said


def lines_of(crate):
    """The part of the page about one crate."""
    source = crates.TOP / "crates" / crate / "src"
    rows, without = [], []
    for path in sorted(source.rglob("*.rt")):
        module = "::".join(part for part in path.relative_to(source).with_suffix("").parts
                           if part not in ("lib", "main", "mod"))
        by_type = {}
        for kind, name, clauses in functions(path):
            if clauses:
                by_type.setdefault(kind, []).append(f"`{name}`{clauses}")
            else:
                without.append(f"`{'::'.join(filter(None, (module, kind, name)))}`")
        for kind, names in by_type.items():
            where = "::".join(filter(None, (module, kind))) or crate
            link = f"[`{where}`](../crates/{crate}/src/{path.relative_to(source)})"
            rows += [f"{link}: " + ", ".join(names) + "."]
    return [*rows, *([f"Without a clause: {', '.join(without)}."] if without else [])]


def filled(row):
    return textwrap.fill(row, 98, break_long_words=False,
                         break_on_hyphens=False).replace("\n", "\n  ")


def page():
    order = [*(one for one in FIRST if one in crates.lines()),
             *(one for one in crates.lines() if one not in FIRST)]
    parts = [HEAD]
    for crate in order:
        rows = lines_of(crate)
        if rows:
            parts.append(f"\n## {crate}\n\n" + "".join(f"- {filled(row)}\n" for row in rows))
    return "".join(parts)


def main():
    words, fresh = sys.argv[1:], page()
    if words == ["write"]:
        PAGE.write_text(fresh)
    elif words:
        sys.exit(__doc__)
    elif not PAGE.is_file() or PAGE.read_text() != fresh:
        print("clauses: docs/CLAUSES.md is not that of the sources: run tools/clauses.py write")
        return 1
    print(f"clauses: {fresh.count(' (')} functions are in docs/CLAUSES.md")
    return 0


if __name__ == "__main__":
    sys.exit(main())
