#!/usr/bin/env python3
"""Counts what has to be believed beside the proof, and compares it with the tables of
docs/TRUST.md.

    tools/trusted.py          compares: a figure that is off by more than a tenth is wrong
    tools/trusted.py write    writes the tables anew

The first table has, for each product, the definitions that the contracts of its public calls are
made of, transitively, with those of the crates below; and the definitions that the laws which state
items 1 to 3 of README.md are made of. The second has the lines that no proof covers, between the
proved sources and a program: without blank lines, comments and tests. Run at the top of the
repository.
"""
import ast
import re
import sys
from pathlib import Path

from definitions import Repository, sources

PAGE = Path("docs/TRUST.md")
# Each product, and the crates whose public contracts speak of it, or the definitions by name.
HEADLINE = [("Rattle.stun_proto.specs.Headline", name) for name in
            ("ValidatesOneCall", "ValidatesEachCall", "IsReadyClient", "EndsAtStrongest",
             "IsDrivenByPlan")]
HEADLINE += [("Rattle.stun_proto.specs." + file, name) for file, name in
             (("Replies", "message_read"), ("Serving", "replies"), ("Run", "IsDriven"))]
ENDPOINTS = {
    "The servers: `endpoint::Server`, `ShortTermServer`, `OpenServer`": ("stun_endpoint",),
    "The client: `endpoint::Client`": ("stun_client_calls",),
    "The ICE agent: `endpoint::ice`": ("stun_ice",),
    "The calls for C": ("stun_c", "stun_c_endpoint"),
}
OF_LAWS = "The laws of items 1 to 3 of README"
# The laws that state these items, by their crates: the server, client and server, and time.
LAWS = {
    "stun_endpoint": ("requests_are_accepted_under_their_nonces", "undropped_messages_are_whole"),
    "stun_datagrams": ("accepted_datagrams_are_handed_out", "a_datagram_is_one_of_a_list"),
    "stun_client_meetings": ("clients_meet_servers", "new_clients_meet_servers"),
    "stun_client_strength": ("nothing_sent_is_bid_down",),
    "stun_client_plans": ("requests_are_sent_by_plan",),
    "stun_client_runs": ("a_request_ends_once",),
    "stun_client_calls": ("a_request_ends_within_two_plans",),
}
FRONT = ("rust/src/endpoint.rs", "rust/src/endpoint/**/*.rs")
KIT = ("rust/src/kit/**/*.rs",)
# Each piece that no proof covers: its files, and which of its lines count.
PIECES = {
    "the hand-written Rust wrappers of the endpoints (`rust/src/endpoint`)": FRONT,
    "the other hand-written code of the crate (`rust/src`)": ("rust/src/**/*.rs",),
    "the hand-written library that the exported code uses (`rust/src/kit`)": KIT,
    "the hand-written code at the border with C (`rust/capi/src`)": ("rust/capi/src/**/*.rs",),
    "the inline calls of the headers": ("include/*_inline.h", "include/stunp_sockaddr.h",
                                        "include/stunp_log.h"),
    "the wrappers for C++ (`stunp.hpp`)": ("include/stunp.hpp",),
    "the exporter (`tools/export`)": ("tools/export/*.py",),
}
ROW = re.compile(r"^\| ([^|]+?) \| ([\d,]+) \|(?: ([\d,]+) \|)?", re.M)


def closed(repository, crates):
    """The definitions of the public contracts of these crates."""
    return repository.of_contracts([source for crate in crates for source in sources(".", crate)
                                    if not source.path.endswith("laws.rt")])


def of_laws(repository):
    """The definitions of the clauses of LAWS."""
    cited = []
    for crate, names in LAWS.items():
        files = [source for source in sources(".", crate) if source.path.endswith("laws.rt")]
        for name in names:
            law = re.compile(rf"^pub fn {name}\b.*?^\{{", re.M | re.S)
            found = [(source, law.search(source.text)) for source in files]
            stated = [repository.cited_in(None, source.imports, match[0].splitlines())
                      for source, match in found if match]
            if not any(stated):
                sys.exit(f"{__file__}: LAWS: {crate} has no law {name}: name one that is there")
            cited += sum(stated, [])
    return repository.closure(cited)


def definitions():
    repository = Repository(".")
    found = {"The three theorems about the parts":
             repository.closure([repository.named[name] for name in HEADLINE])}
    found |= {name: closed(repository, crates) for name, crates in ENDPOINTS.items()}
    found[OF_LAWS] = of_laws(repository)
    return {name: (len(set(of)), sum(len([line for line in one.code if line.strip()])
                                     for one in set(of))) for name, of in found.items()}


def of_rust(text):
    """Its lines, without comments and the tests at its end."""
    text = re.split(r"(?m)^#\[cfg\((?:all\()?test", text)[0]
    lines = [line.strip() for line in text.splitlines()]
    return [line for line in lines if line and not line.startswith("//")]


def of_header(text):
    """The lines of its inline calls."""
    text = re.sub(r"/\*.*?\*/|//[^\n]*", "", text, flags=re.S)
    calls = re.findall(r"^(?:static inline|STUNP_INLINED)\b.*?(?:^\}|\}$)", text, re.M | re.S)
    return [line for call in calls for line in call.splitlines() if line.strip()]


def of_wrappers(text):
    text = re.sub(r"/\*.*?\*/|//[^\n]*", "", text, flags=re.S)
    return [line for line in text.splitlines() if line.strip() and not line.startswith("#")]


def of_python(text):
    """Its lines, without comments and without the texts that describe it."""
    told = set()
    for node in ast.walk(ast.parse(text)):
        has_text = isinstance(node, (ast.Module, ast.FunctionDef, ast.ClassDef))
        if has_text and ast.get_docstring(node):
            told |= set(range(node.body[0].lineno, node.body[0].end_lineno + 1))
    return [line for number, line in enumerate(text.splitlines(), 1)
            if number not in told and line.strip() and not line.strip().startswith("#")]


READERS = {".rs": of_rust, ".h": of_header, ".hpp": of_wrappers, ".py": of_python}


def pieces():
    def files(patterns):
        return {path for pattern in patterns for path in Path(".").glob(pattern)
                if path.name != "tests.rs" and "tests" not in path.parts}

    found, apart = {}, files(FRONT) | files(KIT)
    for name, patterns in PIECES.items():
        of = files(patterns) - (apart if patterns == ("rust/src/**/*.rs",) else set())
        found[name] = (sum(len(READERS[path.suffix](path.read_text())) for path in of),)
    return found


def main():
    found = definitions() | pieces()
    page = PAGE.read_text()
    if sys.argv[1:] == ["write"]:
        def anew(row):
            figures = found.get(row[1], ())
            cells = "".join(f" {figure:,} |" for figure in figures)
            return f"| {row[1]} |{cells}" if figures else row[0]

        PAGE.write_text(ROW.sub(anew, page))
        return 0
    rows = {name: tuple(int(figure.replace(",", "")) for figure in figures if figure)
            for name, *figures in ROW.findall(page)}
    wrong = [f"{PAGE}: {name}: the page says {rows.get(name, 'nothing')}, and it is {figures}: "
             "tools/trusted.py write"
             for name, figures in found.items()
             if name not in rows or any(10 * abs(one - other) > other
                                        for one, other in zip(rows[name], figures, strict=True))]
    print("\n".join([*wrong, f"trusted: {len(found)} figures compared, {len(wrong)} wrong"]))
    return 1 if wrong else 0


if __name__ == "__main__":
    sys.exit(main())
