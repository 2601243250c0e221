#!/usr/bin/env python3
"""Erases contracts and ghost items from the library's sources by a reader of its own, and compares
what is left, token by token, with what the exporter wrote.

usage: tests/export/same_tokens.py EXPORT

EXPORT is what export.py wrote (target/export). No code is shared with the exporter, so that a wrong
rule there is seen here. What a type derives is compared too: same_derives.py says what each trait
becomes. Each imported name is compared by the path that it stands for, and so is each path in code:
MOVED says where the export has what Rust lacks or has elsewhere. Comments are not compared, nor
what rustfmt decides: the order of imports and modules, the braces around an arm of a `match`, and
the comma before a closing bracket. The last line counts; the status is 1 if anything differs, or if
nothing was compared.
"""
import collections
import difflib
import re
import sys
from pathlib import Path

from same_derives import TOKEN, closing, expanded, parts

ROOT = Path(__file__).resolve().parents[2]
CRATES = ROOT / "crates"
# Where the export has a path of the sources, or a path under it. The longest that fits is meant.
MOVED = {
    "core": "core", "std": "core",
    "base64::engine::general_purpose": "crate::kit::base64",
    "byteorder": "crate::kit::bytes",
    "md5": "crate::kit::hashes", "sha1": "crate::kit::hashes", "sha2": "crate::kit::hashes",
    "sha1::Sha1 as BegunSha1": "crate::kit::hashes::BegunSha1",
    "sha2::Sha256 as BegunSha256": "crate::kit::hashes::BegunSha256",
    "rand_core": "crate::kit::random",
    "simdutf8::Checker": "crate::kit::utf8::Checker",
    "simdutf8::basic": "core::str",
    "smallvec": "crate::kit::inline",
    "std::alloc": "crate::kit::alloc",
    "std::collections": "crate::kit::collections",
    "std::convert::AsSlice": "crate::kit::convert::AsSlice",
    "std::marker::Brand": "crate::kit::ledger::Brand",
    "std::simd::prelude": "crate::kit::utf8",
    "std::sync::ledger": "crate::kit::ledger",
    # In code, without an import.
    "Duration::from_nanos_u128": "crate::kit::convert::from_nanos_u128",
    "Ipv4Addr::from_octets": "Ipv4Addr::from", "Ipv6Addr::from_octets": "Ipv6Addr::from",
    "str::from_utf8": "core::str::from_utf8",
}
# What only proofs and derives import, and a module that each path to it names in full.
UNUSED = {"std::marker::Model", "std::str", "thiserror::Error"}
# Names that a source has without an import, and where the export has them.
GIVEN = {"Box": "Box", "String": "String", "TryClone": "TryClone", "Vec": "Vec",
         "try_clone": "TryClone"}
# Types that may get variants or fields in a later version.
OPEN = re.compile(r"enum \w*(?:Error|Reason|Cause)|enum (?:Judged|Refusal|IntegrityAlgorithm|"
                  "PasswordAlgorithmValue|TransportType)|struct StoredKeys")
# What the sources have and the export has in its place: everywhere, and in one file.
OTHERWISE = [
    ("final fn", "fn"), ("+ Drop", ""), (": Drop", ""), ("prove !", "debug_assert !"),
    ("# [ rattlefmt :: skip ]", "# [ rustfmt :: skip ]"),
    ("fn fmt < W : fmt :: Write > ( & self , f : & mut fmt :: Formatter < W > )",
     "fn fmt ( & self , f : & mut fmt :: Formatter < '_ > )"),
]
AT_PLACES = {
    # An allocator grants bytes, and no pointer.
    "stun_base/keys/no_memory.rs": [
        ("unsafe impl", "impl"),
        ("Result < * mut u8 , AllocError >", "Result < ( ) , AllocError >"),
        ("unsafe fn deallocate ( & self , _ptr : * mut u8 ,", "fn deallocate ( & self ,")],
    # A key of a map has a number.
    "stun_base/memory.rs": [("< K : Ord", "< K : crate :: kit :: collections :: Key")] * 4,
    # Constants are made of it.
    "stun_base/wire/message_type.rs": [("pub fn new ( number : u16 ) -> Option < Method >",
                                        "pub const fn new ( number : u16 ) -> Option < Method >")],
    # A proof needs the number from a call. Here a constant has it.
    "stun_types/attribute.rs": [("fn static_type ( ) -> AttributeType ;",
                                 "# [ must_use ] fn static_type ( ) -> AttributeType "
                                 "{ Self :: TYPE }")],
}
# Attributes for the prover, its formatter and derives, of which nothing is left.
ERASED = {"cycle", "error", "tactic"}
# A value that goes away by hand, part by part, as Rust drops each.
DROPPED = re.compile(r"\{ fn drop \( self \) \{ let \w+ \{ [\w :,]*\} = self ; \} \}")


# --- What only a proof reads ---------------------------------------------------------------------

def end_of_ghost(tokens, at):
    """The place of the `;` or `,` that ends a ghost item."""
    depth = 0
    while depth or tokens[at] not in (";", ","):
        depth += (tokens[at] in "{([") - (tokens[at] in "})]")
        if depth < 0:
            return at - 1
        at += 1
    return at


def without_proofs(tokens):
    """The tokens without clauses, ghost items, and what a type is to a proof."""
    kept, at = [], 0
    while at < len(tokens):
        end, word = None, tokens[at]
        if word in ("ensures", "requires") and "{" in tokens[at + 1:at + 4]:
            end = closing(tokens, tokens.index("{", at))
        elif word == "ghost" or tokens[at:at + 2] == ["pub", "ghost"]:
            end = end_of_ghost(tokens, at)
        elif word == "impl":
            body = tokens.index("{", at)
            last = closing(tokens, body)
            trait = tokens[tokens.index("for", at, body) - 1] if "for" in tokens[at:body] else ""
            is_dropped = DROPPED.fullmatch(" ".join(tokens[body:last + 1]))
            if trait == "Model" or trait == "Drop" and is_dropped:
                end = last
        if end is None:
            kept.append(word)
        at = at + 1 if end is None else end + 1
    return kept


def functions(tokens):
    """Of each function with a body: the places of its `fn` and of the last token of its head."""
    for at, word in enumerate(tokens):
        if word == "fn" and tokens[at + 1].isidentifier():
            end = at
            while tokens[end] not in ("{", ";"):
                end = closing(tokens, end) if tokens[end] in ("(", "[") else end
                end += 1
            if tokens[end] == "{":
                yield at, end - 1


def laws_of(path, tokens):
    """The names of functions that do and return nothing: all of a module of laws, and those with no
    body elsewhere."""
    return {tokens[at + 1] for at, last in functions(tokens) if path.name == "laws.rt"
            or tokens[last + 1:last + 3] == ["{", "}"] and "self" not in tokens[at:last]}


def without_laws(tokens, laws):
    """The tokens without these functions, and without statements that call them."""
    heads = {at: last + 2 for at, last in functions(tokens)
             if tokens[at + 1] in laws and tokens[last + 1:last + 3] == ["{", "}"]}
    kept, at = [], 0
    while at < len(tokens):
        if at in heads:
            while kept and kept[-1] in ("pub", "crate", "super", "(", ")"):
                if kept[-1] == ")" and kept[-4:-2] != ["pub", "("]:
                    break
                kept.pop()
            at = heads[at] + 1
            continue
        name = at
        while kept and kept[-1] in (";", "{", "}") and tokens[name + 1:name + 2] == ["::"]:
            name += 2
        if kept and kept[-1] in (";", "{", "}") and tokens[name] in laws \
                and tokens[name + 1:name + 2] == ["("]:
            at = closing(tokens, name + 1) + 2
            continue
        kept.append(tokens[at])
        at += 1
    return kept


def with_copies(tokens):
    """The tokens of a source with `TryClone`, which is what Rattle's `Clone` is in the export."""
    kept = list(tokens)
    for at, word in enumerate(tokens):
        if word == "clone" and tokens[at - 1] in ("fn", "."):
            kept[at] = "try_clone"
        elif word == "Clone" and tokens[at + 1] == "for":
            kept[at] = "TryClone"
    return kept


def without_arm_braces(tokens):
    """The tokens without braces around an arm of one expression, which rustfmt writes or leaves out
    as the line has room, and with a comma after each such arm."""
    kept = list(tokens)
    for at in (at for at in range(len(tokens) - 1, 0, -1) if tokens[at - 1:at + 1] == ["=>", "{"]):
        end = closing(kept, at)
        inside = kept[at + 1:end]
        is_followed = kept[end + 1] == ","
        if inside and not any(piece == ";" for piece in outermost(inside)):
            kept[at:end + 1 + is_followed] = [*inside, ","]
    return kept


def outermost(tokens):
    """The tokens outside any brackets among these."""
    depth = 0
    for token in tokens:
        depth += (token in "{([") - (token in "})]")
        if depth == 0:
            yield token


# --- Names ---------------------------------------------------------------------------------------

def tree(tokens, path=()):
    """The paths and names of an import, or of a part of it."""
    path, at = list(path), 0
    while at < len(tokens):
        if tokens[at] == "{":
            for part in parts(tokens[at + 1:-1]):
                yield from tree(part, path)
            return
        if tokens[at] == "as":
            yield "::".join(path), tokens[at + 1]
            return
        if tokens[at] != "::" and (tokens[at] != "self" or not path):
            path.append(tokens[at])
        at += 1
    yield "::".join(path), path[-1]


def visibility(kept):
    """Takes from the end of the tokens who sees the item that follows, and returns it."""
    start = len(kept)
    if kept[-1:] == [")"] and kept[-4:-2] == ["pub", "("]:
        start -= 4
    elif kept[-1:] == ["pub"]:
        start -= 1
    found = "".join(kept[start:])
    del kept[start:]
    return found


def split(tokens):
    """The imports, as who sees each, its path and its name; the modules in files, as who sees each
    and its name; and the other tokens."""
    imports, modules, kept, at = [], [], [], 0
    while at < len(tokens):
        if tokens[at] == "use":
            end = tokens.index(";", at)
            seen = visibility(kept)
            imports += [(seen, *one) for one in tree(tokens[at + 1:end])]
            at = end
        elif tokens[at] == "mod" and tokens[at + 2] == ";":
            modules.append((visibility(kept), tokens[at + 1]))
            at += 2
        else:
            kept.append(tokens[at])
        at += 1
    return imports, modules, kept


def moved(path, places, name=None):
    """Where the export has what has this path in the sources."""
    if name and f"{path} as {name}" in places:
        return places[f"{path} as {name}"]
    words = path.split("::")
    for count in range(len(words), 0, -1):
        start = "::".join(words[:count])
        if start in places:
            return "::".join([places[start], *words[count:]])
    return path


def with_moved(tokens, places):
    """The tokens with each path of code where the export has it."""
    kept, at = [], 0
    while at < len(tokens):
        end = at + 1
        if re.match(r"[A-Za-z_]", tokens[at]) and tokens[at - 1:at] not in (["::"], ["."]):
            while tokens[end:end + 1] == ["::"] and re.match(r"[A-Za-z_]", tokens[end + 1]):
                end += 2
        kept += tokens[at:end] if end == at + 1 else TOKEN.findall(
            moved("".join(tokens[at:end]), places))
        at = end
    return kept


# --- What the export has -------------------------------------------------------------------------

def without_attributes(tokens):
    """The tokens without attributes of which nothing is left."""
    kept, at = [], 0
    while at < len(tokens):
        if tokens[at] == "#" and {*tokens[at + 2:at + 4]} & ERASED \
                and tokens[at + 1] in ("[", "!"):
            at = closing(tokens, at)
        else:
            kept.append(tokens[at])
        at += 1
    return kept


def with_results(tokens):
    """The tokens with a warning if the result of a public function is ignored that changes nothing;
    a `Result` has this warning by itself."""
    kept = list(tokens)
    for at, last in reversed([*functions(tokens)]):
        start = at - (tokens[at - 1] == "const")
        head = tokens[start:last + 1]
        mutable = re.search(r"& (?:'\w+ )?mut ", " ".join(head))
        outer = [*outermost(head)]
        result = outer[outer.index("->") + 1:][:1] if "->" in outer else []
        if tokens[start - 1] == "pub" and result and result[0] not in ("Result", "impl") \
                and not mutable and tokens[start - 3:start - 1] != ["must_use", "]"]:
            kept[start - 1:start - 1] = ["#", "[", "must_use", "]"]
    return kept


def with_open_types(tokens):
    """The tokens with a mark of the types that may get variants or fields."""
    kept = list(tokens)
    for at in range(len(tokens) - 2, 0, -1):
        if tokens[at - 1] == "pub" and OPEN.fullmatch(" ".join(tokens[at:at + 2])):
            kept[at - 1:at - 1] = ["#", "[", "non_exhaustive", "]"]
    return kept


def laid_out(tokens):
    """The tokens without an arm's braces, and without commas before a closing bracket."""
    kept = []
    for token in without_arm_braces(tokens):
        if token in (")", "]", "}") and kept[-1:] == [","]:
            kept.pop()
        kept.append(token)
    return kept


def read(tokens):
    """What is compared of the tokens of an exported file."""
    imports, modules, kept = split(tokens)
    return [*map(" ".join, sorted(imports)), *map(" mod ".join, sorted(modules)), *laid_out(kept)]


def replaced(tokens, pairs, name=""):
    """The tokens with the second of each pair in the place of the first: everywhere, or once in the
    file with this name, where the first must be."""
    text = "\0".join(tokens)
    for old, new in pairs:
        text, count = re.subn(rf"(?<![^\0]){re.escape(old.replace(' ', chr(0)))}(?![^\0])",
                              new.replace(" ", "\0"), text, count=1 if name else 0)
        if name and not count:
            raise ValueError(f"{name}: `{old}` is not there, so AT_PLACES is of another source")
    return [token for token in text.split("\0") if token]


def expected(tokens, laws, places, name, is_library=True):
    """What `read` must find in the export of a source."""
    tokens = without_attributes(expanded(with_copies(without_laws(tokens, laws))))
    imports, modules, kept = split(tokens)
    imports = [(seen, moved(path, places, one), one) for seen, path, one in imports
               if path not in UNUSED and "laws" not in path.split("::") and one not in laws]
    modules = [one for one in modules if one[1] not in ("laws", "derives")]
    kept = replaced(with_moved(kept, places), OTHERWISE)
    kept = with_open_types(replaced(kept, AT_PLACES.get(name, []), name))
    kept = with_results(kept) if is_library else kept
    named = {one for _, _, one in imports}
    given = {one for word, one in GIVEN.items() if word in kept} - named
    imports += [("", f"crate::kit::prelude::{one}", one) for one in given]
    return [*map(" ".join, sorted(imports)), *map(" mod ".join, sorted(modules)), *laid_out(kept)]


# --- Files ---------------------------------------------------------------------------------------

def tokens_of(path):
    return [one for one in TOKEN.findall(path.read_text()) if not one.startswith(("//", "/*"))]


def sources_of(crates):
    """The sources of the crates, each with its tokens without proofs, and the names of laws."""
    sources = {path: without_proofs(tokens_of(path)) for crate in crates
               for path in sorted((CRATES / crate / "src").rglob("*.rt"))
               if path.name not in ("derives.rt", "tests.rt")}
    return sources, set().union(*(laws_of(*one) for one in sources.items()))


def compared(export):
    """Of each exported file: the name of its source, the file, and what `read` must find there. A
    file that is missing on either side is None."""
    folder = export / "src" / "exported"
    crates = sorted(path.name for path in folder.iterdir() if path.is_dir())
    sources, laws = sources_of(crates)
    places = {**MOVED, **{crate: f"crate::exported::{crate}" for crate in crates},
              "crate::kit": "crate::kit"}
    others = {path for crate in crates for path in (folder / crate).rglob("*.rs")}
    for path, tokens in sources.items():
        crate, inside = path.relative_to(CRATES).parts[0], path.relative_to(CRATES)
        if path.name == "laws.rt":
            continue
        name = re.sub(r"/src/(lib\.rs$)?", lambda found: "/mod.rs" if found[1] else "/",
                      str(inside.with_suffix(".rs")))
        other = folder / name
        yield path, other if other in others else None, expected(
            tokens, laws, {**places, "crate": places[crate]}, name)
        others.discard(other)
    for path in sorted(others):
        yield None, path, []
    # It names the crates, and is written by hand.
    by_hand = ROOT / "rust/src/exported/mod.rs"
    yield by_hand, folder / "mod.rs", read(tokens_of(by_hand))


def places_of(one, two):
    """The places at which the tokens differ: what each has there."""
    matcher = difflib.SequenceMatcher(None, one, two, autojunk=False)
    for kind, start, end, start_2, end_2 in matcher.get_opcodes():
        if kind != "equal":
            yield " ".join(one[start:end]), " ".join(two[start_2:end_2])


def main(compared, title):
    """Compares what the export has with what it must have, and prints what differs."""
    if len(sys.argv) != 2:
        sys.exit(__doc__)
    count = wrong = 0
    for source, path, wanted in compared(Path(sys.argv[1])):
        count += len(wanted)
        if source is None or path is None:
            wrong += 1
            print(f"{source or path}: {'has no file in the export' if source else 'has no source'}")
            continue
        found = read(tokens_of(path))
        for old, new in places_of(wanted, found) if wanted != found else ():
            wrong += 1
            print(f"{source}: `{old[:300]}` is exported as `{new[:300]}`")
    print(f"{title}: of {count} imports, modules and other tokens, {wrong} places differ")
    return 1 if wrong or not count else 0


if __name__ == "__main__":
    sys.exit(main(compared, "same tokens"))
