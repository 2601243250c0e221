#!/usr/bin/env python3
"""Compares the exported calls for C with their sources, token by token, by the reader of
same_tokens.py, which shares no code with the exporter.

usage: tests/export/same_c_tokens.py EXPORT

EXPORT is what export.py wrote (target/export). Each source must have its file unless BY_HAND names
it, and border.rs must have, for each call of the sources, the function that C calls. The last line
counts; the status is 1 if anything differs.
"""
import re
import sys

from same_derives import TOKEN, closing, parts
from same_tokens import (AT_PLACES, MOVED, ROOT, expected, functions, main, moved, outermost, read,
                         replaced, sources_of, split, tokens_of, CRATES)

BORDER = ("stun_numbers", "stun_handles", "stun_c", "stun_c_endpoint")
# Sources whose place in the export is taken by rust/capi/src/handle.rs, which is written by hand:
# handles are pointers there. Laws are no code.
BY_HAND = re.compile(r"stun_\w+/handle(?:/\w+)?\.rs|.*/laws\.rs")
# What the sources have and the export has in its place, in one file.
AT_PLACES.update({
    # `stunp_is_proved`.
    "stun_c/mod.rs": [("IS_PROVED : bool = true", "IS_PROVED : bool = false")],
    # The greatest size, on any target.
    "stun_numbers/passed.rs": [("= 9_223_372_036_854_775_807", "= isize :: MAX as usize")],
    "stun_handles/answers.rs": [("= 9_223_372_036_854_775_807", "= isize :: MAX as usize")],
    # The sizes of structs of this target: the headers say the same to the compiler.
    "stun_c_endpoint/client/event.rs": [("EVENT_SIZE : usize = 80",
                                         "EVENT_SIZE : usize = size_of :: < Event > ( )")],
    "stun_c_endpoint/client/options.rs": [
        ("OPTIONS_SIZE : usize = 64", "OPTIONS_SIZE : usize = size_of :: < RequestOptions > ( )")],
    "stun_c_endpoint/ice/told.rs": [
        ("ICE_RECEIVED_SIZE : usize = 72",
         "ICE_RECEIVED_SIZE : usize = size_of :: < IceReceived > ( )")],
    "stun_c_endpoint/received.rs": [("RECEIVED_SIZE : usize = 648",
                                     "RECEIVED_SIZE : usize = size_of :: < Received > ( )")],
})
# `border` calls into all modules.
OF_C = [("# [ unsafe ( no_mangle ) ]", ""), ('extern "C" fn', "fn"),
        ("pub mod handle ;", "use handle ;"), ("mod handle ;", "use handle ;"),
        ("pub mod", "mod"), ("mod", "pub mod")]
# What a slice is for C, and which function of passed.rs makes it of a pointer and a length.
SLICES = {"&[u8]": ("*const u8", "read"), "&mut[u8]": ("*mut u8", "written"),
          "&[u16]": ("*const u16", "read"), "&mut[u16]": ("*mut u16", "written")}
# What a call writes and returns if a length is impossible: what it fills says so, and the result is
# an error, unless the call says whether a packet is STUN, which such a packet is not.
FILLED = {"received": "received.fails();", "event": "event.fails();", "cause": "*cause = 0;"}
IMPOSSIBLE = {"stunp_is_stun": "0"}


def name_of(path):
    """The name of the file in the export, of a source."""
    inside = str(path.relative_to(CRATES).with_suffix(".rs"))
    return re.sub(r"/src/(lib\.rs$)?", lambda found: "/mod.rs" if found[1] else "/", inside)


def border_function(module, name, parameters, result):
    """The function that C calls, with a pointer and a length for each slice, which it tests."""
    declared, passed, possible, filled = [], [], [], ""
    for label, _, *kind in parameters:
        kind = "".join(kind).replace("&mut", "&mut ").replace("&mut [", "&mut[")
        pointer, whole = SLICES.get(kind, (None, None))
        if pointer:
            declared += [f"{label}: {pointer}", f"length_of_{label}: usize"]
            passed.append(f"unsafe {{ {whole}({label}, length_of_{label}) }}")
            possible.append(f"is_possible::<{pointer.split()[-1]}>(length_of_{label})")
        elif kind == "Global":
            passed.append("Global")
        else:
            declared.append(f"{label}: {kind}")
            passed.append(label)
            filled += FILLED.get(label, "")
    error = IMPOSSIBLE.get(name, "Refusal::BadArgument.code()")
    test = f"if !({' && '.join(possible)}) {{ {filled} return {error}; }}" if possible else ""
    return TOKEN.findall(
        f'#[unsafe(no_mangle)] pub unsafe extern "C" fn {name}({", ".join(declared)}) '
        f'{"".join(result)} {{ {test} {module}::{name}({", ".join(passed)}) }}')


def of_border(sources, places):
    """What border.rs must have: the imports of the types that its functions name, and these."""
    imports = {("", f"crate::passed::{one}", one) for one in ("is_possible", "read", "written")}
    imports.add(("", "crate::calls::stun_numbers::refusal::Refusal", "Refusal"))
    kept = []
    for path, tokens in sources.items():
        crate, name = path.relative_to(CRATES).parts[0], name_of(path)
        module = name.removesuffix(".rs").removesuffix("/mod").replace("/", "::")
        types = {one: moved(where, {**places, "crate": f"crate::calls::{crate}"})
                 for _, where, one in split(tokens)[0]}
        for at, last in functions(tokens):
            if tokens[at - 2:at] != ["extern", '"C"']:
                continue
            end = closing(tokens, at + 2)
            kept += border_function(module, tokens[at + 1], parts(tokens[at + 3:end]),
                                    tokens[end + 1:last + 1])
            for one in {*tokens[at + 3:last + 1]}:
                if re.match(r"[A-Z]", one):
                    inside = types.get(one, one)
                    where = re.sub(r"^(?!crate::)", f"crate::calls::{module}::", inside)
                    imports.add(("", re.sub(r"calls::\w+::handle", "handle", where), one))
            imports.add(("", f"crate::calls::{crate}", crate))
    return [*map(" ".join, sorted(imports)), *kept]


def compared(export):
    """As that of same_tokens.py, of the calls for C."""
    folder = export / "capi/src/calls"
    library = sorted(path.name for path in (export / "src/exported").iterdir() if path.is_dir())
    sources, laws = sources_of([*BORDER, *library])
    places = {**MOVED, **{crate: f"crate::exported::{crate}" for crate in library},
               **{crate: f"crate::calls::{crate}" for crate in BORDER},
              "crate::kit": "crate::kit", "handle as handle": "crate::handle"}
    sources = {path: tokens for path, tokens in sources.items()
               if path.relative_to(CRATES).parts[0] in BORDER
               and not BY_HAND.fullmatch(name_of(path))}
    others = {path for crate in BORDER for path in (folder / crate).rglob("*.rs")}
    for path, tokens in sources.items():
        name, crate = name_of(path), path.relative_to(CRATES).parts[0]
        wanted = expected(replaced(tokens, OF_C), laws, {**places, "crate": places[crate]}, name,
                          is_library=False)
        other = folder / name
        yield path, other if other in others else None, wanted
        others.discard(other)
    for path in sorted(others):
        yield None, path, []
    yield "border.rs", folder / "border.rs", of_border(sources, places)
    by_hand = ROOT / "rust/capi/src/calls/mod.rs"
    yield by_hand, folder / "mod.rs", read(tokens_of(by_hand))


if __name__ == "__main__":
    sys.exit(main(compared, "same tokens for C"))
