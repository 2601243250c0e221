"""Writes what a source derives and Rust does not, for tools/export/export.py."""
import re

from export_text import Unknown, closing, in_code, mask

MESSAGE = r'#\[error\((transparent|"(?:\\.|[^"\\])*")\)\]'
FMT = "fn fmt(&self, f: &mut core::fmt::Formatter<'_>) -> core::fmt::Result"
TRY_CLONE = "fn try_clone(&self) -> Result<Self, crate::kit::alloc::AllocError>"


def item_after(text, at):
    """The struct or enum after a place: its word, name, parameters, and the range of its body."""
    masked = mask(text)
    found = re.compile(r"\b(struct|enum)\s+(\w+)(<[^{;(]*>)?\s*([{;(])").search(masked, at)
    body = (found.end(), found.end() + 1)
    if found.group(4) != ";":
        body = (found.end(), closing(masked, found.end() - 1))
    return found.group(1), found.group(2), found.group(3) or "", body


def pieces(text):
    """The parts between commas, but for those inside brackets."""
    depth, start = 0, 0
    for place, sign in enumerate(mask(text) + ","):
        depth += (sign in "{([<") - (sign in "})]>" and text[place - 1:place + 1] != "->")
        if sign == "," and depth == 0:
            if re.sub(r"//[^\n]*", "", text[start:place]).strip():
                yield text[start:place]
            start = place + 1


def fields_of(body, opening):
    """The fields of a struct or variant: their names or numbers, and whether `Debug` shows them."""
    fields = []
    for number, piece in enumerate(pieces(body)):
        named = re.compile(r"(\w+)\s*:(?!:)").search(mask(piece))
        fields.append((named.group(1) if opening == "{" else str(number),
                       "derive_where(skip(Debug))" not in piece))
    return fields


def variants_of(body):
    """The variants of an enum: name, brackets, fields, and what stands above."""
    for piece in map(str.rstrip, pieces(body)):
        found = re.compile(r"^\s*(\w+)\s*([({]?)", re.M).search(mask(piece))
        inside = fields_of(piece[found.end():-1], found.group(2)) if found.group(2) else []
        yield found.group(1), found.group(2), inside, piece[:found.start()]


def pattern_of(name, variant, prefix, use):
    """A pattern that binds each field which is used to a name that begins so."""
    label, opening, fields, _ = variant
    path = name + (f"::{label}" if label else "")
    used = {field: re.search(rf"\b{prefix}{field}\b", use) for field, _ in fields}
    if opening == "(":
        return f"{path}({', '.join(prefix + f if used[f] else '_' for f in used)})"
    if opening == "{":
        bound = [f"{f}: {prefix}{f}" for f in used if used[f]] + [".."] * (None in used.values())
        return f"{path} {{ {', '.join(bound)} }}"
    return path


def body_of(name, variants, value, prefixes, answer):
    """What a function answers for each variant; for a struct without a choice."""
    arms = []
    for variant in variants:
        use = answer(name, variant)
        bound = ", ".join(pattern_of(name, variant, prefix, use) for prefix in prefixes)
        arms.append((f"({bound})" if len(prefixes) > 1 else bound, use))
    if len(arms) == 1:
        (bound, use), = arms
        return (f"let {bound} = {value};\n" if re.search(r"\b(the|a)_\w", use) else "") + use
    rest = "_ => false,\n" if len(prefixes) > 1 else ""
    return f"match {value} {{ " + "".join(f"{b} => {use},\n" for b, use in arms) + rest + "}"


def shown(name, variant):
    """What Rust derives for `Debug`, but for fields that are left out."""
    label, opening, fields, _ = variant
    call = f'f.debug_{"struct" if opening == "{" else "tuple"}("{label or name}")'
    for field, is_shown in fields:
        if is_shown:
            call += f'.field("{field}", the_{field})' if opening == "{" else f".field(the_{field})"
    return call + (".finish()" if all(s for _, s in fields) else ".finish_non_exhaustive()")


def compared(_name, variant):
    """What Rust derives for `PartialEq`."""
    return " && ".join(f"a_{field} == b_{field}" for field, _ in variant[2]) or "true"


def told(_name, variant):
    """What the crate `thiserror` writes for `Display`: the message above."""
    message = re.findall(MESSAGE, variant[3])[-1]
    if message == "transparent":
        return "core::fmt::Display::fmt(the_0, f)"
    return f"write!(f, {re.sub(r'{(?=[0-9a-z])', '{the_', message)})"


def rewrite_derives(text):
    """Rust derives for parameters that have the trait too, and has not `Error` or a copy that can
    fail: so these are written."""
    attribute = r"#\[(derive|derive_where)\((\w[\w, ]*)\)\]\n"
    for found in reversed(list(re.compile(attribute).finditer(mask(text)))):
        traits = [trait.strip() for trait in found.group(2).split(",")]
        word, name, parameters, (start, end) = item_after(text, found.end())
        body, opening = text[start:end - 1], text[start - 1]
        variants = list(variants_of(body)) if word == "enum" else [
            ("", opening, fields_of(body, opening), text[found.end():start])]
        declared = re.sub(r"\s*=\s*\w+", "", parameters)
        kept, added = [], ""

        def add(trait, inside="", value="self", prefixes=("the_",), answer=None):
            if answer:
                inside += f" {{\n{body_of(name, variants, value, prefixes, answer)}\n}}\n"
            handed = re.sub(r":[^,>]*", "", declared)
            return f"\n\nimpl{declared} {trait} for {name}{handed} {{\n{inside}}}"

        for trait in traits:
            if trait == "Error":
                added += add("core::fmt::Display", FMT, answer=told) + add("core::error::Error")
            elif trait == "Clone" and "Copy" not in traits:
                kept.append(trait)
                added += add("TryClone", TRY_CLONE + " {\nOk(Clone::clone(self))\n}\n")
            elif found.group(1) == "derive" or not parameters:
                kept.append(trait)
            elif trait == "Debug":
                added += add("core::fmt::Debug", FMT, answer=shown)
            elif trait == "PartialEq":
                added += add("PartialEq", "fn eq(&self, other: &Self) -> bool", "(self, other)",
                             ("a_", "b_"), compared)
            elif trait == "Eq":
                added += add("Eq")
            else:
                raise Unknown("derive_where of " + trait)
        if word == "struct" and opening == "(":
            end = text.index(";", end) + 1
        derive = f"#[derive({', '.join(kept)})]\n" if kept else ""
        text = text[:found.start()] + derive + text[found.end():end] + added + text[end:]
    text = re.sub(r"^[ \t]*" + MESSAGE + r"\n", "", text, flags=re.M)
    return in_code(text, r"^[ \t]*#\[derive_where\(skip\(Debug\)\)\]\n", "")
