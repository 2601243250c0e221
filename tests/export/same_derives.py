"""Writes what the export must have for what a source derives, for same_tokens.py.

| The source derives | The export has |
|---|---|
| a trait of `KEPT` | the same, at the same type |
| `Clone` without `Copy` | the same, and an impl of `TryClone` that calls it |
| `Drop` | nothing, because Rust drops every value |
| `Error` | an impl of `Display` with the message of each variant, and one of `Error` |
| by `derive_where`, if the type has no parameters | `derive` |
| `Debug`, `PartialEq` or `Eq` by `derive_where` | an impl over all fields of all variants |
| `skip(Debug)` of a field by `derive_where` | an impl of `Debug` that says it is not exhaustive |

The impls follow the type, in the order of the traits, and ask of a parameter what the type asks.
Anything else is refused. No code is shared with the exporter.
"""
import collections
import re

KEPT = {"Clone", "Copy", "Debug", "Default", "Eq", "Hash", "Ord", "PartialEq", "PartialOrd"}
TOKEN = re.compile(r"""//[^\n]*|/\*.*?\*/|b?"(?:\\.|[^"\\])*"|b?'(?:\\[^\n']+|[^'\\\n])'"""
                   r"""|'[a-z_]\w*|\w+|::|->|=>|&&|\|\||<<|>>|\.\.=?|[-<>=!+*/%&|^]=|\S""", re.S)
DEPTH = {**dict.fromkeys("{([<", 1), **dict.fromkeys("})]>", -1), ">>": -2}

# A variant of an enum, or all of a struct, which has no name of a variant.
Variant = collections.namedtuple("Variant", "path label opening fields message")
Field = collections.namedtuple("Field", "name is_shown")
Type = collections.namedtuple("Type", "name parameters variants end")


def closing(tokens, at):
    """The place of the bracket that closes the next one that opens."""
    depth = 0
    while True:
        depth += (tokens[at] in "{([") - (tokens[at] in "})]")
        if depth == 0 and tokens[at] in "})]":
            return at
        at += 1


def parts(tokens):
    """The parts between commas, but for those inside brackets."""
    depth, part = 0, []
    for token in tokens:
        depth += DEPTH.get(token, 0)
        if token == "," and depth == 0:
            yield part
            part = []
        else:
            part.append(token)
    if part:
        yield part


def attributes(tokens):
    """The attributes in front, and the tokens after them and after what says who sees the item."""
    found = []
    while tokens[0] == "#":
        end = closing(tokens, 1)
        found.append(tokens[2:end])
        tokens = tokens[end + 1:]
    if tokens[0] == "pub":
        is_restricted = tokens[1] == "(" and tokens[2] in ("crate", "super", "in")
        tokens = tokens[closing(tokens, 1) + 1:] if is_restricted else tokens[1:]
    return found, tokens


def variant_of(path, label, body, above):
    """What a pattern, a comparison and a message read of a variant or a struct."""
    fields = []
    for number, part in enumerate(parts(body[1:-1])):
        found, rest = attributes(part)
        is_shown = ["derive_where", "(", "skip", "(", "Debug", ")", ")"] not in found
        fields.append(Field(rest[0] if body[0] == "{" else str(number), is_shown))
    messages = [one[2] for one in above if one[0] == "error"]
    return Variant(path, label, body[0] if body else "", fields, messages[0] if messages else None)


def type_at(tokens, at):
    """The type whose attributes begin here; its end is the place after it."""
    above, rest = attributes(tokens[at:])
    word, name = rest[:2]
    if word not in ("struct", "enum"):
        raise ValueError(f"`{word} {name}` derives")
    start, depth = 2, 0
    while depth or rest[start] not in ("{", "(", ";"):
        depth += DEPTH.get(rest[start], 0)
        start += 1
    end = start if rest[start] == ";" else closing(rest, start) + 1
    parameters, body = rest[3:start - 1], rest[start:end]
    if word == "struct":
        variants = [variant_of(name, name, body, above)]
        end += rest[start] != "{"
    else:
        variants = []
        for part in parts(body[1:-1]):
            found, one = attributes(part)
            inside = one[1:closing(one, 1) + 1] if one[1:2] in (["{"], ["("]) else []
            variants.append(variant_of(f"{name}::{one[0]}", one[0], inside, found))
    return Type(name, parameters, variants, len(tokens) - len(rest) + end)


def pattern(variant, prefix, used):
    """A pattern that binds these fields of a variant to their names with the prefix."""
    names = [field.name for field in variant.fields]
    if variant.opening == "(":
        inside = [prefix + name if name in used else "_" for name in names]
        return f"{variant.path}({', '.join(inside)})"
    if variant.opening == "{":
        inside = [f"{name}: {prefix}{name}" for name in names if name in used]
        inside += [".."] if len(inside) < len(names) else []
        return f"{variant.path} {{ {', '.join(inside)} }}"
    return variant.path


def chosen(kind, arms, value, rest=""):
    """The arms of a choice between the variants; a single one needs no choice."""
    if len(arms) > 1:
        inside = "".join(f"{bound} => {use}, " for bound, use, _ in arms)
        return f"match {value} {{ {inside}{rest} }}"
    (bound, use, is_used), = arms
    return f"let {bound} = {value}; {use}" if is_used else use


def debug(kind):
    """Each variant by its name, with all fields that are not skipped."""
    arms = []
    for variant in kind.variants:
        shown = [field.name for field in variant.fields if field.is_shown]
        is_named = variant.opening == "{"
        calls = "".join(f'.field("{name}", the_{name})' if is_named else f".field(the_{name})"
                        for name in shown)
        last = "finish" if len(shown) == len(variant.fields) else "finish_non_exhaustive"
        arms.append((pattern(variant, "the_", shown), f"f.debug_{'struct' if is_named else 'tuple'}"
                     f'("{variant.label}"){calls}.{last}()', bool(shown)))
    return ("fn fmt(&self, f: &mut core::fmt::Formatter<'_>) -> core::fmt::Result "
            f"{{ {chosen(kind, arms, 'self')} }}")


def equal(kind):
    """Values of the same variant whose fields are all equal."""
    arms = []
    for variant in kind.variants:
        names = [field.name for field in variant.fields]
        both = ", ".join(pattern(variant, prefix, names) for prefix in ("a_", "b_"))
        arms.append((f"({both})", " && ".join(f"a_{name} == b_{name}" for name in names) or "true",
                     bool(names)))
    choice = chosen(kind, arms, "(self, other)", "_ => false")
    return f"fn eq(&self, other: &Self) -> bool {{ {choice} }}"


def display(kind):
    """The message above each variant, with the fields that it names; or that of its only field."""
    arms = []
    for variant in kind.variants:
        names = [field.name for field in variant.fields]
        if variant.message == "transparent" and len(names) == 1:
            arms.append((pattern(variant, "the_", names),
                         f"core::fmt::Display::fmt(the_{names[0]}, f)", True))
        elif variant.message and variant.message[0] == '"':
            used = re.findall(r"\{(\w+)[^{}]*\}", variant.message.replace("{{", ""))
            text = re.sub(r"(\{\{)|\{(?=\w)", lambda found: found[1] or "{the_", variant.message)
            arms.append((pattern(variant, "the_", used), f"write!(f, {text})", bool(used)))
        else:
            raise ValueError(f"`{variant.path}` has no message")
    return ("fn fmt(&self, f: &mut core::fmt::Formatter<'_>) -> core::fmt::Result "
            f"{{ {chosen(kind, arms, 'self')} }}")


COPY = ("fn try_clone(&self) -> Result<Self, crate::kit::alloc::AllocError> "
        "{ Ok(Clone::clone(self)) }")
# The impls that are written out for a trait: how the export names the trait, and what is inside.
ERROR = [("core::fmt::Display", display), ("core::error::Error", lambda kind: "")]
COPIED = [("TryClone", lambda kind: COPY)]
WRITTEN = {"Debug": [("core::fmt::Debug", debug)], "PartialEq": [("PartialEq", equal)],
           "Eq": [("Eq", lambda kind: "")]}


def impl(kind, trait, inside):
    """An impl for a type, whose parameters are declared as the type declares them."""
    declared, names = [], []
    for part in parts(kind.parameters):
        part = part[:part.index("=")] if "=" in part else part
        declared.append(" ".join(part))
        names.append(part[part[0] == "const"])
    head = f"impl<{', '.join(declared)}>" if declared else "impl"
    handed = f"<{', '.join(names)}>" if names else ""
    return TOKEN.findall(f"{head} {trait} for {kind.name}{handed} {{ {inside} }}")


def of_attribute(word, traits, kind):
    """What an attribute becomes: the traits that are still derived, and the impls."""
    kept, impls = [], []
    for trait in traits:
        written = []
        if trait == "Error" and word == "derive":
            written = ERROR
        elif word == "derive_where" and kind.parameters:
            if trait not in WRITTEN:
                raise ValueError(f"`{kind.name}` derives {trait} by derive_where")
            written = WRITTEN[trait]
        elif trait in KEPT:
            kept.append(trait)
            written = COPIED if trait == "Clone" and "Copy" not in traits else []
        elif trait != "Drop":
            raise ValueError(f"`{kind.name}` derives {trait}")
        impls += [impl(kind, name, inside(kind)) for name, inside in written]
    return kept, impls


def expanded(tokens):
    """The tokens of a source with what the export has for each derive."""
    result, later, at = [], collections.defaultdict(list), 0
    while at < len(tokens):
        result += later.pop(at, [])
        if tokens[at] == "#" and tokens[at + 2:at + 3] in (["derive"], ["derive_where"]):
            end = closing(tokens, at) + 1
            if tokens[at + 4] != "skip":
                kind = type_at(tokens, at)
                traits = [token for token in tokens[at + 4:end - 2] if token != ","]
                kept, impls = of_attribute(tokens[at + 2], traits, kind)
                later[kind.end] += [token for one in impls for token in one]
                result += TOKEN.findall(f"#[derive({', '.join(kept)})]") if kept else []
            at = end
        else:
            result.append(tokens[at])
            at += 1
    return result + later.pop(at, [])
