"""What decides whether an edit of a function is wrong, as text: the files that it changes, and what
the rest of the crate and the crates below show to these. A change of anything else leaves a wrong
body wrong.

What is shown of sources is types, constants, traits, functions with their contracts and without
their bodies, and the impls of traits, of the crates below what is `pub`; of the definitions the
modules that these name, and those that such a module names. Comments are left out, and so is a
function whose name stands neither in those files or the edit nor in anything that is shown to them:
they cannot call it, so a new one changes nothing for those that do not use it. Only a function of a
trait that is not declared here stays, because Rust may call it by an operator or a loop. How far an
item of the same crate can be seen is left out too.
"""
import functools
import re
import sys
from pathlib import Path

TOP = Path(__file__).resolve().parent.parent
sys.path.insert(0, str(TOP / "tools/export"))
from export_text import closing, mask  # noqa: E402

FUNCTION = re.compile(
    r'(?m)^( *)(pub(?:\([^)]*\))? )?(?:(?:final|const|unsafe|extern) |extern "\0*" )*fn \w+')
CLAUSE = re.compile(r"\b(?:ensures|requires)\*?(?:\s+\w+)?\s*$")
IMPL = re.compile(r"(?m)^(?:unsafe )?impl\b(?:<[^{]*?>)? (?:[^{]*\bfor )?&?([\w:]+)[^{]*\{")
DECLARED = re.compile(r"(?m)^(pub(?:\([^)]*\))? )?(?:struct|enum|trait|type) (\w+)")
ITEM = re.compile(r"(?m)^(?:#\[.*\]\n)*(?P<shown>pub(?:\([^)]*\))? )?"
                  r"(?:(?:final|const|unsafe|extern|extern \"\0*\") (?=fn|impl|extern|unsafe))*"
                  r"(?P<kind>struct|enum|trait|type|const|static|fn|impl|mod|use)\b"
                  r"(?: (?P<name>\w+))?")
MEMBER = re.compile(r"(?m)^    ghost (?:view|invariant|also_owns) = \{")
EXPORTED = re.compile(r"(\w+)\s*(?=[,;}])")
FIELD = re.compile(r"(?m)^    (?:pub\([^)]*\) )?\w+: [^\n]*,\n")
STRUCT = re.compile(r"(?m)^pub struct\b[^{;]*\{\n")
BEGIN = re.compile(r"(?m)^(?=(?:(?:pub|abbrev|unfoldable|record|data) )+)")
NAMED = re.compile(r"(?:(?:pub|abbrev|unfoldable|record|data) )+(?P<name>[^\s({:]+)")
CONSTRUCTOR = re.compile(r"(?m)^\s+(?:pub\s+)?([^\s:|]+)\s*(?::|\()")
BARE = re.compile(r"(?m)^(?:impl\b(?![^{]*\bfor\b)[^{]*\{|\})$")
TRAIT = re.compile(r"(?m)^pub trait\b[^{]*\{")
OF_TRAIT = re.compile(r"^(?:unsafe )?impl(?:<[^{]*?>)?\s+(?P<trait>[\w:]+)[^{]*?\bfor\b")
SEEN = re.compile(r"(?m)^( *)pub(?:\([^)]*\))? (?!use\b)")
HIDDEN = re.compile(r"(?m)^(?:#\[.*\]\n)*(?:pub\([^)]*\) )?"
                    r"(?:struct|enum|trait|const|static|type|mod|use|unsafe impl)\b[^;{]*[;{]")
# Attributes that no proof reads, and those that no proof above reads.
NO_PROOF = re.compile(r"(?m)^[ \t]*#!?\[(?:allow|cold|doc|inline|must_use)\b")
NONE_ABOVE = re.compile(r"(?m)^[ \t]*#!?\[(?:cycle|tactic)\b")
IMPORT = re.compile(r"(?:ghost |pub )*use Rattle\.(\w+)\.specs\.([\w.]+)\.\{([^}]*)\}")
ANTT_COMMENT = re.compile(r"(?m)(?:^|(?<=\s))--.*$")


def without_comments(text):
    """The code of a source file; blank lines are left out."""
    code = "".join(old if new != " " else " " for old, new in zip(text, mask(text)))
    return "".join(line.rstrip() + "\n" for line in code.split("\n") if line.strip())


def without_attributes(text, kind):
    """Code without the attributes of a kind."""
    masked = mask(text)
    text = without(text, [(one.start(), closing(masked, masked.index("[", one.start())))
                          for one in kind.finditer(masked)])
    return re.sub(r"(?m)^[ \t]*\n", "", text)


def code_of(path):
    """The code of a source file, or of one of definitions or proofs, as a proof reads it."""
    if path.suffix == ".rt":
        return without_attributes(without_comments(path.read_text()), NO_PROOF)
    text = ANTT_COMMENT.sub("", path.read_text())
    return "".join(line.rstrip() + "\n" for line in text.split("\n") if line.strip())


def body_of(masked, found):
    """Where the body of a function begins and ends, or its `;`."""
    place = found.end()
    while masked[place] not in "{;":
        place = closing(masked, place) if masked[place] in "([" else place + 1
    while masked[place] == "{" and CLAUSE.search(masked, found.end(), place):
        place = closing(masked, place)
        while masked[place] not in "{;":
            place += 1
    return place, closing(masked, place) if masked[place] == "{" else place + 1


@functools.lru_cache(None)
def hidden_types(crate):
    """The types of a crate that it declares, and does not show."""
    declared = [found for path in (TOP / "crates" / crate / "src").rglob("*.rt")
                for found in DECLARED.findall(path.read_text())]
    return {name for seen, name in declared} - {name for seen, name in declared if seen == "pub "}


@functools.lru_cache(None)
def own_traits():
    """The traits that the repository declares."""
    return {name for path in (TOP / "crates").glob("*/src/**/*.rt")
            for name in re.findall(r"(?m)^(?:pub(?:\([^)]*\))? )?trait (\w+)", path.read_text())}


def unseen(text):
    """A text without the words that say how far an item can be seen."""
    return SEEN.sub(r"\1", text)


def without(text, ranges):
    """The text without ranges of it, each of which begins after the one before."""
    kept, at = [], 0
    for start, end in ranges:
        if start >= at:
            kept.append(text[at:start])
            at = end
    return "".join([*kept, text[at:]])


def without_models(text):
    """A text without what the models of types with private fields alone say of these: a crate above
    cannot name them, and reads a value of the type that the model names."""
    masked, ranges = mask(text), []
    closed = set(re.findall(r"(?m)^pub struct (\w+)[^{;]*\{\n\}", masked))
    for one in IMPL.finditer(masked):
        if one[1] in closed and "Model for" in one[0]:
            end = closing(masked, one.end() - 1)
            for member in MEMBER.finditer(masked, one.end(), end):
                ended = closing(masked, member.end() - 1)
                ranges.append((member.start(), masked.index("\n", ended) + 1))
    return without(text, ranges)


def public(text, hidden, is_own=False):
    """What a source file shows to the crates above, or to its own crate: its imports of
    definitions, and the rest."""
    text = without_attributes(without_attributes(without_comments(text), NO_PROOF), NONE_ABOVE)
    masked = mask(text)
    text = without(text, [(one.start(), closing(masked, one.end() - 1))
                          for one in IMPL.finditer(masked)
                          if one[1].split("::")[-1] in hidden and not is_own])
    masked, kept, at = mask(text), [], 0
    spans = [(one.start(), closing(masked, one.end() - 1), bool(OF_TRAIT.match(one.group(0))))
             for one in IMPL.finditer(masked)]
    spans += [(one.start(), closing(masked, one.end() - 1), True)
              for one in TRAIT.finditer(masked)]
    for found in FUNCTION.finditer(masked):
        if found.start() < at:
            continue
        start, end = body_of(masked, found)
        of_trait = any(first < found.start() < last for first, last, is_of in spans if is_of)
        kept.append(text[at:found.start()])
        if is_own or found[2] == "pub " or of_trait:
            kept.append(text[found.start():start].rstrip() + ";\n")
        at = end
    text = "".join([*kept, text[at:]])
    masked = mask(text)
    text = without(text, [(one.start(), closing(masked, one.end() - 1) if one[0][-1] == "{"
                           else one.end()) for one in HIDDEN.finditer(masked) if not is_own])
    if not is_own:
        masked = mask(text)
        text = without(text, [(field.start(), field.end()) for one in STRUCT.finditer(masked)
                              for field in FIELD.finditer(
                                  masked, one.end(), closing(masked, one.end() - 2))])
        text = without_models(text)
    imports = IMPORT.findall(text)
    return imports, re.sub(r"(?m)^ *(?:ghost use .*|;?)\n", "", text)


def words_of(text):
    return frozenset(re.split(r"[\s(){}\[\],;.◌]+", text))


def names_of(text):
    return frozenset(re.findall(r"\w+", text))


def of_functions(text, names):
    """An item that is shown, in pieces: each function in it, by its name beside those of the item,
    and the rest, by the names of the item. Functions of traits of other libraries stay with it."""
    masked, pieces, at = mask(text), [], 0
    of_traits = [(one.start(), closing(masked, one.end() - 1)) for one in IMPL.finditer(masked)
                 if (found := OF_TRAIT.match(one[0]))
                 and found["trait"].split("::")[-1] not in own_traits()]
    for found in FUNCTION.finditer(masked):
        if any(first < found.start() < last for first, last in of_traits):
            continue
        end = body_of(masked, found)[1]
        pieces += [(names, text[at:found.start()]),
                   (names | {found[0].split()[-1]}, text[found.start():end])]
        at = end
    return [(by, piece.strip()) for by, piece in [*pieces, (names, text[at:])]
            if BARE.sub("", piece).strip()]


def pieces_of(text):
    """A text that is shown, in pieces, each with the names without which it is not read: those of
    an item, or of the type of an impl, and of a function in it."""
    masked, pieces = mask(text), []
    starts = [one.start() for one in ITEM.finditer(masked)]
    for start, end in zip(starts, [*starts[1:], len(text)]):
        item = text[start:end]
        head = ITEM.match(masked, start)
        if head["kind"] == "mod" or head["kind"] == "use" and head["shown"] != "pub ":
            continue
        if head["kind"] == "use":
            pieces += [(frozenset({name}), f"pub use {name};") for name in EXPORTED.findall(item)]
            continue
        of_impl = IMPL.search(mask(item))
        names = names_of(of_impl[1].split("::")[-1]) if of_impl else frozenset({head["name"]})
        pieces += of_functions(item, names)
    return pieces


@functools.lru_cache(None)
def sources(crate, is_own=False):
    """What the sources of a crate show to the crates above or to itself: of each file, by its path,
    its imports of definitions, each module with the words that name it, and its text in pieces,
    each with the names by which it is read, and with its words."""
    shown, folder = {}, TOP / "crates" / crate
    for path in sorted((folder / "src").rglob("*.rt")):
        imports, text = public(path.read_text(), hidden_types(crate), is_own)
        named = [((of, module), words_of(name.split(" as ")[-1]) - {""})
                 for of, module, names in imports for name in names.split(",")]
        shown[str(path.relative_to(folder))] = (named, [
            (by, piece, words_of(piece), names_of(piece)) for by, piece in pieces_of(text)])
    return shown


@functools.lru_cache(None)
def definitions(crate, module):
    """The definitions of a module, each with the names that it gives, without its comment and with
    its words; and the modules that the module names."""
    path = TOP / "crates" / crate / "specs" / (module.replace(".", "/") + ".antt")
    if not path.is_file():
        return (), frozenset()
    text = code_of(path)
    named = frozenset((of, name) for of, name, _ in IMPORT.findall(text))
    pieces = []
    for piece in filter(str.strip, BEGIN.split(IMPORT.sub("", text).strip() + "\n")):
        head = NAMED.match(piece)
        given = names_of(head["name"]) if head else frozenset()
        if head and "data " in head[0]:
            given |= names_of(" ".join(CONSTRUCTOR.findall(piece)))
        pieces.append((given, piece, names_of(piece)))
    return tuple(pieces), named


def reached(open_ones, below):
    """These modules of definitions, and those that they name, of the crates below."""
    open_ones, done = set(open_ones), set()
    while open_ones:
        one = open_ones.pop()
        if one[0] in below and one not in done:
            done.add(one)
            open_ones |= definitions(*one)[1]
    return done


def read_with(texts, modules, files, known):
    """Of files that are shown, the pieces that a proof reads which has these texts, and the
    definitions of known crates that both name, beside these modules of them."""
    names, before = frozenset().union(*map(names_of, texts)), None
    while names != before:
        before, read = names, []
        for imports, pieces in files:
            pieces = [piece for piece in pieces if piece[0] <= before]
            words = frozenset().union(*(piece[2] for piece in pieces))
            modules |= {module for module, named in imports if named & words}
            names = names.union(*(piece[3] for piece in pieces))
            read += [piece[1] for piece in pieces]
        every = [(module, piece) for module in sorted(reached(modules, known))
                 for piece in definitions(*module)[0] if not piece[0] or piece[0] & before]
        names = names.union(*(piece[2] for _, piece in every))
    return read + [f"{of}.{module}\n{piece[1]}" for (of, module), piece in every]


def law_at(crate, path):
    """The contract of a law, and the modules of definitions that it names."""
    module, _, name = path.rpartition("::")
    imports, pieces = sources(crate, True)[f"src/{module.replace('::', '/')}.rt"]
    found = [piece for piece in pieces if piece[0] == {name}]
    words = frozenset().union(*(piece[2] for piece in found))
    return [piece[1] for piece in found], {named for named, by in imports if by & words}


def decides(crate, below, paths, edit, law=None):
    """What decides whether an edit of these files of a crate is wrong: their code, the contracts of
    the functions that it and the edit call, in the crate and below, and the definitions that these
    name. If the edit names a law (its crate, its path, and the crates below), then also the contract of the law
    and what that names. Bodies in other files are left out, and so are proofs: none of them makes a
    wrong body right."""
    folder, known = TOP / "crates" / crate, {crate, *below}
    texts = [code_of(folder / path) for path in sorted(paths)]
    modules = {(of, module) for text in texts for of, module, _ in IMPORT.findall(text)}
    files = [file for path, file in sources(crate, True).items() if path not in paths]
    if law:
        of_law = law_at(*law[:2])
        texts, modules = texts + of_law[0], modules | of_law[1]
        known |= {law[0], *law[2]}
    files += [file for name in sorted(known - {crate}) for file in sources(name).values()]
    return [unseen(text) for text in texts + read_with([*texts, edit], modules, files, known)]
