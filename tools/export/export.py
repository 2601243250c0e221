#!/usr/bin/env python3
"""Writes the proved sources as plain Rust, by erasing what only a proof reads.

usage: tools/export/export.py OUT

OUT becomes a workspace of two packages: what stands in `rust/`, with `src/exported` (the crates of
the library) and `checks/src/programs` (programs) written from `crates/`.

This script knows no meaning. Each rule, here and in `export_derives.py`, erases or renames one form
of text in code, comments and texts apart. A form that no rule knows stays as it is, so that rustc
refuses it.
"""
import re
import shutil
import subprocess
import sys
from pathlib import Path

import export_argued
import export_c
from export_derives import rewrite_derives
from export_text import DOCS, Unknown, closing, erase, in_code, in_docs, mask

ROOT = Path(__file__).resolve().parent.parent.parent

# The crates of the library, which stand alone; what is exported of the others, `crates.txt` tells:
# these programs, and what they use.
LIBRARY = ["stun_base", "stun_types", "stun_agent", "stun_judging", "stun_auth", "stun_proto",
           "stun_extra", "stun_attributes", "stun_buffer", "stun_endpoint", "stun_client",
           "stun_client_endpoint", "stun_client_requests", "stun_client_calls", "stun_ice"]
PROGRAMS = ["stun_tool", "stun_inspect"]
# Paths that Rust lacks or has otherwise, and where the crate has them.
PATHS = {
    "std::alloc": "crate::kit::alloc",
    "std::collections": "crate::kit::collections",
    "std::convert::AsSlice": "crate::kit::convert::AsSlice",
    "std::marker::Brand": "crate::kit::ledger::Brand",
    "std::simd::prelude": "crate::kit::utf8",
    "std::sync::ledger": "crate::kit::ledger",
    "base64::engine::general_purpose": "crate::kit::base64",
    "base64::DecodeAllocError": "crate::kit::base64::DecodeAllocError",
    "byteorder": "crate::kit::bytes", "rand_core": "crate::kit::random",
    "hex": "crate::host::hex", "linked_list_allocator": "crate::host",
    "md5": "crate::kit::hashes", "sha1": "crate::kit::hashes", "sha2": "crate::kit::hashes",
    # A hasher after one block, for which the kit has a type of its own; alone or beside the hasher.
    "sha1::Sha1 as BegunSha1": "crate::kit::hashes::BegunSha1",
    "sha2::Sha256 as BegunSha256": "crate::kit::hashes::BegunSha256",
    "sha1::{Sha1, Sha1 as BegunSha1": "crate::kit::hashes::{BegunSha1, Sha1",
    "sha2::{Sha256, Sha256 as BegunSha256": "crate::kit::hashes::{BegunSha256, Sha256",
    "simdutf8::basic::from_utf8": "core::str::from_utf8",
    "simdutf8::Checker": "crate::kit::utf8::Checker",
    "smallvec::SmallVec": "crate::kit::inline::SmallVec",
    # Of these some functions are handed the process.
    "std::env": "crate::host::env", "std::fs": "crate::host::fs",
    "std::io": "crate::host::io",
    "std::process::Abort": "crate::host::Abort",
    "std::rt::Env": "crate::host::Env",
    "std::rt::Files": "crate::host::Files",
    "std::test": "crate::host",
    # These came to Rust after its version 1.85.
    "Duration::from_nanos_u128": "crate::kit::convert::from_nanos_u128",
    "Ipv4Addr::from_octets": "Ipv4Addr::from",
    "Ipv6Addr::from_octets": "Ipv6Addr::from",
    "str::from_utf8": "core::str::from_utf8",
}
# Names that a source has without an import.
NAMES = {
    "Box": "crate::kit::prelude::Box", "Vec": "crate::kit::prelude::Vec",
    "String": "crate::kit::prelude::String", "TryClone": "crate::kit::prelude::TryClone",
    "try_clone": "crate::kit::prelude::TryClone", "HostRuntime": "crate::host::HostRuntime",
    "AllocGlobal": "crate::host::AllocGlobal", "collect_in": "crate::host::CollectIn",
    "to_string_in": "crate::host::ToStringIn",
}

# --- What only a proof reads ---------------------------------------------------------------------

def end_of_item(masked, found):
    """A ghost item ends with its `;` or `,`."""
    depth = 0
    for place in range(found.end(), len(masked)):
        depth += (masked[place] in "{([") - (masked[place] in "})]")
        if depth < 0:
            break
        if depth == 0 and masked[place] in ";,":
            return place + 1
    raise Unknown("a ghost item has no end: " + masked[found.start():found.start() + 40])


def end_of_block(masked, found):
    return closing(masked, found.end() - 1)


def end_of_match(_masked, found):
    return found.end()


def erase_proofs(text):
    """Clauses, ghost items, what a type is to a proof, and hints for the prover."""
    text = erase(text, r"\b(?:ensures|requires)\*?(?:\s+\w+)?\s*\{", end_of_block)
    text = erase(text, r"(?:\bpub(?:\([^)]*\))?\s+)?\bghost\b", end_of_item)
    text = erase(text, r"^impl(?:<[^{]*>)?\s+Model\s+for\b[^{]*\{", end_of_block)
    text = in_code(text, r"^[ \t]*#!?\[(?:tactic|cycle)\(.*\)\]\n", "")
    # What is proved is tested where tests run.
    return in_code(text, r"\bprove!", "debug_assert!")


def erase_laws(text):
    """A law is a function that does and returns nothing, called for its contract. It stands in a
    module of laws, or beside its callers. What pins derived impls stands in a module of derives."""
    names = re.findall(r"\buse [\w:]*\blaws as (\w+);", mask(text))
    for inside in re.findall(r"\buse [\w:]*\blaws::([^;]*);", mask(text)):
        names += re.findall(r"\w+", inside)
    text = erase(text, r"^(?:pub )?(?:use [\w:]*\blaws\b[^;]*|mod (?:laws|derives));", end_of_match)
    text = in_code(text, r"^(use [^;]*)\blaws, ", r"\1")
    text = in_code(text, r"^(use [^;]*), laws\b", r"\1")
    text = erase(text, r"^[ \t]*(?:\w+::)*laws::\w+\(\);", end_of_match)
    text = in_docs(text, r"^//! \| `laws` \|.*\n", "")
    law = r"^(?:pub(?:\(crate\))? )?fn (\w+)(?:<[^(]*>)?\([^)]*\)\s*\{\}"
    names += re.findall(law, mask(text), re.M)
    text = erase(text, law, end_of_match)
    for name in names:
        text = erase(text, rf"^[ \t]*{name}(?:::\w+)?\([\w\s,.&]*\);", end_of_match)
    return text


# --- What doc comments say of proofs --------------------------------------------------------------

# What is said of contracts, to the end of its sentence, which may go over lines.
OF_CONTRACTS = (r"(?:Contracts see|A contract sees|The (?:clause|law) `)".replace(" ", r"[\s/]+")
                + r"(?:[^.]|\.(?=\S))*\.")
# Words, those that follow them, and what is said instead, which is true of the sources too.
DOC_WORDS = [
    ("Contracts", "see", "The sources' contracts"),
    ("A contract", "sees", "A contract of the sources"),
    ("contracts", "(?:alone see|cite)", "the sources' contracts"),
    ("its clause", "(?:gives|cites)", "its clause in the sources"),
    ("The clauses", "say", "The sources' clauses"),
    ("each function", "is proved", "each function of the sources"),
]


def without_marked(comment):
    """A doc comment without its paragraphs that begin with the word `Contracts:`."""
    line = r"[ \t]*//[/!]"
    paragraph = rf"^{line} +Contracts:(?:.*\n)(?:{line} +\S.*\n)*"
    comment = re.sub(rf"(?:^{line}[ \t]*\n)?{paragraph}(?={line}[ \t]*\n|(?!{line}))", "", comment,
                     flags=re.M)
    return re.sub(rf"\A(?:{line}[ \t]*\n)+", "", comment)


def rewrite_docs(text):
    """Plain Rust has no contracts. What a paragraph says of them that begins with `Contracts:`
    goes. Beside that, a sentence on them goes where it ends a paragraph; before other sentences,
    which may point back to it, it is told whose they are."""
    text = DOCS.sub(lambda found: without_marked(found.group(0)), text)
    last = r"\n(?![ \t]*/// )"
    text = in_docs(text, rf"(?:^[ \t]*///\n)?^[ \t]*/// {OF_CONTRACTS}{last}", "")
    text = in_docs(text, rf"(?<=\.) {OF_CONTRACTS}(?={last})", "")
    text = in_docs(text, r" \(law `\w+`\)", "")
    for words, following, new in DOC_WORDS:
        text = in_docs(text, rf"\b{words}(?=[\s/]+{following}\b)", new)
    return text


# --- Values that go away, copies and memory ------------------------------------------------------

def end_of_drop(masked, found):
    end = closing(masked, found.end() - 1)
    if not re.fullmatch(r"\s*fn drop\(self\) \{\s*let \w+ \{[\w\s:,]*\} = self;\s*\}\s*\}",
                        masked[found.end():end]):
        raise Unknown("a drop that does something")
    return end


def rewrite_drop(text):
    """`Drop` is a promise that a value may go away, which Rust gives for each."""
    text = erase(text, r"^impl(?:<[^{]*>)?\s+Drop\s+for\b[^{]*\{", end_of_drop)
    text = in_code(text, r"\s*\+\s*Drop\b", "")
    text = in_code(text, r":\s*Drop\b(?=\s*[>{,;])", "")
    text = in_code(text, r"#\[derive\(Drop\)\]\n[ \t]*", "")
    text = in_code(text, r"(#\[derive\([^)]*), Drop\b", r"\1")
    return in_code(text, r"(#\[derive\()Drop, ", r"\1")


def rewrite_clone(text):
    """A copy may allocate, so that it can fail; of what is copied bit by bit it cannot."""
    text = in_code(text, r"\bClone(?=\s+for\b)", "TryClone")
    text = in_code(text, r"\bfn clone\(&self\) -> Result<", "fn try_clone(&self) -> Result<")
    return in_code(text, r"\.clone\(\)", ".try_clone()")


def rewrite_memory(text):
    """An allocator here grants bytes, and hands out no pointer. A key has a number."""
    text = in_code(text, r"<K: Ord(?: \+ Drop)?(, V)?>", r"<K: crate::kit::collections::Key\1>")
    text = in_code(text, r"\bunsafe impl\b(?=[^{]*\bAllocator for\b)", "impl")
    text = in_code(text, r"(fn allocate\(.*\) -> )Result<\*mut u8, AllocError>",
                   r"\1Result<(), AllocError>")
    text = in_code(text, r"\bunsafe fn deallocate\(&self, _?ptr: \*mut u8, ",
                   "fn deallocate(&self, ")
    return in_code(text, r"\.deallocate\(ptr, ", ".deallocate(")


def rewrite_macros(text):
    """A macro is not handed the process, and a text is made where an allocator says."""
    text = in_code(text, r"\b(assert|assert_eq|assert_ne|panic|println|eprintln)!\(\s*rt;\s*",
                   r"\1!(")
    text = in_code(text, r"\bformat!\(in\s+", "crate::host::format_in!(")
    return in_code(text, r"\.(collect|to_string)\((?=\w)", r".\1_in(")


# --- Signatures and paths ------------------------------------------------------------------------

def rewrite_tests(text):
    """A test is handed the process, and may end with why it failed."""
    pattern = r"#\[test\]\n([ \t]*)fn (\w+)\(((?:mut )?rt: HostRuntime)\)((?: -> [^{]*?)?)\s*\{"
    for found in reversed(list(re.compile(pattern).finditer(mask(text)))):
        end = closing(mask(text), found.end() - 1)
        space, name, handed, returned = found.groups()
        body = text[found.end() - 1:end]
        text = (text[:found.start()] + f"#[test]\n{space}fn {name}() {{\n{space}    "
                f"crate::host::run(|{handed}|{returned} {body});\n{space}}}" + text[end:])
    return text


def rewrite_signatures(text):
    text = in_code(text, r"fn fmt<W: fmt::Write>\(&self, f: &mut fmt::Formatter<W>\)",
                   "fn fmt(&self, f: &mut fmt::Formatter<'_>)")
    text = in_code(text, r"\bfinal fn\b", "fn")
    # A proof needs the number from a call. Here the constant says it.
    text = in_code(text, r"^( *)(fn static_type\(\) -> AttributeType)\s*;",
                   "\\1#[must_use]\n\\1\\2 { Self::TYPE }")
    # A later version may have more reasons, outcomes, algorithms or transports. In Rattle a match on
    # them has an arm for each, so that none is forgotten.
    text = in_code(text, r"^(pub enum \w*(?:Error|Reason|Cause)\b|pub enum (?:Judged|Refusal)\b|"
                   r"pub enum (?:IntegrityAlgorithm|PasswordAlgorithmValue|TransportType)\b|"
                   r"pub struct StoredKeys\b)",
                   "#[non_exhaustive]\n" r"\1")
    # Constants of methods are made by it.
    text = in_code(text, r"\bpub (fn new\(number: u16\) -> Option<Method>)", r"pub const \1")
    text = in_code(text, r"#\[rattlefmt::skip\]", "#[rustfmt::skip]")
    text = in_code(text, r"^fn main\(rt: HostRuntime\) -> ExitCode \{",
                   "/// Runs the program.\npub fn main() -> ExitCode {\n    let rt = HostRuntime;")
    # Tests inside the crates are those of the package `checks`.
    return in_code(text, r"^#\[cfg\(test\)\]\nmod tests;",
                   '#[cfg(all(test, feature = "checks"))]\nmod tests;')


def rewrite_results(text):
    """The compiler warns if the result of a call that changes nothing is ignored."""
    def marked(found):
        head = text[found.start():found.end()]
        if re.search(r"&(?:'\w+ )?mut\b|#\[must_use", head):
            return head
        return f"{found.group(1)}#[must_use]\n{head}"
    some = r"(?:\[[^\]]*\]|[^{;])"  # of a signature: in brackets is the length of an array
    result = rf"\s*->(?!\s*(?:Result|impl)\b){some}+\{{"
    return in_code(text, rf"^( *)pub (?:const )?fn \w+{some}*?\){result}", marked)


def rewrite_imports(text):
    """Imports of what Rust has not, or has without them."""
    text = in_code(text, r"^use (?:std::marker::Model|std::str|thiserror::Error);\n", "")
    text = in_code(text, r"^(use std::marker::)\{Brand, Model\};", r"\1Brand;")
    # Two modules in one import may go to two places.
    return in_code(text, r"^use std::\{(env|fs), (\w+)\};", "use std::\\1;\nuse std::\\2;")


def rewrite_paths(text, crate, places):
    """Crates are modules here, and what Rust lacks stands in the modules `kit` and `host`."""
    new = {**PATHS, **places, "crate": places[crate]}
    if crate in LIBRARY + export_c.CRATES:
        new["std"] = "core"
    ends = (name + (r"\b" if "::" in name else r"(?=::)|(?<=\buse )" + name + r"(?= as |;)")
            for name in sorted(new, key=len, reverse=True))
    return in_code(text, rf"(?<![\w:.])(?!crate::(?:kit|host)\b)(?:{'|'.join(ends)})",
                   lambda found: new[found.group(0)])


def with_imports(text):
    """Imports of the names that the text uses, at its top."""
    masked = mask(text)
    used = sorted({place for name, place in NAMES.items() if re.search(rf"\b{name}\b", masked)
                   and f"use {place};" not in masked})
    top = re.compile(r"(?:[ \t]*(?://!|#!\[)[^\n]*\n|[ \t]*\n)*").match(text).end()
    lines = "".join(f"use {place};\n" for place in used)
    if lines and not re.match(r"(?:pub )?use ", text[top:]):
        lines += "\n"
    return text[:top] + lines + text[top:]


def exported(text, crate, places):
    """A source as Rust."""
    for rule in (erase_proofs, erase_laws, rewrite_docs, rewrite_drop, rewrite_derives,
                 rewrite_clone, rewrite_memory, rewrite_macros, rewrite_tests, rewrite_signatures,
                 rewrite_imports):
        text = rule(text)
    if crate in LIBRARY:
        text = rewrite_results(text)
    left = re.search(r"\b(ghost|ensures|requires|tactic|prove|Model|derive_where)\b.*", mask(text))
    if left:
        raise Unknown(left.group(0))
    for comment in DOCS.findall(text) if crate in LIBRARY else []:
        if re.search(r"(?i)\b(?:contract|clause|law)s?\b", comment) and "sources" not in comment:
            raise Unknown("a doc comment on contracts, which plain Rust has not: say it in a "
                          "paragraph that begins with `Contracts:`, which is left out\n" + comment)
    return with_imports(rewrite_paths(text, crate, places))


# --- Files ---------------------------------------------------------------------------------------

def crates_known():
    """The crates in their order, each with those that it uses, as `crates.txt` tells them."""
    lines = re.findall(r"^(\w+)[\w ]*:(.*)$", (ROOT / "crates.txt").read_text(), re.M)
    return {crate: others.split() for crate, others in lines}


def with_used(uses, wanted):
    """These crates and all that they use."""
    wanted = list(wanted)
    for name in wanted:
        wanted += [other for other in uses[name] if other in uses and other not in wanted]
    return wanted


def examples_of(crate):
    """The examples of a crate's items by the names of the items: each crate has a file in rust/pages,
    with a heading of the first level for each item."""
    path = ROOT / "rust/pages" / f"{crate}.md"
    parts = re.split(r"(?m)^# (\w+)\n\n?", path.read_text()) if path.is_file() else [""]
    return dict(zip(parts[1::2], (part.strip("\n") for part in parts[2::2])))


def with_examples(text, examples):
    """A source with these examples at the end of the comments of its items. Those that it has are
    taken out of the dictionary."""
    for name in list(examples):
        item = re.search(rf"(?m)^((?:///.*\n)+)(?:#\[.*\]\n)*pub (?:const |unsafe )?"
                         rf"(?:struct|enum|trait|fn|const|type) {name}\b", text)
        if item:
            if "# Examples" in item[1]:
                raise Unknown(f"{name} has an example in the sources, and one in rust/pages")
            lines = ["", "# Examples", "", *examples.pop(name).split("\n")]
            comment = "".join(f"/// {line}".rstrip() + "\n" for line in lines)
            text = text[:item.end(1)] + comment + text[item.end(1):]
    return text


def export_crate(crate, places, folder, commit):
    source = ROOT / "crates" / crate / "src"
    examples = examples_of(crate)
    for path in sorted(source.rglob("*.rt")):
        if path.name in ("laws.rt", "derives.rt"):
            continue
        name = re.sub(r"^(lib|main)\.rt$", "mod.rt", str(path.relative_to(source)))
        target = (folder / crate / name).with_suffix(".rs")
        target.parent.mkdir(parents=True, exist_ok=True)
        try:
            text, of = path.read_text(), path.relative_to(ROOT)
            text = export_argued.argued(text, of) if crate in LIBRARY else text
            text = export_argued.closed(with_examples(exported(text, crate, places), examples))
            target.write_text(export_argued.head(of, commit) + text)
        except Unknown as unknown:
            sys.exit(f"{path}: {unknown}")
    if examples:
        sys.exit(f"rust/pages/{crate}.md: the crate has no such items: {', '.join(examples)}")


def main():
    if len(sys.argv) != 2:
        sys.exit(__doc__)
    out = Path(sys.argv[1])
    for folder in ("src", "capi", "checks", "examples", "bench", "tests"):
        shutil.rmtree(out / folder, ignore_errors=True)
    shutil.copytree(ROOT / "rust", out, dirs_exist_ok=True, ignore=shutil.ignore_patterns("pages"))
    shutil.copytree(ROOT / "tests/transcripts/endpoints", out / "tests/transcripts/data")
    for name in ("LICENSE-APACHE", "LICENSE-MIT"):
        shutil.copy(ROOT / name, out / name)
    uses = crates_known()
    crates = with_used(uses, LIBRARY + PROGRAMS)
    places = {crate: f"crate::{'exported' if crate in LIBRARY else 'programs'}::{crate}"
              for crate in crates}
    library, programs = out / "src" / "exported", out / "checks" / "src" / "programs"
    commit = export_argued.commit_of(ROOT)
    for crate in crates:
        export_crate(crate, places, library if crate in LIBRARY else programs, commit)
    export_c.write(out, exported, places, ROOT)
    # rustup has a rustfmt that runs nothing where the component is not there.
    asks = ["cargo", "fmt", "--version"]
    if not shutil.which("cargo") or subprocess.run(asks, capture_output=True).returncode != 0:
        print("rustfmt is not installed: what is exported builds, but is not laid out by it")
    elif subprocess.run(["cargo", "fmt", "--all"], cwd=out, check=False).returncode != 0:
        sys.exit("rustfmt refuses what was written")


if __name__ == "__main__":
    main()
