"""Says in the exported sources where each file is from and why it cannot panic, for
tools/export/export.py. A function with a place where Rust could panic or lose bits gets a comment:
where the prover checked it, and under which premises. `tests/export/argued.py` asks clippy for all
such places.
"""
import re
import shutil
import subprocess

from export_text import Unknown, closing, mask

PLACES = re.compile(r"\.unwrap\(|\.expect\(|\bunreachable!|[\w)\]]\[| [-+*/%]=? | (?:<<|>>)=? |"
                    r" as (?:[ui](?:8|16|32|64|128)|usize)\b")
CLAUSE = re.compile(r"\b(ensures|requires)\*?(?:\s+(\w+))?\s*\{")


def heads(masked):
    """Of each function with a body: where its `fn` is, the place behind the brace that opens the
    body, and its premises."""
    for found in re.finditer(r"\bfn (\w+)", masked):
        at, premises = found.end(), []
        while masked[at] not in "{;":
            clause = CLAUSE.match(masked, at)
            if clause:
                if clause[1] == "requires":
                    premises.append(clause[2] or "")
                at = closing(masked, clause.end() - 1)
            elif masked[at] in "([":
                at = closing(masked, at)
            else:
                at += 1
        if masked[at] == "{":
            yield found.start(), at + 1, premises


def premise(premises, is_of_trait):
    """Under what a function cannot panic."""
    if is_of_trait:
        return " where the trait's premises hold"
    named = ", ".join(f"`{name}`" for name in premises if name)
    if not premises:
        return ""
    return f" where {named} hold{'s' * (len(premises) == 1)}" if named else " where its premise holds"


def argued(text, source):
    """The text of a source, with a comment in each function that says why it does not panic."""
    masked, kept, at = mask(text), [], 0
    try:
        traits = [(found.end(), closing(masked, found.end() - 1)) for found in
                  re.finditer(r"(?m)^(?:impl\b[^{;]*\bfor\b|(?:pub )?trait\b)[^{;]*\{", masked)]
        for start, inside, premises in heads(masked):
            # (the mask keeps where everything is)
            if not PLACES.search(masked[inside:closing(masked, inside - 1)]):
                continue
            of = premise(premises, any(first < start < last for first, last in traits))
            line = text.count("\n", 0, start) + 1
            # (what is erased takes the comments right above it along)
            kept += [text[at:inside], f"\n// proved: cannot panic{of} ({source}:{line})\n\n"]
            at = inside
    except Unknown as unknown:
        raise Unknown(f"{source}: {unknown}") from unknown
    return "".join(kept) + text[at:]


def closed(text):
    """The exported text without the blank lines behind these comments."""
    return re.sub(r"(// proved: [^\n]*\n)\s*\n", r"\1", text)


def commit_of(root):
    """The commit that is exported, or nothing where it is not known. Sources of a release have a
    file that says it."""
    told = root / "COMMIT"
    if told.exists():
        return f", commit {told.read_text().strip()}"
    if not (root / ".git").exists() or not shutil.which("git"):
        return ""
    ran = subprocess.run(["git", "describe", "--always", "--dirty=, with changes", "--abbrev=12",
                          "--exclude=*"], cwd=root, capture_output=True, text=True, check=False)
    return f", commit {ran.stdout.strip()}" if ran.returncode == 0 else ""


def head(source, commit):
    """The first line of an exported file."""
    return f"// Written by tools/export from {source}{commit}: change that file, not this one.\n"
