#!/usr/bin/env python3
"""Changes one word of an exported file at a time, and then exchanges two imported names, and counts
which changes the comparison with the sources sees (same_tokens.py, same_c_tokens.py).

usage: tests/export/changed_words.py EXPORT COUNT [SEED]

EXPORT is what export.py wrote (target/export). COUNT words are changed in the crate and in the
calls for C together, each to another word of its file, and COUNT pairs of imports are exchanged.
The files are drawn by their sizes. Each change that is not seen is printed; the status is 1 if
there is one.
"""
import random
import re
import sys
from pathlib import Path

import same_c_tokens
import same_tokens


def is_seen(tokens, wanted):
    """Whether a file with these tokens differs from what it must have; what cannot be read does."""
    try:
        return same_tokens.read(tokens) != wanted
    except (ValueError, IndexError):
        return True


def with_changed_word(tokens, draw):
    """The tokens with one word changed, and what was changed."""
    places = [at for at, token in enumerate(tokens) if re.fullmatch(r"\w+", token)]
    at = draw.choice(places)
    word = draw.choice(sorted({tokens[place] for place in places} - {tokens[at]}))
    return tokens[:at] + [word] + tokens[at + 1:], f"{' '.join(tokens[at - 3:at + 2])} -> {word}"


def imported(tokens):
    """The places of the imported names that have no other name in the file."""
    is_import = False
    for at, token in enumerate(tokens[:-1]):
        is_import = token == "use" or is_import and token != ";"
        if is_import and tokens[at + 1] in (",", "}", ";") and tokens[at - 1] != "as" \
                and token not in ("self", "*", "}"):
            yield at


def with_exchanged_imports(tokens, draw):
    """The tokens with two imported names exchanged, each under the name of the other, and the two
    names; or None if the file has no two."""
    names = {tokens[at]: at for at in imported(tokens)}
    if len(names) < 2:
        return None
    one, two = draw.sample(sorted(names), 2)
    kept = list(tokens)
    for name, other in sorted(((one, two), (two, one)), key=lambda pair: -names[pair[0]]):
        kept[names[name] + 1:names[name] + 1] = ["as", other]
    return kept, f"{one} and {two}"


def main():
    if len(sys.argv) not in (3, 4):
        sys.exit(__doc__)
    export, count, seed = Path(sys.argv[1]), int(sys.argv[2]), int((sys.argv + [1])[3])
    files = {path: (same_tokens.tokens_of(path), wanted) for by in (same_tokens, same_c_tokens)
             for _, path, wanted in by.compared(export) if path}
    if any(is_seen(tokens, wanted) for tokens, wanted in files.values()):
        sys.exit("The export differs from the sources as it is: run same_tokens.py")
    draw, missed = random.Random(seed), 0
    sizes = [len(tokens) for tokens, _ in files.values()]
    for kind, change in (("words changed", with_changed_word),
                         ("pairs of imports exchanged", with_exchanged_imports)):
        seen = made = 0
        while made < count:
            (path, (tokens, wanted)), = draw.choices(list(files.items()), sizes)
            changed = change(tokens, draw)
            if changed:
                made += 1
                seen += is_seen(changed[0], wanted)
                if not is_seen(changed[0], wanted):
                    print(f"{path}: not seen: {changed[1]}")
        missed += made - seen
        print(f"{made} {kind}, {seen} seen (seed {seed}, {len(files)} files)")
    return 1 if missed else 0


if __name__ == "__main__":
    sys.exit(main())
