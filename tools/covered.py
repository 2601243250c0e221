#!/usr/bin/env python3
"""Counts the definitions that no law speaks of: of each crate, those that the contracts of its public
calls are made of, transitively, and that no law mentions, directly or through others.

    tools/covered.py            prints the counts, and fails if a bar is exceeded
    tools/covered.py CRATE ..   prints the names, too, for these crates

A definition and its code can be wrong together, and then only a law that speaks of the definition
notices. Some definitions are their own law, such as a number of a registry: a line of the comment
above one of these begins with `its own law:` and says why. They are counted apart. A law that
mentions a definition need not say all of it, so the count is a lower bound on what to look at. Run
at the top of the repository.
"""
import sys

from crates import lines
from definitions import Repository, sources

# Crates that have laws alone, in other files than laws.rt.
LAWS = ("stun_exchanges", "stun_sessions", "stun_datagrams", "stun_client_runs",
        "stun_client_plans", "stun_requests", "stun_client_meetings", "stun_client_strength",
        "stun_peers", "stun_peer_runs")
SENTENCE = "-- its own law:"
# The most definitions without law or sentence. The three archives for C count together, and each
# crate has at most 20 sentences.
BARS = {("stun_ice",): 0, ("stun_c", "stun_c_endpoint"): 0}
MOST_SENTENCES = 20


def main():
    repository = Repository(".")
    read = {crate: sources(".", crate) for crate in lines()}
    laws = repository.of_contracts([source for crate, of in read.items() for source in of
                                    if source.path.endswith("laws.rt") or crate in LAWS])
    bare, wrong = {}, []
    for crate, of in read.items():
        if crate in LAWS:
            continue
        used = repository.of_contracts([one for one in of if not one.path.endswith("laws.rt")])
        own = [one for one in used if one.module.split(".")[1] == crate]
        left = [one for one in own if one not in laws]
        said = [one for one in left if any(line.startswith(SENTENCE) for line in one.lines)]
        bare[crate] = sorted(repr(one) for one in left if one not in said)
        if own:
            print(f"{crate}: {len(own)} definitions in contracts, {len(left) - len(said)} without law "
                  f"or sentence, {len(said)} with a sentence")
        if crate in sys.argv[1:]:
            print("".join(f"    {name}\n" for name in bare[crate]), end="")
        if len(said) > MOST_SENTENCES:
            wrong.append(f"{crate}: {len(said)} sentences are more than {MOST_SENTENCES}")
    for group, most in BARS.items():
        count = sum(len(bare[crate]) for crate in group)
        if count > most:
            wrong.append(f"{', '.join(group)}: {count} definitions without law or sentence are more "
                         f"than {most}")
    print("\n".join([*wrong, f"covered: {len(wrong)} bars exceeded"]))
    return 1 if wrong else 0


if __name__ == "__main__":
    sys.exit(main())
