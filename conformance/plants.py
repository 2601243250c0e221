#!/usr/bin/env python3
"""plants.py [NAME ..]: plants each bug of plants.txt in the model and plays the suite over it.

A bug is found if an answer differs, unless differences.txt explains it of the model. Each bug that
is missed is printed. The last line counts. The status is 1 if a bug cannot be planted, or if more
than MOST_MISSED are missed."""

import os
import sys
import types

from play import LEVELS, Player, parts_of
from reasons import read_reasons, reason_of
from subject import Module

HERE = os.path.dirname(os.path.abspath(__file__))
# The files of the model, those first that others import.
MODEL = ("model.wire", "model.values", "model.credentials", "model.transactions",
         "model.asking", "model.checks", "subjects.model")
MOST_MISSED = 4


def read_model():
    """The text of each file of the model, by its name."""
    sources = {}
    for name in MODEL:
        with open(os.path.join(HERE, *name.split(".")) + ".py", encoding="utf-8") as file:
            sources[name] = file.read()
    return sources


class Planted(Module):
    """The model with other text. Its modules replace those of the model only while it is made."""

    def __init__(self, sources):
        old = {name: sys.modules.get(name) for name in MODEL}
        for name, source in sources.items():
            self.module = sys.modules[name] = types.ModuleType(name)
            exec(compile(source, name, "exec"), self.module.__dict__)
        for name, module in old.items():
            if module is None:
                del sys.modules[name]
            else:
                sys.modules[name] = module


def read_plants(path):
    """Yields each bug's name, the text that it replaces (`- OLD`), and the new text (`+ NEW`)."""
    with open(path, encoding="utf-8") as file:
        blocks = [block.split("\n") for block in file.read().strip().split("\n\n")]
    for lines in blocks:
        lines = [line for line in lines if not line.startswith("#")]
        if lines:
            old = "\n".join(line[2:] for line in lines if line.startswith("- "))
            new = "\n".join(line[2:] for line in lines if line.startswith("+ "))
            yield lines[0], old, new


def found_by(sources, parts):
    """The first file and line whose answer differs, but not as the model's own, or None."""
    player, reasons = Player(Planted(sources)), read_reasons()["model"]
    for part in parts:
        for other in player.play(part).others:
            if reason_of(other, reasons) is None:
                return f"{other.file}:{other.line}"
    return None


def main(names):
    model = read_model()
    parts, tried, missed, wrong = parts_of(LEVELS, ()), 0, 0, 0
    if found_by(model, parts) is not None:
        sys.exit("plants: the model itself differs, and differences.txt does not explain it")
    for name, old, new in read_plants(os.path.join(HERE, "plants.txt")):
        if names and name not in names:
            continue
        tried += 1
        places = [one for one, source in model.items() for _ in range(source.count(old))]
        if len(places) != 1:
            wrong += 1
            print(f"cannot be planted: {name} ({len(places)} places)")
            continue
        changed = model[places[0]].replace(old, new)
        where = found_by({**model, places[0]: changed}, parts)
        missed += where is None
        if where is None or names:
            print(f"{'missed' if where is None else 'found by ' + where}: {name}")
    print(f"plants: {tried} planted, {tried - missed - wrong} found, {missed} missed")
    return 1 if wrong or missed > MOST_MISSED else 0


if __name__ == "__main__":
    sys.exit(main(sys.argv[1:]))
