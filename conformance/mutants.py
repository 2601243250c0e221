#!/usr/bin/env python3
"""mutants.py [--all] [FILE ..]: makes each small change to the model, one at a time, and plays the
suite over it. A FILE is `model.checks`; without one all are changed.

A comparison or a condition is turned round, `and` becomes `or`, a number grows by one, a statement
is left out. Of the changes that no line finds, mutants.txt has the reasons: they change nothing
that a call can show, or what they change is a choice that no line asks for. Those without a reason
are printed, and all with `--all`. The last line counts. The status is 1 if a change has no reason,
or a reason no change."""

import ast
import collections
import os
import resource
import sys

from plants import Planted, read_model
from play import LEVELS, Player, parts_of
from reasons import read_reasons as read_explained
from reasons import reason_of

HERE = os.path.dirname(os.path.abspath(__file__))
MOST_SECONDS, MOST_MEMORY = 5, 1 << 29
TURNED = {ast.Eq: ast.NotEq, ast.NotEq: ast.Eq, ast.Lt: ast.LtE, ast.LtE: ast.Lt, ast.Gt: ast.GtE,
          ast.GtE: ast.Gt, ast.In: ast.NotIn, ast.NotIn: ast.In, ast.Is: ast.IsNot,
          ast.IsNot: ast.Is}


def changes_of(node):
    """Steps that change a node of the tree and change it back, and the line that is changed."""
    for change, back in turns_of(node):
        yield change, back, getattr(node, "lineno", 0)
    for name in ("body", "orelse"):
        statements = getattr(node, name, None)
        if isinstance(statements, list):
            yield from drops_of(statements)


def turns_of(node):
    """Comparisons and conditions that are turned round, and numbers that grow."""
    if isinstance(node, ast.Compare):
        old, new = node.ops[:], [TURNED[type(node.ops[0])](), *node.ops[1:]]
        yield (lambda: setattr(node, "ops", new)), (lambda: setattr(node, "ops", old))
    elif isinstance(node, ast.BoolOp):
        old, new = node.op, ast.Or() if isinstance(node.op, ast.And) else ast.And()
        yield (lambda: setattr(node, "op", new)), (lambda: setattr(node, "op", old))
    elif isinstance(node, ast.Constant) and type(node.value) is int:
        old = node.value
        yield (lambda: setattr(node, "value", old + 1)), (lambda: setattr(node, "value", old))
    elif isinstance(node, (ast.If, ast.IfExp)):
        old, new = node.test, ast.UnaryOp(ast.Not(), node.test)
        yield (lambda: setattr(node, "test", new)), (lambda: setattr(node, "test", old))


def drops_of(statements):
    """Statements that are left out."""
    for at, one in enumerate(statements):
        if isinstance(one, (ast.Raise, ast.Expr, ast.Assign, ast.AugAssign, ast.If)) \
                and not isinstance(getattr(one, "value", None), ast.Constant):
            def drop(at=at):
                statements[at] = ast.Pass()

            def back(at=at, one=one):
                statements[at] = one
            yield drop, back, one.lineno


def mutants(source):
    """Each change's line, and the text of the model with it."""
    tree = ast.parse(source)
    for node in list(ast.walk(tree)):
        for change, back, line in changes_of(node):
            change()
            yield line, ast.unparse(ast.fix_missing_locations(tree))
            back()


def finder(sources, parts):
    """The number of the first part with a line whose answer differs, from 1 on, or 0."""
    player, reasons = Player(Planted(sources)), read_explained()["model"]
    for number, part in enumerate(parts, 1):
        if any(reason_of(other, reasons) is None for other in player.play(part).others):
            return number
    return 0


def is_found(sources, parts):
    """Plays in a process of its own, because a changed model may never end or fill the memory. The
    part that finds a change is played first over the next one, which is near to it."""
    child = os.fork()
    if child == 0:
        resource.setrlimit(resource.RLIMIT_CPU, (MOST_SECONDS, MOST_SECONDS))
        resource.setrlimit(resource.RLIMIT_AS, (MOST_MEMORY, MOST_MEMORY))
        try:
            os._exit(finder(sources, parts))
        except BaseException:  # the changed model cannot even be made, or is too large
            os._exit(255)
    status = os.waitpid(child, 0)[1]
    number = os.waitstatus_to_exitcode(status)
    if 0 < number <= len(parts):
        parts.insert(0, parts.pop(number - 1))
    return status != 0


def read_reasons():
    """The reason of each change that no line finds: its file, its line, and the line as changed."""
    reasons = {}
    with open(os.path.join(HERE, "mutants.txt"), encoding="utf-8") as file:
        for line in file:
            if line.startswith("  "):
                name, _, words = line.strip().partition(": ")
                old, _, new = words.partition(" => ")
                reasons[name, old, new] = reason
            elif line.strip() and not line.startswith("#"):
                reason = line.strip()
    return reasons


def missed_by(model, names, parts, tried):
    """The changes that no line finds, as mutants.txt has them, with their place."""
    for name in names:
        source = model[name]
        lines, whole = source.split("\n"), ast.unparse(ast.parse(source)).split("\n")
        for line, changed in mutants(source):
            tried[name] += 1
            if not is_found({**model, name: changed}, parts):
                pairs = zip(whole, changed.split("\n"))
                other = next((new for old, new in pairs if old != new), "")
                yield (name, lines[line - 1].strip(), other.strip()), line


def main(words):
    model, tried, used, missed, alone = read_model(), collections.Counter(), set(), 0, 0
    names = [word for word in words if word in model] or list(model)
    reasons = {change: why for change, why in read_reasons().items() if change[0] in names}
    for change, line in missed_by(model, names, parts_of(LEVELS, ()), tried):
        missed += 1
        used.add(change)
        alone += change not in reasons
        if change not in reasons or "--all" in words:
            name, old, new = change
            print(f"{reasons.get(change, 'no reason')} ({name}:{line})\n  {name}: {old} => {new}",
                  flush=True)
    for name, old, new in reasons.keys() - used:
        print(f"mutants.txt has a reason for a change that is found: {name}: {old} => {new}")
    print(f"mutants: {sum(tried.values())} tried, {sum(tried.values()) - missed} found, "
          f"{missed} missed, {alone} of them without a reason")
    return 1 if alone or reasons.keys() - used else 0


if __name__ == "__main__":
    sys.exit(main(sys.argv[1:]))
