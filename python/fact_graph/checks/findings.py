"""What can be wrong with rules that are accepted, each with its reason."""

from __future__ import annotations

from collections.abc import Iterable, Iterator
from typing import NamedTuple

from ..expressions import FactTree, Node
from ..rulebook import Rulebook, cases_of, row_words
from ..uses import WITH_CONDITION, home_of
from .arithmetic import TO_MULTIPLES
from .ranges import FALSE, TRUE
from .reasoning import Reasoning

CHECKS = {
    "open-switch": "a Switch may find no case whose test is true: its result is incomplete then, and no answer is missing",
    "unreachable-case": "a case of a Switch can never be taken",
    "constant-condition": "a condition is always true, or always false, by the types and limits of the answers",
    "unused-fact": "no figure rests on a fact that follows",
    "unused-answer": "an answer is asked for, and no figure rests on it",
    "unused-table": "no rule reads a table",
    "unreachable-row": "no key leads to a row of a table, by the types and limits of the answers",
    "hidden-answer": "a placeholder stands in for answers that have none of their own, so that a figure looks known before they are given",
    "overflow": "an amount can be out of its type's range, and is a fault then",
    "zero-divide": "a divisor can be zero, or the unit of a rounding zero or less, and the result is a fault then",
}
"""Each check, and what it finds."""

CONSTANTS = ("True", "False")
AMOUNTS = ("Int", "Dollar", "Rational", "Day")


class Finding(NamedTuple):
    """What a check finds: of which fact, at which node of it or 0, and why. Of a table the path is its name."""

    check: str
    path: str
    node: int
    reason: str


def findings(rulebook: Rulebook, figures: Iterable[str]) -> list[Finding]:
    """What the checks find in rules whose figures these are, by the order of the tables and facts and of the checks."""
    reasoning = Reasoning(rulebook)
    order = {check: at for at, check in enumerate(CHECKS)}
    found = [*_of_tables(rulebook, reasoning), *_of_use(rulebook, figures)]
    for tree in rulebook.trees.values():
        found += [*_of_cases(rulebook, reasoning, tree), *_of_conditions(rulebook, reasoning, tree), *_of_placeholder(rulebook, tree)]
        found += _of_arithmetic(rulebook, reasoning, tree)
    places = {name: at for at, name in enumerate((*rulebook.dictionary.tables, *rulebook.trees))}
    return sorted(found, key=lambda it: (places[it.path], order[it.check], it.node))


def _of_tables(rulebook: Rulebook, reasoning: Reasoning) -> Iterator[Finding]:
    """The tables that no rule reads, and the rows of the others that can't be reached where any can."""
    read = {node.texts[0] for tree in rulebook.trees.values() for node in tree.nodes() if node.name == "Lookup"}
    for name, table in rulebook.dictionary.tables.items():
        if name not in read:
            yield Finding("unused-table", name, 0, "no rule reads this table")
        for row in range(1, len(table.rows) + 1) if name in reasoning.rows else ():
            if row not in reasoning.rows[name]:
                yield Finding("unreachable-row", name, 0, f"no key leads to the row {row_words(table, row)}")


def _of_cases(rulebook: Rulebook, reasoning: Reasoning, tree: FactTree) -> Iterator[Finding]:
    for node in tree.nodes():
        place = (tree.path, node.number)
        if node.name != "Switch" or place not in reasoning.ranges:
            continue
        for test, _ in cases_of(node):
            if (tree.path, test.number) not in reasoning.taken:
                is_behind = (tree.path, test.number) not in reasoning.ranges
                why = "a case before it is always taken" if is_behind else "its test is never true there"
                yield Finding("unreachable-case", tree.path, test.number, f"the case {rulebook.shown(tree, test)} is never taken: {why}")
        if place in reasoning.left:
            then = "its placeholder stands in then" if tree.placeholder else "its result is incomplete then"
            reason = f"no case may be true: {then}, and no answer is missing. End it with a case that is always true"
            yield Finding("open-switch", tree.path, node.number, reason)


def _of_conditions(rulebook: Rulebook, reasoning: Reasoning, tree: FactTree) -> Iterator[Finding]:
    """The conditions that have one value. What stands within such a condition isn't named too."""
    named: set[int] = set()
    for node in _conditions(tree):
        found = reasoning.ranges.get((tree.path, node.number))
        if found in (TRUE, FALSE) and node.name not in CONSTANTS and node.number not in named:
            named.update(inner.number for inner in node.nodes())
            value = "true" if found == TRUE else "false"
            yield Finding("constant-condition", tree.path, node.number, f"{rulebook.shown(tree, node)} is always {value}, by types and limits")


def _conditions(tree: FactTree) -> Iterator[Node]:
    """The conditions of a fact: all of a Boolean one, the conditional's, and those that All, Any, Filter and Find judge."""
    if tree.stated == "Boolean" and tree.main:
        yield tree.main
    if tree.test:
        yield tree.test
    for node in tree.nodes():
        if node.name in ("All", "Any", *WITH_CONDITION):
            yield from node.operands


def _of_use(rulebook: Rulebook, figures: Iterable[str]) -> Iterator[Finding]:
    used, new = set(figures), list(figures)
    while new:
        tree = rulebook.trees[new.pop()]
        below = [path for path in rulebook.mentions(tree, *tree.roots) if path not in used]
        home = home_of(tree)
        below += [home] if home and home not in used else []
        used.update(below)
        new.extend(below)
    for tree in rulebook.trees.values():
        if tree.path not in used:
            check, why = ("unused-answer", "no figure rests on this answer") if tree.is_writable else ("unused-fact", "no figure rests on this fact")
            yield Finding(check, tree.path, 0, why)


def _of_placeholder(rulebook: Rulebook, tree: FactTree) -> Iterator[Finding]:
    """The answers for which a placeholder of a fact that follows stands in, though they have none themselves."""
    if not (tree.placeholder and tree.main):
        return
    seen: set[str] = set()
    new = [path for root in (tree.main, tree.test, tree.value) if root for path in rulebook.mentions(tree, root)]
    hidden: list[str] = []
    while new:
        path = new.pop(0)
        below = rulebook.trees[path]
        if path in seen or below.placeholder:
            continue
        seen.add(path)
        if below.is_writable:
            hidden.append(path)
        new.extend(rulebook.mentions(below, *below.roots))
    if hidden:
        reason = f"the placeholder stands in while an answer is missing: {', '.join(sorted(hidden))}"
        yield Finding("hidden-answer", tree.path, tree.placeholder.number, reason)


def _of_arithmetic(rulebook: Rulebook, reasoning: Reasoning, tree: FactTree) -> Iterator[Finding]:
    for node in tree.nodes():
        for fault in sorted(reasoning.faults.get((tree.path, node.number), ())):
            if fault == "zero-divide":
                what, least = ("unit", "0 or less") if node.name in TO_MULTIPLES else ("divisor", "0")
                yield Finding(fault, tree.path, node.number, f"the {what} {rulebook.shown(tree, node.operands[1])} can be {least}")
            else:
                yield Finding(fault, tree.path, node.number, f"{node.name} can go beyond the range of its type{_unlimited(rulebook, tree, node)}")


def _unlimited(rulebook: Rulebook, tree: FactTree, node: Node) -> str:
    """The answers of which a node's amount is made and that have no Min or no Max, as the end of a sentence."""
    seen: set[str] = set()
    new = rulebook.mentions(tree, node)
    while new:
        path = new.pop()
        below = rulebook.trees[path]
        if path not in seen and below.stated in AMOUNTS:
            seen.add(path)
            new.extend(rulebook.mentions(below, *below.roots))
    lacking = [f"{path} has no {' and no '.join(names)}" for path in sorted(seen) if (names := _lacking(rulebook.trees[path]))]
    return f": {', '.join(lacking)}" if lacking else ""


def _lacking(tree: FactTree) -> list[str]:
    if not tree.is_writable:
        return []
    return [name for name in ("Min", "Max") if name not in dict(tree.limits)]
