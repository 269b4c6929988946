"""What cases are to reach: of each fact its result, the cases of its Switches, the sides of its conditions, its placeholder; of each
table its rows."""

from __future__ import annotations

from collections.abc import Iterator
from typing import NamedTuple

from ..checks.reasoning import Reasoning
from ..rulebook import FactTree, Node, Rulebook, cases_of
from ..uses import WITH_CONDITION

CONDITIONS = ("All", "Any")
CONSTANTS = ("True", "False")


class Point(NamedTuple):
    """A point that a case reaches or doesn't.

    `of` is the path of a fact, or the name of a table. `kind` is `result`, `case`, `otherwise`, `side`, `placeholder` or `row`. `at`
    is the number of the node that is the test, the operand or the placeholder, and 0 for a result and for what a conditional leaves
    to the main expression; of a row it is the number, and 0 for what stands below the first. `value` is that of a side.
    """

    of: str
    kind: str
    at: int = 0
    value: bool | None = None


def points(rulebook: Rulebook) -> dict[str, list[Point]]:
    """The points of each table, which are the rows that can be reached, and of each fact, in the order of its nodes."""
    rows = Reasoning(rulebook).rows
    tables = {name: [Point(name, "row", row) for row in sorted(rows.get(name, ()))] for name in rulebook.dictionary.tables}
    return {**tables, **{path: list(_of_fact(tree)) for path, tree in rulebook.trees.items()}}


def sides(tree: FactTree, node: Node) -> Iterator[Point]:
    """The sides of a node that is judged: once true and once false, as far as it isn't a constant."""
    for value in (True, False):
        if node.name not in CONSTANTS or node.name == str(value):
            yield Point(tree.path, "side", node.number, value)


def judged(node: Node) -> tuple[Node, ...]:
    """The operands of a node of which both sides are to be reached: those of All and Any, the condition of Filter and Find."""
    return node.operands if node.name in CONDITIONS or node.name in WITH_CONDITION else ()


def _of_fact(tree: FactTree) -> Iterator[Point]:
    yield Point(tree.path, "result")
    for node in tree.nodes():
        if node is tree.test:
            yield Point(tree.path, "case", node.number)
            yield Point(tree.path, "otherwise")
        if node is tree.placeholder:
            yield Point(tree.path, "placeholder", node.number)
        if node.name == "Switch":
            yield from (Point(tree.path, "case", test.number) for test, _ in cases_of(node))
        for operand in judged(node):
            yield from sides(tree, operand)
