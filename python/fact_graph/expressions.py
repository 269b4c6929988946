"""The expressions of a dictionary: which nodes there are, and those of a fact as a tree whose nodes have their numbers.

    >>> tree = fact_tree(3, {"path": "/s", "derived": "Int", "is": ["Add", ["Dependency", "/a"], ["Int", "2"]]})
    >>> [(node.number, node.name, node.texts) for node in tree.nodes()]
    [(1, 'Add', ()), (2, 'Dependency', ('/a',)), (3, 'Int', ('2',))]
"""

from __future__ import annotations

import itertools
from collections.abc import Iterator
from typing import Any, NamedTuple

from .located import Pointer


class Form(NamedTuple):
    """What stands behind the name of a node: each part is an `operand`, a `path`, a `text`, a `table` or a `case`."""

    parts: tuple[str, ...]
    more: bool = False
    """Whether more of the last part may follow."""

    def part(self, at: int) -> str | None:
        """What stands at a place, from 0; None where nothing does."""
        if at < len(self.parts):
            return self.parts[at]
        return self.parts[-1] if self.more else None

    def __str__(self) -> str:
        if not self.parts:
            return "nothing"
        *before, last = (f"{article} {part}" for part, article in zip(self.parts, map(_article, self.parts)))
        if self.parts in (("operand", "operand"), ("text", "text")):
            before, last = [], f"two {last.split(' ')[1]}s"
        words = f"{', '.join(before)} and {last}" if before else last
        return f"{words}{' or more' if self.more else ''}"


def _article(word: str) -> str:
    return "one" if word in ("operand", "case") else "a"


def _forms() -> Iterator[tuple[str, Form]]:
    operand, path, text = "operand", "path", "text"
    for names, form in (
        ("True False", Form(())),
        ("Int Dollar Rational Day Text", Form((text,))),
        ("Enum", Form((text, text))),
        ("Dependency IsComplete CollectionSize CollectionSum Count", Form((path,))),
        ("Switch", Form(("case",), True)),
        ("All Any Add GreaterOf LesserOf", Form((operand,), True)),
        ("Subtract", Form((operand, operand), True)),
        ("Not Round YearOf MonthOf DayOf", Form((operand,))),
        ("Multiply Divide AddDays AddMonths AddYears DaysBetween AgeOn", Form((operand, operand))),
        ("RoundUp RoundDown RoundNearest", Form((operand, operand))),
        ("Equal NotEqual LessThan LessThanOrEqual GreaterThan GreaterThanOrEqual", Form((operand, operand))),
        ("Filter Find", Form((path, operand))),
        ("Lookup", Form(("table", operand))),
    ):
        for name in names.split():
            yield name, form


NODES = dict(_forms())
"""Each node by its name."""

LAW = "law-1"
VERSIONS = ("1", "2", LAW)
"""The versions of dictionaries. Each has what those before it have."""
OF_LAW = frozenset("AddMonths AddYears DaysBetween AgeOn MonthOf DayOf RoundUp RoundDown RoundNearest Lookup".split())
"""The nodes that the last version alone has."""


class Node(NamedTuple):
    """A node of a fact: its number from 1, its name, where it stands in the dictionary, its texts, and the nodes below it.

    Those below a Switch are the tests and the values of its cases in turn; a Case is no node.
    """

    number: int
    name: str
    pointer: Pointer
    texts: tuple[str, ...] = ()
    operands: tuple[Node, ...] = ()

    def nodes(self) -> Iterator[Node]:
        """This node and all below it, by their numbers."""
        yield self
        for operand in self.operands:
            yield from operand.nodes()


class FactTree(NamedTuple):
    """A fact with its expressions: its number from 1, its path, the text of its type, and what it is made of."""

    number: int
    path: str
    stated: str
    is_writable: bool
    limits: tuple[tuple[str, str], ...] = ()
    main: Node | None = None
    test: Node | None = None
    value: Node | None = None
    placeholder: Node | None = None

    @property
    def pointer(self) -> Pointer:
        """Where the fact stands in the dictionary."""
        return ("facts", self.number - 1)

    @property
    def is_read(self) -> bool:
        """Whether the fact has a form; of one that has none the path alone is known."""
        return self.stated != ""

    @property
    def roots(self) -> tuple[Node, ...]:
        """The expressions by the numbers of their nodes: the main one, those of the conditional, the placeholder."""
        return tuple(root for root in (self.main, self.test, self.value, self.placeholder) if root)

    def nodes(self) -> Iterator[Node]:
        """All nodes by their numbers."""
        for root in self.roots:
            yield from root.nodes()


def fact_tree(number: int, stated: dict[str, Any]) -> FactTree:
    """The tree of a fact that is written as a fact has to be."""
    numbers = itertools.count(1)
    pointer: Pointer = ("facts", number - 1)

    def root(key: str, *at: int) -> Node | None:
        part = stated.get(key)
        for place in at:
            part = part and part[place]
        return part and _node(part, (*pointer, key, *at), numbers)

    return FactTree(
        number,
        stated["path"],
        stated["writable"] if "writable" in stated else stated["derived"],
        "writable" in stated,
        tuple((name, text) for name, text in stated.get("limits", [])),
        *(root("is"), root("conditional", 0), root("conditional", 1), root("placeholder")),
    )


def _node(value: list[Any], pointer: Pointer, numbers: Iterator[int]) -> Node:
    number, texts, operands = next(numbers), [], []
    for at, part in enumerate(value[1:], 1):
        if isinstance(part, str):
            texts.append(part)
        elif part[0] == "Case":
            operands += [_node(part[side], (*pointer, at, side), numbers) for side in (1, 2)]
        else:
            operands.append(_node(part, (*pointer, at), numbers))
    return Node(number, value[0], pointer, tuple(texts), tuple(operands))
