"""The rules of a dictionary that has no fault, for those who examine them: coverage, comparisons and checks.

    >>> rules = Rulebook(b'''{"version":"1","facts":[
    ...   {"path":"/people","writable":"Collection"},
    ...   {"path":"/people/*/age","writable":"Int"},
    ...   {"path":"/adults","derived":"Collection(/people)","is":["Filter","/people",["LessThan",["Int","17"],["Dependency","age"]]]}]}''')
    >>> adults = rules.trees["/adults"]
    >>> [(node.name, rules.over(adults, node), rules.targets(adults, node)) for node in adults.nodes()]
    [('Filter', None, ('/people',)), ('LessThan', '/people', ()), ('Int', '/people', ()), ('Dependency', '/people', ('/people/*/age',))]
"""

from __future__ import annotations

import json
from collections.abc import Iterator
from typing import Any

from .dictionary import Dictionary, FactType, Table
from .expressions import FactTree, Node, fact_tree
from .rules.comments import Notes
from .rules.declared import Declared, Scope
from .rules.layout import laid
from .rules.nodes import Printer, entry_text
from .uses import WITH_CONDITION, Uses, collection_of, home_of, item_of, type_of

__all__ = ["FactTree", "Node", "Rulebook", "Table", "cases_of", "home_of", "row_words", "type_words", "value_words"]

MOST_SHOWN = 100


class Rulebook:
    """The facts of a dictionary as trees, by their paths, and what the paths in them name."""

    def __init__(self, text: bytes) -> None:
        self.stated: dict[str, Any] = json.loads(text)
        self.dictionary = Dictionary.of_json(text)
        self.trees = {tree.path: tree for tree in (fact_tree(number, fact) for number, fact in enumerate(self.stated["facts"], 1))}
        uses = Uses(self.trees.values())
        self._targets = {
            (tree.path, used.node.number): tuple(target.path for target in used.targets) for tree in self.trees.values() for used in uses.in_fact(tree)
        }
        self._printer = Printer(Declared(((tree.path, tree.stated) for tree in self.trees.values()), self.dictionary.options.items()), Notes())
        self._over = {(tree.path, number): over for tree in self.trees.values() for number, over in self._places(tree)}

    def base_of(self, path: str) -> str:
        """The writable collection whose members a fact names, which is a collection or an item."""
        stated = type_of(self.trees[path])
        base = collection_of(stated) or item_of(stated)
        assert base is not None, f"{path} names no members"
        return base

    def targets(self, tree: FactTree, node: Node) -> tuple[str, ...]:
        """The facts that the path of a node names; none where it has no path."""
        return self._targets.get((tree.path, node.number), ())

    def over(self, tree: FactTree, node: Node) -> str | None:
        """The collection whose member is tested where the node stands in the condition of a Filter or Find, and else None."""
        return self._over[tree.path, node.number]

    def written(self, node: Node) -> list[Any]:
        """The JSON of a node."""
        part: Any = self.stated
        for step in node.pointer:
            part = part[step]
        found: list[Any] = part
        return found

    def shown(self, tree: FactTree, node: Node) -> str:
        """A node as people read it, in one line; one that is long is cut."""
        over = self.over(tree, node)
        scope = Scope(home_of(tree), over is not None, over)
        enum = node.texts[0] if node.name == "Enum" else None
        text = laid(self._printer.root(self.written(node), node.pointer, scope, enum), MOST_SHOWN)
        line = " ".join(part.strip() for part in text.splitlines())
        return line if len(line) <= MOST_SHOWN else f"{line[: MOST_SHOWN - 2]} …"

    def mentions(self, tree: FactTree, *roots: Node) -> list[str]:
        """The facts that expressions of a fact mention, each once, in the order in which they are written."""
        return list(dict.fromkeys(path for root in roots for node in root.nodes() for path in self.targets(tree, node)))

    def _places(self, tree: FactTree) -> Iterator[tuple[int, str | None]]:
        def below(node: Node, over: str | None) -> Iterator[tuple[int, str | None]]:
            yield node.number, over
            inner = self.base_of(self.targets(tree, node)[0]) if node.name in WITH_CONDITION else over
            for operand in node.operands:
                yield from below(operand, inner)

        for root in tree.roots:
            yield from below(root, None)


def row_words(table: Table, row: int) -> str:
    """A row of a table as people read it, by its number from 1; of 0 what stands below the first.

    >>> aid = Table("mostAid", FactType("Int"), FactType("Dollar"), (("1", "291"), ("2", "535")), "0", "")
    >>> row_words(aid, 2), row_words(aid, 0)
    ('from 2: $535', 'otherwise $0')
    """
    if row == 0:
        return f"otherwise {value_words(table, table.otherwise)}"
    key, value = table.rows[row - 1]
    return f"from {entry_text(table.keys.name, key)}: {value_words(table, value)}"


def value_words(table: Table, text: str) -> str:
    """A value of a table as people read it."""
    return entry_text(type_words(table.values), text)


def type_words(stated: FactType) -> str:
    """A type as it is written.

    >>> type_words(FactType("Enum", "tenure")), type_words(FactType("Dollar"))
    ('Enum(tenure)', 'Dollar')
    """
    return f"{stated.name}({stated.of})" if stated.of else stated.name


def cases_of(node: Node) -> Iterator[tuple[Node, Node]]:
    """The tests of a Switch, each with its value."""
    return zip(node.operands[::2], node.operands[1::2])
