"""What the paths in expressions name: which facts a fact uses.

    >>> from fact_graph.expressions import fact_tree
    >>> trees = [fact_tree(1, {"path": "/c", "writable": "Collection"}),
    ...          fact_tree(2, {"path": "/c/*/age", "writable": "Int"}),
    ...          fact_tree(3, {"path": "/sum", "derived": "Int", "is": ["CollectionSum", "/c/*/age"]})]
    >>> [target.path for used in Uses(trees).in_fact(trees[2]) for target in used.targets]
    ['/c', '/c/*/age']
"""

from __future__ import annotations

import re
from collections.abc import Iterable, Iterator
from typing import NamedTuple

from .expressions import FactTree, Node

_NAME = "[A-Za-z][A-Za-z0-9_-]{0,63}"
FACT_PATH = re.compile(rf"(/{_NAME})(?:/\*/({_NAME}))?")
FORMS = {
    form: re.compile(pattern)
    for form, pattern in (
        ("fact", rf"/({_NAME})"),
        ("sibling", rf"\.\./({_NAME})"),
        ("inner", rf"({_NAME})"),
        ("each", rf"/({_NAME})/\*/({_NAME})"),
        ("through", rf"/({_NAME})/({_NAME})"),
        ("sibling through", rf"\.\./({_NAME})/({_NAME})"),
    )
}
"""The forms of a path in an expression: `/N`, `../N`, `N`, `/N/*/M`, `/N/M`, `../N/M`."""

WITH_CONDITION = ("Filter", "Find")
OVER_FIELDS = ("CollectionSum", "Count")
OVER_COLLECTIONS = ("CollectionSize", *WITH_CONDITION)
WITH_PATH = ("Dependency", "IsComplete", *OVER_COLLECTIONS, *OVER_FIELDS)


class Use(NamedTuple):
    """A path in an expression: its form and its one or two names."""

    form: str
    names: tuple[str, ...]


class Scope(NamedTuple):
    """Where an expression stands: in a fact of which collection's members, and under a condition over which collection."""

    home: str | None = None
    is_condition: bool = False
    over: str | None = None


class Used(NamedTuple):
    """A node with a path: the facts that it names, first the one with which the path begins, as far as they are there."""

    node: Node
    use: Use | None
    scope: Scope
    paths: tuple[str | None, str | None] = (None, None)
    first: FactTree | None = None
    second: FactTree | None = None

    @property
    def targets(self) -> tuple[FactTree, ...]:
        """The facts that are named."""
        return tuple(tree for tree in (self.first, self.second) if tree)


def use_of(text: str) -> Use | None:
    """The use that a path spells.

    >>> use_of("../partner/age")
    Use(form='sibling through', names=('partner', 'age'))
    """
    for form, pattern in FORMS.items():
        found = pattern.fullmatch(text)
        if found:
            return Use(form, found.groups())
    return None


def is_fact_path(text: str) -> bool:
    """Whether a text is the path of a fact, as `/a` or `/people/*/a`."""
    return FACT_PATH.fullmatch(text) is not None


def home_of(tree: FactTree) -> str | None:
    """The path of the collection whose members have a fact."""
    found = FACT_PATH.fullmatch(tree.path)
    return found[1] if found and found[2] else None


def type_of(tree: FactTree) -> str:
    """The type of a fact: of a writable collection that of its own members, as `Collection(/people)`."""
    return f"Collection({tree.path})" if tree.is_writable and tree.stated == "Collection" else tree.stated


def collection_of(stated: str) -> str | None:
    """The path that a type `Collection(..)` names, or None of another type."""
    return stated[11:-1] if stated.startswith("Collection(") else None


def item_of(stated: str) -> str | None:
    """The path that a type `Item(..)` names, or None of another type."""
    return stated[5:-1] if stated.startswith("Item(") else None


_READ = FactTree(0, "", "Int", True)


class Uses:
    """The facts of a dictionary by their paths, and what their expressions use. Of two facts with one path the first counts."""

    def __init__(self, trees: Iterable[FactTree]) -> None:
        self.by_path: dict[str, FactTree] = {}
        for tree in trees:
            if is_fact_path(tree.path):
                self.by_path.setdefault(tree.path, tree)

    def is_writable_collection(self, path: str | None) -> bool:
        """Whether a path is that of a writable collection."""
        tree = self.by_path.get(path or "")
        return tree is not None and tree.is_writable and tree.stated == "Collection"

    def may_have_members(self, path: str | None) -> bool:
        """Whether a path is that of a writable collection, as far as its fact could be read."""
        return self.is_writable_collection(path) or not self.by_path.get(path or "", _READ).is_read

    def in_fact(self, tree: FactTree) -> Iterator[Used]:
        """The nodes of a fact that have a path, by their numbers."""
        for root in tree.roots:
            yield from self._under(root, Scope(home_of(tree)))

    def target(self, path: str, scope: Scope) -> FactTree | None:
        """The fact that a path names in the end, where it is there.

        >>> trees = [FactTree(1, "/c", "Collection", True), FactTree(2, "/c/*/age", "Int", True)]
        >>> Uses(trees).target("../age", Scope("/c")).number
        2
        """
        use = use_of(path)
        first, second = self._facts(use, scope)[2:] if use else (None, None)
        return second if use and len(use.names) > 1 else first

    def inside(self, path: str, scope: Scope) -> Scope:
        """The scope of a condition on the members that a path names."""
        return self._inside(self.target(path, scope), scope)

    def _inside(self, first: FactTree | None, scope: Scope) -> Scope:
        over = collection_of(type_of(first)) if first else None
        return Scope(scope.home, True, over if over in self.by_path else None)

    def _under(self, node: Node, scope: Scope) -> Iterator[Used]:
        inner = scope
        if node.name in WITH_PATH:
            used = self._used(node, scope)
            yield used
            if node.name in WITH_CONDITION:
                inner = self._inside(used.first, scope)
        for operand in node.operands:
            yield from self._under(operand, inner)

    def _used(self, node: Node, scope: Scope) -> Used:
        use = use_of(node.texts[0])
        if use is None:
            return Used(node, None, scope)
        first_path, second_path, first, second = self._facts(use, scope)
        return Used(node, use, scope, (first_path, second_path), first, second)

    def _facts(self, use: Use, scope: Scope) -> tuple[str | None, str | None, FactTree | None, FactTree | None]:
        """The paths of the facts that a use names, and those facts, as far as they are there."""
        first_path = self._first_path(use, scope)
        first = self.by_path.get(first_path or "")
        second_path = self._second_path(use, first) if first else None
        return first_path, second_path, first, self.by_path.get(second_path or "")

    @staticmethod
    def _first_path(use: Use, scope: Scope) -> str | None:
        base = "" if use.form in ("fact", "each", "through") else scope.over if use.form == "inner" else scope.home
        if base is None:
            return None
        return f"{base}/*/{use.names[0]}" if base else f"/{use.names[0]}"

    @staticmethod
    def _second_path(use: Use, first: FactTree) -> str | None:
        if use.form in ("fact", "sibling", "inner"):
            return None
        base = collection_of(type_of(first)) if use.form == "each" else item_of(type_of(first))
        return f"{base}/*/{use.names[1]}" if base else None
