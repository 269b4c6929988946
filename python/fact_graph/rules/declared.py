"""What the facts of a dictionary declare, so that an option can be written by its name alone where its list is plain.

That is so for the value of a fact whose type is a list of options, and to the right of `is` and `is not` where the left side is
such a fact.
"""

from __future__ import annotations

import re
from collections.abc import Iterable

from ..expressions import FactTree
from ..uses import FACT_PATH, Scope, Uses

__all__ = ["OF", "Declared", "Scope", "enum_of", "scope_of"]

OF = re.compile(r"(Enum|Collection|Item)\((.*)\)", re.DOTALL)


def scope_of(path: str) -> Scope:
    """The scope of a fact's expressions.

    >>> scope_of("/people/*/age")
    Scope(home='/people', is_condition=False, over=None)
    """
    found = FACT_PATH.fullmatch(path)
    return Scope(found[1] if found and found[2] else None)


def enum_of(stated: str) -> str | None:
    """The list of options that a type names.

    >>> enum_of("Enum(tenure)"), enum_of("Dollar")
    ('tenure', None)
    """
    found = OF.fullmatch(stated)
    return found[2] if found and found[1] == "Enum" else None


class Declared:
    """The types of facts by their paths, and the options of lists by their names. Of two with one name the first counts."""

    def __init__(self, types: Iterable[tuple[str, str]], enums: Iterable[tuple[str, Iterable[str]]]) -> None:
        trees = [FactTree(number, path, stated, stated == "Collection") for number, (path, stated) in enumerate(types, 1)]
        self.paths = [tree.path for tree in trees]
        self._uses = Uses(trees)
        self.options: dict[str, frozenset[str]] = {}
        for name, options in enums:
            self.options.setdefault(name, frozenset(options))

    def has_option(self, enum: str | None, option: str) -> bool:
        """Whether a list has this option."""
        return enum is not None and option in self.options.get(enum, ())

    def enum_of(self, path: str, scope: Scope) -> str | None:
        """The list of options of the fact that a path names, where it is a fact of that type."""
        target = self._uses.target(path, scope)
        return enum_of(target.stated) if target else None

    def inside(self, path: str, scope: Scope) -> Scope:
        """The scope of a condition on the members that a path names."""
        return self._uses.inside(path, scope)
