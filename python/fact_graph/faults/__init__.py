"""The faults of a dictionary, each at its place and with what would be right there.

The engine says which fault is the first, by its number, fact and node. This package reads the same bytes once more to say
where that stands in the text and what is wrong with it, and which further faults stand behind it.

    >>> found = Examined(b'{"version":"1","facts":[{"path":"/a","writable":"Money"}]}')
    >>> [first] = found.findings
    >>> first.line, first.reason, first.hint
    ('3 Shape fact 1', 'there is no type "Money"', '`Dollar` is like it')
    >>> found.place(first)
    Place(line=1, column=49)
"""

from __future__ import annotations

from collections.abc import Iterator
from functools import reduce
from operator import getitem
from typing import Any, Protocol

from ..errors import DictionaryRefused
from ..expressions import FactTree, fact_tree
from ..located import Document, NotJson, Place, Pointer, read
from ..uses import Uses
from .cycles import cycles
from .finding import Finding
from .form import excesses, misforms
from .limits import limit_faults
from .parts import options_of
from .paths import path_faults
from .tables import table_types
from .types import type_faults

__all__ = ["Examined", "Finding", "Source", "findings"]

MOST_BYTES = 8_388_608


class Source(Protocol):
    """The text in which a dictionary is written: of each part of the dictionary it knows the place."""

    def place(self, pointer: Pointer) -> Place:
        """Where a part begins."""

    def key_place(self, pointer: Pointer) -> Place:
        """Where the key begins under which a part stands."""

    def line(self, number: int) -> str:
        """The line of this number, from 1."""


class Examined:
    """A dictionary that was looked through: its findings, the first first, and where they stand.

    The text is the dictionary's JSON. The source is where it was written, if that is another text.
    """

    def __init__(self, text: bytes, source: Source | None = None) -> None:
        self.findings: list[Finding] = []
        self.document: Document | None = None
        self.is_written = source is not None
        """Whether the dictionary is written as another text than its JSON."""
        self._source = source
        self._end: Place | None = None
        if len(text) > MOST_BYTES:
            self.findings = [Finding("TooLong", (), f"the file has {len(text):,} bytes, and there may be {MOST_BYTES:,}")]
            return
        try:
            self.document = read(text)
        except NotJson as wrong:
            self.findings = [Finding("NotJson", (), wrong.reason)]
            self._end = wrong.place
            self._source = Document(text.decode(errors="replace"))
            return
        self._source = source or self.document
        self.findings = findings(self.document.value)

    @property
    def facts(self) -> int:
        """How many facts there are, once the dictionary is accepted."""
        return len(self._facts)

    @property
    def nodes(self) -> int:
        """How many nodes there are, once the dictionary is accepted."""
        return sum(1 for number, fact in enumerate(self._facts, 1) for _ in fact_tree(number, fact).nodes())

    @property
    def repeated(self) -> list[tuple[Place, str]]:
        """The keys that stand in their object a second time, and where. The last one counts."""
        return [(place, str(pointer[-1])) for pointer, place in self.document.repeated] if self.document else []

    @property
    def _facts(self) -> list[Any]:
        facts: list[Any] = self.document.value["facts"] if self.document else []
        return facts

    def place(self, finding: Finding) -> Place | None:
        """Where a finding stands in the source."""
        if self._end or self._source is None:
            return self._end
        return self._source.key_place(finding.pointer) if finding.is_key else self._source.place(finding.pointer)

    def stated(self, finding: Finding) -> tuple[Any, Any]:
        """The fact of a finding as it is written, and the node of it, each None where the finding has none."""
        if not finding.fact or not self.document:
            return None, None
        fact = self._facts[finding.fact - 1]
        node = next((it for it in fact_tree(finding.fact, fact).nodes() if it.number == finding.node), None) if finding.node else None
        return fact, node and self.part(node.pointer)

    def part(self, pointer: Pointer) -> Any:
        """A part of the dictionary."""
        document: Any = self.document.value if self.document else None
        return reduce(getitem, pointer, document)

    def line(self, number: int) -> str:
        """A line of the source."""
        return self._source.line(number) if self._source else ""

    def finding_of(self, refused: DictionaryRefused) -> Finding | None:
        """The finding that is the fault which the engine named, or None where there is none such."""
        named = (refused.name, refused.fact, refused.node, refused.what)
        return next((it for it in self.findings if (it.name, it.fact, it.node, it.what) == named), None)


def findings(value: Any) -> list[Finding]:
    """The faults of a dictionary, as far as they are found behind the first: a part without a form is read no further."""
    found = list(misforms(value))
    if isinstance(value, dict) and isinstance(value.get("facts"), list):
        found += _beyond_form(value, {it.fact for it in found})
    return sorted(found, key=lambda it: it.rank)


def _beyond_form(value: dict[str, Any], misformed: set[int | None]) -> Iterator[Finding]:
    """What is wrong with the facts that have a form."""
    numbered = list(enumerate(value["facts"], 1))
    trees = [fact_tree(number, fact) for number, fact in numbered if number not in misformed]
    unread = [_unread(number, fact) for number, fact in numbered if number in misformed]
    uses = Uses(sorted([*trees, *unread], key=lambda tree: tree.number))
    if 0 not in misformed:
        yield from excesses(value, trees)
    yield from path_faults(trees, uses)
    yield from type_faults(trees, uses, options_of(value), table_types(value))
    yield from limit_faults(trees)
    yield from cycles(trees, uses)


def _unread(number: int, fact: Any) -> FactTree:
    """What is known of a fact without a form."""
    path = fact.get("path") if isinstance(fact, dict) else None
    return FactTree(number, path if isinstance(path, str) else "", "", False)
