"""Why a result is what it is, and by way of which slots it wants answers: trees of what was read for it.

>>> from fact_graph import Session
>>> session = Session.open("screener.json")
>>> session["/savings"] = 0
>>> print(session.missing("/means"))
/means incomplete
  /wages incomplete  # Those of children don't count.
    /adults incomplete
      /people incomplete (missing)  # Who lives in the home.
"""

from __future__ import annotations

import functools
import re
from collections.abc import Callable, Collection, Iterable, Iterator, Sequence
from dataclasses import dataclass, fields
from itertools import zip_longest
from operator import attrgetter
from typing import TYPE_CHECKING, Any, overload

from .dictionary import FactType, path_of
from .values import Result, said

if TYPE_CHECKING:
    from .session import Session

CONTROLS = re.compile(r"[\x00-\x1f\x7f-\x9f\s]+")
"""What no line of a tree has within: a description may be of several lines."""


@dataclass(frozen=True, slots=True, eq=False, repr=False)
class Explanation:  # pylint: disable=too-many-instance-attributes # what a session says of a slot
    """A slot with its result, and below it those that were read for it: as `why` and `missing` of a session give it.

    A slot is unfolded where it stands first; where it is met again it has no children, and `is_above`. So a tree is as large as
    what was read, however often each was. It is of the moment at which it was asked for, and no later change moves it.

    >>> from fact_graph import Session
    >>> session = Session.open("three.json")
    >>> session["/a"] = 5
    >>> why = session.why("/s")
    >>> why
    <Explanation of /s: incomplete, 2 below>
    >>> print(why)
    /s incomplete
      /a final 5.00
      /b incomplete (missing)
    >>> [(it.slot, it.result.value) for it in why.children]
    [('/a', Decimal('5.00')), ('/b', None)]

    It goes through all that stands in the tree, each slot before those below it; a node is equal to another with the same tree.

    >>> [it.slot for it in why if it.is_missing]
    ['/b']
    >>> why == session.why("/s")
    True
    """

    slot: str

    type: FactType
    """The type of its fact."""

    result: Result

    is_final: bool
    """Whether no further answer changes the result: what `final` of a session says."""

    is_overridden: bool
    """Whether it has its value by `override`, and not by what it would read."""

    is_missing: bool
    """Whether it is an answer that is missing, also where a placeholder stands in for it."""

    description: str
    """What the dictionary says of its fact, which may be nothing."""

    below: tuple[str, ...]
    """The slots that belong below it, in the order in which they were first read, also where they don't stand here as children."""

    is_above: bool
    """Whether these stand below the same slot further above."""

    children: tuple[Explanation, ...]
    """What stands below it here, in the order of `below`: all of these, or none where `is_above`, or where the depth ends."""

    @property
    def said(self) -> str:
        """The result as a session says it, with the word `final` for a complete one that is final.

        >>> from fact_graph import Session
        >>> Session.open("screener.json").why("/savings").said
        'placeholder 0.00'
        """
        reply = said(self.result, self.type.name)
        return "final" + reply.removeprefix("complete") if self.is_final else reply

    def __iter__(self) -> Iterator[Explanation]:
        """All that stands in the tree, each slot before those below it.

        >>> from fact_graph import Session
        >>> [it.slot for it in Session.open("three.json").why("/s")]
        ['/s', '/a', '/b']
        """
        return (it for _, it in self.levels())

    def levels(self) -> Iterator[tuple[int, Explanation]]:
        """The same, each with its level, which is 0 here.

        >>> from fact_graph import Session
        >>> [(level, it.slot) for level, it in Session.open("three.json").why("/s").levels()]
        [(0, '/s'), (1, '/a'), (1, '/b')]
        """
        ahead = [(0, self)]
        while ahead:
            level, here = ahead.pop()
            yield level, here
            ahead += [(level + 1, it) for it in reversed(here.children)]

    def lines(self, shown: Callable[[str], str] = str, noted: Callable[[Explanation], Iterable[str]] = lambda _: ()) -> Iterator[str]:
        """The lines of the text, indented by their levels. `shown` is applied to each result, and may colour it; what `noted` has of a
        slot is told in brackets behind its result.

        >>> from fact_graph import Session
        >>> for line in Session.open("three.json").why("/s").lines(str.upper):
        ...     print(line)
        /s INCOMPLETE
          /a INCOMPLETE (missing)
          /b INCOMPLETE (missing)
        """
        told = set()
        for level, it in self.levels():
            description = "" if it.slot in told else CONTROLS.sub(" ", it.description).strip()
            told.add(it.slot)
            notes = "".join(f" ({note})" for note in (*noted(it), *_notes(it)))
            yield f"{'  ' * level}{it.slot} {shown(it.said)}{notes}" + (f"  # {description}" if description else "")

    def __str__(self) -> str:
        return "\n".join(self.lines())

    def __repr__(self) -> str:
        return f"<{type(self).__name__} of {self.slot}: {self.said}, {len(self.below)} below>"

    # A tree may be deep, and each of these goes through it without a call in a call.

    def __eq__(self, other: object) -> bool:
        if not isinstance(other, Explanation):
            return NotImplemented
        return all(own == others for own, others in zip_longest(map(_row, self), map(_row, other)))

    def __hash__(self) -> int:
        return hash(_row(self))

    def __reduce__(self) -> tuple[Callable[..., Explanation], tuple[list[_Row]]]:
        return _grown, ([_row(it) for it in self],)


_OWN = attrgetter(*(field.name for field in fields(Explanation) if field.name != "children"))

_Row = tuple[tuple[Any, ...], int]
"""What a node of a tree is without its children, and how many these are."""


def _row(it: Explanation) -> _Row:
    return _OWN(it), len(it.children)


def _notes(it: Explanation) -> Iterator[str]:
    """What a line says behind the result."""
    ends = it.below and not it.children and not it.is_above
    notes = {"override": it.is_overridden, "missing": it.is_missing, "above": it.is_above, f"reads {len(it.below)}": ends}
    return (note for note, is_so in notes.items() if is_so)


def _grown(rows: Sequence[_Row]) -> Explanation:
    """The tree of these rows, each of which stands before those below it."""
    made: Callable[..., Explanation] = Explanation
    grown: list[Explanation] = []
    for own, count in reversed(rows):
        children = grown[len(grown) - count :]
        del grown[len(grown) - count :]
        grown.append(made(*own, tuple(reversed(children))))
    return grown[0]


@dataclass(frozen=True, slots=True, repr=False)
class Missing(Sequence[str]):
    """The answers that a result still wants, in the order of the dictionary; and the tree of what leads to them.

    >>> from fact_graph import Session
    >>> session = Session.open("screener.json")
    >>> missing = session.missing("/means")
    >>> missing
    <Missing of /means: /savings, /people>
    >>> list(missing), len(missing), "/people" in missing, bool(session.missing("/savings"))
    (['/savings', '/people'], 2, True, True)
    >>> print(missing)
    /means incomplete
      /wages incomplete  # Those of children don't count.
        /adults incomplete
          /people incomplete (missing)  # Who lives in the home.
      /savings placeholder 0.00 (missing)

    It is false where nothing is missing.

    >>> session["/savings"] = 0
    >>> bool(session.missing("/savings"))
    False
    """

    slots: tuple[str, ...]
    """The slots that are to be answered."""

    tree: Explanation
    """The slot that was asked for, and below it, of what `why` gives, that by way of which answers are missing. What has nothing
    below it there is missing, or stands above; an unanswered slot whose placeholder wants other answers is missing, too."""

    @overload
    def __getitem__(self, place: int) -> str: ...

    @overload
    def __getitem__(self, place: slice) -> tuple[str, ...]: ...

    def __getitem__(self, place: int | slice) -> str | tuple[str, ...]:
        """The slot at a place.

        >>> from fact_graph import Session
        >>> Session.open("three.json").missing("/s")[0]
        '/a'
        """
        return self.slots[place]

    def __len__(self) -> int:
        return len(self.slots)

    def __str__(self) -> str:
        return str(self.tree)

    def __repr__(self) -> str:
        return f"<{type(self).__name__} of {self.tree.slot}: {', '.join(self.slots) or 'nothing'}>"


class Walk:
    """What is read for the result of a slot, as a session says it that nobody changes meanwhile."""

    def __init__(self, session: Session, slot: str, missing: Collection[str]) -> None:
        self.session = session
        self.slot = slot
        self.missing = frozenset(missing)
        self.facts = session.facts()
        # each slot is asked for once, however often it is read
        self._reads: dict[str, tuple[str, ...]] = {}
        self._own: dict[str, tuple[Any, ...]] = {}

    def why(self, depth: int | None) -> Explanation:
        """The tree of all that is read, or of the levels down to this depth."""
        return _grown(list(self._rows(self._below, depth)))

    def leading(self) -> Explanation:
        """The tree of what leads to the answers that are missing."""
        leading = self._leading() if self.missing else set()
        return _grown(list(self._rows(lambda slot: tuple(it for it in self._below(slot) if it in leading), None)))

    def _rows(self, below: Callable[[str], tuple[str, ...]], depth: int | None) -> Iterator[_Row]:
        """The rows of the tree in which these slots belong below a slot."""
        unfolded = set()
        ahead = [(0, self.slot)]
        while ahead:
            level, slot = ahead.pop()
            slots, is_above = below(slot), slot in unfolded
            children = () if is_above or level == depth else slots
            if children:
                unfolded.add(slot)
            ahead += [(level + 1, it) for it in reversed(children)]
            yield (*self._said(slot), slots, is_above), len(children)

    def _leading(self) -> set[str]:
        """The slots by way of which an answer is missing, and those answers."""
        readers: dict[str, list[str]] = {self.slot: []}
        for slot in _reached([self.slot], self._below):
            for it in self._below(slot):
                readers.setdefault(it, []).append(slot)
        return set(_reached(self.missing, readers.__getitem__))

    def _below(self, slot: str) -> tuple[str, ...]:
        if slot not in self._reads:
            self._reads[slot] = tuple(self.session.reads(slot))
        return self._reads[slot]

    def _said(self, slot: str) -> tuple[Any, ...]:
        """What a node of a tree is, but for what belongs below it."""
        if slot not in self._own:
            path, result = path_of(slot), self.session.get(slot)
            fact = self.facts[path]
            is_final = result.kind == "complete" and self.session.final(slot) is not None
            # a slot that is overridden reads none
            is_overridden = not fact.is_writable and not self._below(slot) and slot in self._overridden
            description = self.session.description(path)
            self._own[slot] = slot, fact.type, result, is_final, is_overridden, slot in self.missing, description
        return self._own[slot]

    @functools.cached_property
    def _overridden(self) -> frozenset[str]:
        lines = self.session.save().decode().split("\n")
        return frozenset(line.split(" ")[1] for line in lines if line.startswith("override "))


def _reached(slots: Iterable[str], onward: Callable[[str], Iterable[str]]) -> Iterator[str]:
    """These slots, and all that are reached from them, each once."""
    ahead = list(slots)
    seen = set(ahead)
    while ahead:
        slot = ahead.pop()
        yield slot
        new = [it for it in onward(slot) if it not in seen]
        seen.update(new)
        ahead += new
