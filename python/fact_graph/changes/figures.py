"""Which cases get other figures over changed rules, and what of saved answers isn't carried to them."""

from __future__ import annotations

from collections.abc import Iterable, Iterator
from decimal import Decimal
from fractions import Fraction
from typing import NamedTuple

from ..cases import Case, CaseError, Entry, Names, Runner
from ..session import Dropped, Session
from ..values import READERS, text_of

COUNTED = ("Int", "Dollar", "Rational")
VALUED = ("complete ", "placeholder ")
NUMBERS = (int, Decimal, Fraction)


class Moved(NamedTuple):
    """A figure of a case that is another one: the results, as the engine prints them, and by how much, where both are numbers."""

    figure: str
    before: str
    after: str
    by: str = ""


class Moves(NamedTuple):
    """A case with its figures that are others; or why it can't be run over the old rules, or over the new ones."""

    case: Case
    moved: tuple[Moved, ...]
    before: CaseError | None = None
    after: CaseError | None = None


def moves(old: Runner, new: Runner, cases: Iterable[Case]) -> Iterator[Moves]:
    """The cases that get other figures, of those that are due in them, and those that only one of the rules can run."""
    for case in cases:
        before, after = _found(old, case), _found(new, case)
        if isinstance(before, CaseError) or isinstance(after, CaseError):
            wrong = [it if isinstance(it, CaseError) else None for it in (before, after)]
            if None in wrong:
                yield Moves(case, (), *wrong)
            continue
        moved = tuple(Moved(due.path, *pair, _by(new, due.path, *pair)) for due, pair in zip(case.due, zip(before, after)) if pair[0] != pair[1])
        if moved:
            yield Moves(case, moved)


def dropped(new: bytes, saved: bytes) -> tuple[Dropped, ...]:
    """What isn't carried of a saved text to new rules. Raises `SavedRefused` where it is none."""
    with Session.carry(new, saved) as session:
        return session.dropped


def _found(runner: Runner, case: Case) -> list[str] | CaseError:
    """The result of each due figure, or why the case can't be run."""
    try:
        with runner.answered(case) as names:
            return [_result(runner, names, due) for due in case.due]
    except CaseError as wrong:
        return wrong


def _result(runner: Runner, names: Names, due: Entry) -> str:
    try:
        return runner.found(names, due.path, due.place)
    except CaseError as wrong:
        return wrong.message


def _by(new: Runner, path: str, before: str, after: str) -> str:
    """How much more it is than before, where both are numbers."""
    parts = path.split("/")
    fact = new.dictionary.facts.get(f"/{parts[1]}/*/{parts[3]}" if len(parts) == 4 else path)
    numbers = [text for text in (before, after) if text.startswith(VALUED)]
    if fact is None or fact.type.name not in COUNTED or len(numbers) < 2:
        return ""
    try:
        left, right = (READERS[fact.type.name](text.partition(" ")[2]) for text in numbers)
    except (ValueError, ArithmeticError):
        return ""  # it was of another type before
    assert isinstance(left, NUMBERS) and isinstance(right, NUMBERS)
    more = right - left  # type: ignore[operator] # both are read as one type
    return f"{'+' if more > 0 else ''}{text_of(more)}"
