"""What the engine's arithmetic makes of ranges, and whether it can be at fault."""

from __future__ import annotations

from collections.abc import Callable, Iterable
from fractions import Fraction
from math import ceil, floor
from typing import NamedTuple

from ..constants import Number
from .dates import MONTHS, PARTS, age, between, later, part
from .ranges import MOST, NOTHING, WHOLE, Range, Span, common, is_single

LEAST: dict[str, Number] = {"Int": 1, "Dollar": 1, "Rational": Fraction(1, 10**12)}
"""The least number above zero of each type that divides."""


class Outcome(NamedTuple):
    """What an operation can come to, and the faults that it can have of its own."""

    range: Range
    faults: tuple[str, ...] = ()


def rounded(number: Number) -> int:
    """To the nearest whole number, and half of one away from zero.

    >>> rounded(Fraction(5, 2)), rounded(Fraction(-5, 2)), rounded(Fraction(7, 3))
    (3, -3, 2)
    """
    size = number if number >= 0 else -number
    nearest = int((size * 2 + 1) // 2)
    return nearest if number >= 0 else -nearest


def arithmetic(name: str, spans: list[Span]) -> Outcome:
    """What a node of this name comes to.

    >>> arithmetic("Add", [Span("Int", 1, 2), Span("Int", -5, 5)]).range
    Span(unit='Int', low=-4, high=7, is_cut=False)
    """
    return OPERATIONS[name](name, spans)


def total(size: Span, field: Span) -> Outcome:
    """The sum of a field over so many members."""
    low, high = min(size.low * field.low, size.high * field.low), max(size.low * field.high, size.high * field.high)
    return _within(field.unit, low, high, [field])


def _extreme(name: str, spans: list[Span]) -> Outcome:
    pick = max if name == "GreaterOf" else min
    return Outcome(Span(spans[0].unit, pick(it.low for it in spans), pick(it.high for it in spans), any(it.is_cut for it in spans)))


def _whole_dollars(_: str, spans: list[Span]) -> Outcome:
    low, high = (rounded(Fraction(end, 100)) * 100 for end in (spans[0].low, spans[0].high))
    return _within("Dollar", low, high, spans)


def _multiple(name: str, spans: list[Span]) -> Outcome:
    """What an amount is rounded to. Where the unit can be one of several, it is less than the greatest of them away."""
    amount, units = spans
    positive = common(units, Span("Dollar", 1, MOST))
    if not isinstance(positive, Span):
        return Outcome(NOTHING, ("zero-divide",))
    least, most = (Fraction(end) * (100 if amount.unit == "Rational" else 1) for end in (amount.low, amount.high))
    if is_single(positive):
        low, high = (TO_MULTIPLES[name](end / positive.low) * positive.low for end in (least, most))
    else:
        low = ceil(least) - (0 if name == "RoundUp" else positive.high)
        high = floor(most) + (0 if name == "RoundDown" else positive.high)
    outcome = _within("Dollar", low, high, spans)
    return Outcome(outcome.range, (*outcome.faults, "zero-divide")) if units.low < 1 else outcome


def _sum(name: str, spans: list[Span]) -> Outcome:
    first, *rest = spans
    low, high = sum(it.low for it in rest), sum(it.high for it in rest)
    if name == "Subtract":
        low, high = -high, -low
    return _within(first.unit, first.low + low, first.high + high, [first, *rest])


def _product(_: str, spans: list[Span]) -> Outcome:
    one, other = spans
    unit = next(it for it in ("Dollar", "Rational", "Int") if it in (one.unit, other.unit))
    return _rounded(unit, _corners(one, other, lambda left, right: left * right), [one, other])


def _quotient(_: str, spans: list[Span]) -> Outcome:
    one, other = spans
    unit = "Dollar" if one.unit == "Dollar" and other.unit != "Dollar" else "Rational"
    least = LEAST[other.unit]
    below, above = Span(other.unit, other.low, -least), Span(other.unit, least, other.high)
    parts = [part for part in (common(other, half) for half in (below, above)) if isinstance(part, Span)]
    ends = [end for part in parts for end in _corners(one, part, lambda left, right: Fraction(left) / Fraction(right))]
    outcome = _rounded(unit, ends, [one, other]) if ends else Outcome(NOTHING)
    return Outcome(outcome.range, (*outcome.faults, "zero-divide")) if other.low <= 0 <= other.high else outcome


def _corners(one: Span, other: Span, make: Callable[[Number, Number], Number]) -> list[Number]:
    """What is made of the ends of two spans."""
    return [make(left, right) for left in (one.low, one.high) for right in (other.low, other.high)]


def _rounded(unit: str, ends: list[Number], spans: Iterable[Span]) -> Outcome:
    low, high = min(ends), max(ends)
    return _within(unit, rounded(low), rounded(high), spans) if unit == "Dollar" else _within(unit, low, high, spans)


def _within(unit: str, low: Number, high: Number, spans: Iterable[Span]) -> Outcome:
    """The results that are in the range of their type. That others aren't is a fault of what went beyond it first."""
    whole, is_cut = WHOLE[unit], any(span.is_cut for span in spans)
    is_over = low < whole.low or high > whole.high
    found = common(Span(unit, low, high, is_cut or is_over), whole) if low <= whole.high and high >= whole.low else NOTHING
    return Outcome(found, ("overflow",) if is_over and not is_cut else ())


TO_MULTIPLES: dict[str, Callable[[Number], int]] = {"RoundUp": ceil, "RoundDown": floor, "RoundNearest": rounded}
"""By a node that rounds to a unit, how many units it makes of some and a part of one."""

OPERATIONS: dict[str, Callable[[str, list[Span]], Outcome]] = {
    **dict.fromkeys(("GreaterOf", "LesserOf"), _extreme),
    **dict.fromkeys(("Add", "Subtract", "AddDays"), _sum),
    "Multiply": _product,
    "Divide": _quotient,
    "Round": _whole_dollars,
    **dict.fromkeys(TO_MULTIPLES, _multiple),
    **dict.fromkeys(PARTS, lambda name, spans: Outcome(part(name, spans[0]))),
    **dict.fromkeys(MONTHS, lambda name, spans: _within("Day", *later(name, *spans), spans)),
    "DaysBetween": lambda _, spans: Outcome(between(*spans)),
    "AgeOn": lambda _, spans: Outcome(age(*spans)),
}
"""By its name what a node comes to."""
