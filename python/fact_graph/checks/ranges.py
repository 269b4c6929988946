"""Ranges: what the values of a result can be, and what the engine's operations make of them.

A range has every value that a result can have, and perhaps more. Amounts are cents, and days their numbers.
"""

from __future__ import annotations

from collections.abc import Iterable
from datetime import date
from functools import reduce
from typing import NamedTuple, Union

from ..constants import Number


class Span(NamedTuple):
    """The numbers from `low` to `high` of a type; `Members` are how many members a collection has.

    `is_cut` says that some of the results were out of the type's range, so that the rest stand for them.
    """

    unit: str
    low: Number
    high: Number
    is_cut: bool = False


class Options(NamedTuple):
    """Some of the values of a Boolean or of an Enum."""

    values: frozenset[bool | str]


class Anything(NamedTuple):
    """Any value: of a text, or of an item."""


Range = Union[Span, Options, Anything]

NOTHING = Options(frozenset())
TRUE, FALSE, EITHER = (Options(frozenset(values)) for values in ({True}, {False}, {True, False}))

MOST = 10**15 - 1
WHOLE = {
    "Int": Span("Int", -MOST, MOST),
    "Dollar": Span("Dollar", -MOST, MOST),
    "Rational": Span("Rational", -(10**12), 10**12),
    "Day": Span("Day", date(1800, 1, 1).toordinal(), date(2199, 12, 31).toordinal()),
    "Members": Span("Members", 0, 100),
}


def union(ranges: Iterable[Range]) -> Range:
    """What has the values of all of them, which are of one type."""
    nothing: Range = NOTHING
    return reduce(_either, ranges, nothing)


def _either(one: Range, other: Range) -> Range:
    if isinstance(one, Span) and isinstance(other, Span):
        return Span(one.unit, min(one.low, other.low), max(one.high, other.high), one.is_cut or other.is_cut)
    if isinstance(one, Options) and isinstance(other, Options):
        return Options(one.values | other.values)
    return other if one == NOTHING else one


def common(one: Range, other: Range) -> Range:
    """The values that both have."""
    if isinstance(one, Span) and isinstance(other, Span):
        low, high = max(one.low, other.low), min(one.high, other.high)
        return Span(one.unit, low, high, one.is_cut) if low <= high else NOTHING
    if isinstance(one, Options) and isinstance(other, Options):
        return Options(one.values & other.values)
    return other if isinstance(one, Anything) else one


def without(one: Range, other: Range) -> Range:
    """The values but for the single one of the other, as far as that can be said."""
    if not is_single(other):
        return one
    if isinstance(one, Options) and isinstance(other, Options):
        return Options(one.values - other.values)
    if isinstance(one, Span) and isinstance(other, Span) and one.unit != "Rational":
        low = one.low + 1 if one.low == other.low else one.low
        high = one.high - 1 if one.high == other.low else one.high
        return Span(one.unit, low, high) if low <= high else NOTHING
    return one


def values_of(one: Range) -> frozenset[bool | str]:
    """The values of a Boolean or an Enum."""
    return one.values if isinstance(one, Options) else frozenset()


def is_single(one: Range) -> bool:
    """Whether there is one value alone."""
    return one.low == one.high if isinstance(one, Span) else isinstance(one, Options) and len(one.values) == 1


def order(name: str, one: Span, other: Span) -> Range:
    """What a comparison of the two can come to."""
    if name in ("GreaterThan", "GreaterThanOrEqual"):
        return order("LessThan" if name == "GreaterThan" else "LessThanOrEqual", other, one)
    if name == "LessThan":
        return TRUE if one.high < other.low else FALSE if one.low >= other.high else EITHER
    return TRUE if one.high <= other.low else FALSE if one.low > other.high else EITHER


def equality(one: Range, other: Range) -> Range:
    """What Equal of the two can come to."""
    if isinstance(one, Anything) or isinstance(other, Anything):
        return EITHER
    if common(one, other) == NOTHING:
        return FALSE
    return TRUE if is_single(one) and is_single(other) else EITHER


def negated(one: Range) -> Range:
    """What Not of it can come to."""
    return Options(frozenset(not value for value in one.values)) if isinstance(one, Options) else EITHER
