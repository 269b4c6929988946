"""What ranges of days come to: parts of dates, days between, ages and later days."""

from __future__ import annotations

from calendar import monthrange
from datetime import date

from ..constants import Number
from .ranges import Span

PARTS = {"YearOf": (1800, 2199), "MonthOf": (1, 12), "DayOf": (1, 31)}
"""By a node the part of a date that it gives, and the least and the greatest that this can be."""
MONTHS = {"AddMonths": 1, "AddYears": 12}
"""By a node the months of its unit."""


def part(name: str, days: Span) -> Span:
    """The year, the month or the day of the month. Within one year the months rise, and within one month the days.

    >>> part("MonthOf", Span("Day", date(2024, 2, 1).toordinal(), date(2024, 4, 30).toordinal()))
    Span(unit='Int', low=2, high=4, is_cut=False)
    """
    low, high = ((it.year, it.month, it.day) for it in (_date(days.low), _date(days.high)))
    at = list(PARTS).index(name)
    return Span("Int", low[at], high[at]) if low[:at] == high[:at] else Span("Int", *PARTS[name])


def between(days: Span, until: Span) -> Span:
    """How many days it is from the first to the second."""
    return Span("Int", until.low - days.high, until.high - days.low)


def age(born: Span, until: Span) -> Span:
    """The years completed: fewer for one born later, more on a later day.

    >>> age(*(Span("Day", date(year, 2, 29).toordinal(), date(year, 3, 1).toordinal()) for year in (2000, 2024)))
    Span(unit='Int', low=23, high=24, is_cut=False)
    """
    return Span("Int", _age(_date(born.high), _date(until.low)), _age(_date(born.low), _date(until.high)))


def later(name: str, days: Span, count: Span) -> tuple[int, int]:
    """The least and the greatest day that is so many months or years later, or an end of Python's calendar for one beyond it."""
    months = MONTHS[name]
    return _later(_date(days.low), int(count.low) * months), _later(_date(days.high), int(count.high) * months)


def _age(born: date, day: date) -> int:
    return day.year - born.year - ((day.month, day.day) < (born.month, born.day))


def _later(day: date, months: int) -> int:
    year, month = divmod(day.year * 12 + day.month - 1 + months, 12)
    if not date.min.year <= year <= date.max.year:
        return (date.min if months < 0 else date.max).toordinal()
    return date(year, month + 1, min(day.day, monthrange(year, month + 1)[1])).toordinal()


def _date(number: Number) -> date:
    return date.fromordinal(int(number))
