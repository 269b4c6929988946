"""Values of facts, their texts, and exact arithmetic over them."""

from __future__ import annotations

import re
from collections.abc import Callable, Sequence
from datetime import date, timedelta
from fractions import Fraction
from math import ceil, floor
from typing import NamedTuple, Union

Content = Union[bool, int, Fraction, date, str, tuple[int, ...]]


class Value(NamedTuple):
    """A value: the word of its type, and what it is. An amount is a whole number of cents."""

    kind: str
    content: Content

    @property
    def number(self) -> Fraction:
        """The content of an Int, a Dollar or a Rational."""
        assert isinstance(self.content, (int, Fraction))
        return Fraction(self.content)

    @property
    def day(self) -> date:
        """The content of a Day."""
        assert isinstance(self.content, date)
        return self.content

    @property
    def members(self) -> tuple[int, ...]:
        """The content of a Collection."""
        assert isinstance(self.content, tuple)
        return self.content

    @property
    def order(self) -> Fraction | date:
        """By what values of one type are ordered."""
        return self.day if self.kind == "Day" else self.number

    def __str__(self) -> str:
        return SHOWN.get(self.kind, str)(self.content)


class Faulty(Exception):
    """An operation has no value: `overflow` or `zero-divide`."""


TRUE, FALSE = Value("Boolean", True), Value("Boolean", False)
MOST = 10**15 - 1
MOST_OF_RATIONAL = 10**12
FIRST_DAY, LAST_DAY = date(1800, 1, 1), date(2199, 12, 31)
MOST_BYTES = 1_000


# ---- texts


def _amount(content: Content) -> str:
    assert isinstance(content, int)
    return f"{'-' if content < 0 else ''}{abs(content) // 100}.{abs(content) % 100:02}"


def _ratio(content: Content) -> str:
    assert isinstance(content, Fraction)
    return f"{content.numerator}/{content.denominator}"


def _list(content: Content) -> str:
    assert isinstance(content, tuple)
    return "[" + " ".join(f"#{member}" for member in content) + "]"


SHOWN: dict[str, Callable[[Content], str]] = {
    "Boolean": lambda content: "true" if content else "false",
    "Dollar": _amount,
    "Rational": _ratio,
    "Collection": _list,
    "Item": lambda content: f"#{content}",
}


def read(kind: str, options: Sequence[str], text: str) -> Value | None:
    """The value that a text spells; None where it spells none."""
    if kind == "Boolean":
        return {"true": TRUE, "false": FALSE}.get(text)
    if kind == "Text":
        return None if len(text.encode()) > MOST_BYTES or re.search("[\x00-\x1f\x7f-\x9f]", text) else Value(kind, text)
    if kind == "Enum":
        return Value(kind, text) if text in options else None
    if kind == "Day":
        return _read_day(text)
    return _read_number(kind, text)


FORMS = {
    "Int": re.compile(r"(-?)([0-9]{1,15})"),
    "Dollar": re.compile(r"(-?)([0-9]{1,13})(?:\.([0-9]{2}))?"),
    "Rational": re.compile(r"(-?)([0-9]{1,15})(?:/([0-9]{1,15}))?"),
}


def _read_number(kind: str, text: str) -> Value | None:
    found = FORMS[kind].fullmatch(text)
    if not found:
        return None
    sign, whole, *rest = found.groups()
    if kind == "Int":
        number = Fraction(int(whole))
    elif kind == "Dollar":
        number = Fraction(int(whole + (rest[0] or "00")))
    else:
        below = int(rest[0] or "1")
        if not below:
            return None
        number = Fraction(int(whole), below)
    try:
        return within(kind, -number if sign else number)
    except Faulty:
        return None


def _read_day(text: str) -> Value | None:
    if not re.fullmatch("[0-9]{4}-[0-9]{2}-[0-9]{2}", text):
        return None
    try:
        day = date(*map(int, text.split("-")))
    except ValueError:
        return None
    return Value("Day", day) if FIRST_DAY <= day <= LAST_DAY else None


# ---- arithmetic


def within(kind: str, number: Fraction) -> Value:
    """The number as a value of the type, an amount rounded to the cent; a fault where it is out of the range."""
    if kind == "Rational":
        if max(abs(number.numerator), number.denominator) > MOST_OF_RATIONAL:
            raise Faulty("overflow")
        return Value(kind, number)
    whole = rounded(number)
    if abs(whole) > MOST:
        raise Faulty("overflow")
    return Value(kind, whole)


def rounded(number: Fraction) -> int:
    """The nearest whole number, half away from zero."""
    whole = floor(abs(number) + Fraction(1, 2))
    return -whole if number < 0 else whole


def add(operands: Sequence[Value]) -> Value:
    """The sum."""
    return within(operands[0].kind, sum((value.number for value in operands), Fraction(0)))


def subtract(operands: Sequence[Value]) -> Value:
    """The first less the sum of the rest."""
    first, *rest = operands
    return within(first.kind, first.number - sum((value.number for value in rest), Fraction(0)))


def multiply(operands: Sequence[Value]) -> Value:
    """The product: an amount where one of the two is an amount."""
    one, other = operands
    kinds = {one.kind, other.kind}
    return within("Dollar" if "Dollar" in kinds else "Int" if kinds == {"Int"} else "Rational", one.number * other.number)


def divide(operands: Sequence[Value]) -> Value:
    """The quotient: an amount of an amount by a number, and else a ratio."""
    one, other = operands
    if not other.number:
        raise Faulty("zero-divide")
    return within("Dollar" if one.kind == "Dollar" != other.kind else "Rational", one.number / other.number)


def round_amount(operands: Sequence[Value]) -> Value:
    """An amount in whole dollars."""
    return within("Dollar", Fraction(rounded(operands[0].number / 100) * 100))


def year_of(operands: Sequence[Value]) -> Value:
    """The year of a day."""
    return Value("Int", operands[0].day.year)


def add_days(operands: Sequence[Value]) -> Value:
    """The day so many days later."""
    try:
        day = operands[0].day + timedelta(days=int(operands[1].number))
    except OverflowError:
        raise Faulty("overflow") from None
    if not FIRST_DAY <= day <= LAST_DAY:
        raise Faulty("overflow")
    return Value("Day", day)


def month_of(operands: Sequence[Value]) -> Value:
    """The month of a day, from 1 to 12."""
    return Value("Int", operands[0].day.month)


def day_of(operands: Sequence[Value]) -> Value:
    """The place of a day in its month, from 1."""
    return Value("Int", operands[0].day.day)


def add_months(operands: Sequence[Value]) -> Value:
    """The day with the same number so many months later, or the last of that month where it has no such day."""
    return in_month(operands[0].day, operands[0].day.month + int(operands[1].number))


def add_years(operands: Sequence[Value]) -> Value:
    """The same so many years later."""
    return in_month(operands[0].day, operands[0].day.month + 12 * int(operands[1].number))


def in_month(day: date, month: int) -> Value:
    """A day's number in a month that is counted from January of the day's year, or the last of that month."""
    year = day.year + (month - 1) // 12
    if not FIRST_DAY.year <= year <= LAST_DAY.year:
        raise Faulty("overflow")
    first = date(year, (month - 1) % 12 + 1, 1)
    days = (first + timedelta(days=at) for at in range(31))
    return Value("Day", [it for it in days if it.month == first.month and it.day <= day.day][-1])


def days_between(operands: Sequence[Value]) -> Value:
    """The days from the first to the second."""
    return Value("Int", (operands[1].day - operands[0].day).days)


def age_on(operands: Sequence[Value]) -> Value:
    """The last birthday that has come by the second day: at birth it is 0, and those before birth are counted down."""
    born, day = (operand.day for operand in operands)
    return Value("Int", max(years for years in range(-400, 401) if has_come(born, years, day)))


def has_come(born: date, years: int, day: date) -> bool:
    """Whether the birthday of so many years has come by a day. Where its year has no 29 February it is on 1 March."""
    try:
        return born.replace(year=born.year + years) <= day
    except ValueError:
        return date(born.year + years, 3, 1) <= day


def to_multiple(times: Callable[[Fraction], int]) -> Callable[[Sequence[Value]], Value]:
    """Rounding to a multiple of an amount: how many times it is taken is a whole number made of the exact one."""

    def rounded_to(operands: Sequence[Value]) -> Value:
        number, unit = operands
        if unit.number <= 0:
            raise Faulty("zero-divide")
        cents = number.number * 100 if number.kind == "Rational" else number.number
        return within("Dollar", times(cents / unit.number) * unit.number)

    return rounded_to


def boolean(is_so: bool) -> Value:
    """A Boolean."""
    return TRUE if is_so else FALSE


STRICT: dict[str, Callable[[Sequence[Value]], Value]] = {
    "Not": lambda them: boolean(not them[0].content),
    "Add": add,
    "Subtract": subtract,
    "Multiply": multiply,
    "Divide": divide,
    "Round": round_amount,
    "YearOf": year_of,
    "MonthOf": month_of,
    "DayOf": day_of,
    "AddDays": add_days,
    "AddMonths": add_months,
    "AddYears": add_years,
    "DaysBetween": days_between,
    "AgeOn": age_on,
    "RoundUp": to_multiple(ceil),
    "RoundDown": to_multiple(floor),
    "RoundNearest": to_multiple(rounded),
    "Equal": lambda them: boolean(them[0] == them[1]),
    "NotEqual": lambda them: boolean(them[0] != them[1]),
    "LessThan": lambda them: boolean(them[0].order < them[1].order),  # type: ignore[operator]  # of one type
    "LessThanOrEqual": lambda them: boolean(them[0].order <= them[1].order),  # type: ignore[operator]  # of one type
    "GreaterThan": lambda them: boolean(them[0].order > them[1].order),  # type: ignore[operator]  # of one type
    "GreaterThanOrEqual": lambda them: boolean(them[0].order >= them[1].order),  # type: ignore[operator]  # of one type
    "GreaterOf": lambda them: max(them, key=lambda value: value.order),
    "LesserOf": lambda them: min(them, key=lambda value: value.order),
}
"""By the name of a node that waits for all its operands, what it makes of them."""
