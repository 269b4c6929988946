"""Values of facts: as Python has them, and as texts.

| Type                     | In Python         |
|--------------------------|-------------------|
| Boolean                  | bool              |
| Int                      | int               |
| Dollar                   | decimal.Decimal   |
| Rational                 | fractions.Fraction|
| Day                      | datetime.date     |
| Text, Enum               | str               |
| Collection               | tuple of the members' numbers |
| Item                     | int, the member's number |
"""

from __future__ import annotations

from collections.abc import Callable
from datetime import date, datetime
from decimal import Context, Decimal, InvalidOperation
from fractions import Fraction
from typing import Literal, NamedTuple, Union, get_args

Answer = Union[bool, int, Decimal, Fraction, date, str]
Value = Union[Answer, tuple[int, ...]]
Kind = Literal["complete", "placeholder", "incomplete", "fault"]

KINDS: dict[str, Kind] = {kind: kind for kind in get_args(Kind)}
CENT = Decimal("0.01")
OF_AMOUNTS = Context(prec=40)


class Result(NamedTuple):
    """What a fact comes to.

    `kind` is `complete`, where the value rests on answers alone; `placeholder`, where a value stands in for an answer;
    `incomplete`, where an answer is missing; or `fault`. `value` is None for the last two, and `fault` is `overflow` or
    `zero-divide` for the last and else None.

    >>> Result("complete", Decimal("1240.50"))
    Result(kind='complete', value=Decimal('1240.50'), fault=None)
    >>> Result("fault", None, "overflow").value is None
    True
    """

    kind: Kind
    value: Value | None = None
    fault: str | None = None


def text_of(value: Answer) -> str:
    """The text of a value that is set or overridden. A str is a text already, whatever the type of the fact.

    >>> text_of(Decimal("2.5")), text_of(Fraction(2, 6)), text_of(date(2024, 2, 29)), text_of(True), text_of("rents")
    ('2.50', '1/3', '2024-02-29', 'true', 'rents')
    """
    if isinstance(value, str):
        return str.__str__(value)
    if isinstance(value, bool):
        return "true" if value else "false"
    if isinstance(value, int):
        return text_of_int(value)
    if isinstance(value, Decimal):
        return text_of_amount(value)
    if isinstance(value, Fraction):
        return f"{text_of_int(value.numerator)}/{text_of_int(value.denominator)}"
    if isinstance(value, date) and not isinstance(value, datetime):
        return value.isoformat()
    raise TypeError(f"no fact has a value like {value!r}")


def text_of_int(value: int) -> str:
    """All its digits. There is no limit to their number here, since the session refuses what is too long.

    >>> text_of_int(-5), len(text_of_int(10**5000))
    ('-5', 5001)
    """
    try:
        return int.__repr__(value)
    except ValueError:
        return f"{Decimal(value):f}"


def text_of_amount(value: Decimal) -> str:
    """With two digits of cents, where that is the same amount; the session refuses others.

    >>> text_of_amount(Decimal("1E+3")), text_of_amount(Decimal("1.999"))
    ('1000.00', '1.999')
    """
    text = Decimal.__str__(value)
    if text[-3:-2] == ".":
        return text
    try:
        cents = value.quantize(CENT, context=OF_AMOUNTS)
    except InvalidOperation:
        return text
    return str(cents) if cents == value else text


def text_of_any(value: Value, kind: str) -> str:
    """The text of any value, also of one that can't be set, by the name of its type.

    >>> text_of_any((1, 3), "Collection"), text_of_any(2, "Item"), text_of_any(2, "Int")
    ('[#1 #3]', '#2', '2')
    """
    if isinstance(value, tuple):
        return "[" + " ".join(f"#{member}" for member in value) + "]"
    return f"#{value}" if kind == "Item" else text_of(value)


def said(result: Result, kind: str) -> str:
    """A result as a session says it, by the name of its type.

    >>> said(Result("complete", Decimal("5.00")), "Dollar"), said(Result("incomplete"), "Day"), said(Result("fault", None, "overflow"), "Int")
    ('complete 5.00', 'incomplete', 'fault overflow')
    """
    text = result.fault if result.value is None else text_of_any(result.value, kind)
    return result.kind if text is None else f"{result.kind} {text}"


def _fraction(text: str) -> Fraction:
    numerator, _, denominator = text.partition("/")
    return Fraction(int(numerator), int(denominator))


def _members(text: str) -> tuple[int, ...]:
    return tuple(int(member[1:]) for member in text[1:-1].split())


def _is_true(text: str) -> bool:
    return text == "true"


def _member(text: str) -> int:
    return int(text[1:])


READERS: dict[str, Callable[[str], Value]] = {
    "Boolean": _is_true,
    "Int": int,
    "Dollar": Decimal,
    "Rational": _fraction,
    "Day": date.fromisoformat,
    "Text": str,
    "Enum": str,
    "Collection": _members,
    "Item": _member,
}
"""By the name of a type, what reads the texts that a session prints of its values."""
