"""Which texts are values of a type, in a dictionary and in a script, and by what number they are ordered.

    >>> misspelt("Dollar", "2.5")
    'a Dollar is an optional `-`, 1 to 13 digits, and a point with exactly two digits or neither'
    >>> misspelt("Dollar", "2.50")
"""

from __future__ import annotations

import re
import unicodedata
from datetime import date
from fractions import Fraction
from math import gcd
from typing import Union

Number = Union[int, Fraction]

RULES = {
    "Boolean": "a Boolean is `true` or `false`",
    "Int": "an Int is an optional `-` and 1 to 15 digits",
    "Dollar": "a Dollar is an optional `-`, 1 to 13 digits, and a point with exactly two digits or neither",
    "Rational": "a Rational is an optional `-`, 1 to 15 digits, and a `/` with 1 to 15 digits or neither",
    "Day": "a Day is `YYYY-MM-DD`, from 1800-01-01 to 2199-12-31",
    "Text": "a Text has at most 1,000 bytes, and no control characters",
}
"""How the values of each type are written."""

MOST_IN_LOWEST_TERMS = 1_000_000_000_000
MOST_BYTES = 1_000
INT = re.compile("-?[0-9]{1,15}")
DOLLAR = re.compile(r"-?[0-9]{1,13}(\.[0-9]{2})?")
RATIONAL = re.compile("-?([0-9]{1,15})(?:/([0-9]{1,15}))?")
DAY = re.compile("[0-9]{4}-[0-9]{2}-[0-9]{2}")


def misspelt(kind: str, text: str) -> str | None:
    """Why a text is no value of this type, or None where it is one."""
    reasons = {"Int": _int, "Dollar": _dollar, "Rational": _rational, "Day": _day, "Text": _text, "Boolean": _boolean}
    return reasons[kind](text)


def number_of(kind: str, text: str) -> Number:
    """The number of a value of an ordered type, by its text: of an amount its cents, of a day its place in the calendar.

    >>> number_of("Dollar", "-0.50"), number_of("Rational", "2/4"), number_of("Int", "007")
    (-50, Fraction(1, 2), 7)
    """
    if kind == "Day":
        return date.fromisoformat(text).toordinal()
    if kind == "Dollar":
        return int(Fraction(text) * 100)
    return Fraction(text) if kind == "Rational" else int(text)


def _boolean(text: str) -> str | None:
    return None if text in ("true", "false") else RULES["Boolean"]


def _int(text: str) -> str | None:
    return None if INT.fullmatch(text) else RULES["Int"]


def _dollar(text: str) -> str | None:
    return None if DOLLAR.fullmatch(text) else RULES["Dollar"]


def _rational(text: str) -> str | None:
    found = RATIONAL.fullmatch(text)
    if not found:
        return RULES["Rational"]
    above, below = int(found[1]), int(found[2] or 1)
    if below == 0:
        return "a Rational has no denominator 0"
    divisor = gcd(above, below)
    if max(above, below) // divisor <= MOST_IN_LOWEST_TERMS:
        return None
    return f"in lowest terms a Rational has no number above {MOST_IN_LOWEST_TERMS:,}"


def _day(text: str) -> str | None:
    if not DAY.fullmatch(text):
        return RULES["Day"]
    try:
        day = date.fromisoformat(text)
    except ValueError:
        return f"there is no day {text}"
    return None if 1800 <= day.year <= 2199 else RULES["Day"]


def _text(text: str) -> str | None:
    if len(text.encode()) > MOST_BYTES:
        return f"{RULES['Text']}; this has {len(text.encode()):,} bytes"
    return RULES["Text"] if any(unicodedata.category(it) == "Cc" for it in text) else None
