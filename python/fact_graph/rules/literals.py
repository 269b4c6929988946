"""Constants as people write them: `$1,500.00`, `10%` and `2024-02-29` for the texts of a dictionary.

A text that has no such form, as `007` of an amount, is written in quotes behind its type.
"""

from __future__ import annotations

import json
import re

NAME = re.compile(r"[A-Za-z][A-Za-z0-9_-]*")
PATH = re.compile(r"(\.\.)?(/([A-Za-z][A-Za-z0-9_-]*|\*))+")
CONSTANTS = ("Int", "Dollar", "Rational", "Day")
"""The types whose constants may be written in quotes behind them, so that no name stands before quotes where one of these is."""
RESERVED = frozenset((*"if then otherwise and or not is complete where true false days except placeholder".split(), *CONSTANTS, "Enum", "Lookup"))
"""The words that no name in an expression has."""

AMOUNT = re.compile(r"(-?)(0|[1-9][0-9]*)((?:\.[0-9]{2})?)")
HUNDREDTHS = re.compile(r"(-?(?:0|[1-9][0-9]*))/100")
PLAIN = {
    "Int": re.compile(r"-?[0-9]+"),
    "Rational": re.compile(r"-?[0-9]+/[0-9]+"),
    "Day": re.compile(r"[0-9]{4}-[0-9]{2}-[0-9]{2}"),
}
TYPES = {"INT": "Int", "DOLLAR": "Dollar", "FRACTION": "Rational", "PERCENT": "Rational", "DAY": "Day"}
"""The type of each kind of constant that the grammar knows."""


def written(kind: str, text: str) -> str | None:
    """The short form of a constant, or None where its text has none.

    >>> written("Dollar", "-18000.50"), written("Rational", "12/100"), written("Dollar", "007")
    ('-$18,000.50', '12%', None)
    """
    if kind == "Dollar":
        amount = AMOUNT.fullmatch(text)
        return f"{amount[1]}${int(amount[2]):,}{amount[3]}" if amount else None
    hundredths = HUNDREDTHS.fullmatch(text) if kind == "Rational" else None
    if hundredths:
        return f"{hundredths[1]}%"
    return text if PLAIN[kind].fullmatch(text) else None


def read(kind: str, form: str) -> str:
    """The text of a constant, from its kind in the grammar and its short form.

    >>> read("DOLLAR", "-$18,000.50"), read("PERCENT", "12%")
    ('-18000.50', '12/100')
    """
    if kind == "DOLLAR":
        return form.replace("$", "").replace(",", "")
    return f"{form[:-1]}/100" if kind == "PERCENT" else str(form)


def quoted(text: str, mark: str = '"') -> str:
    r"""A text in quotes, escaped as JSON escapes it, and so that each character of it is seen.

    >>> print(quoted('say "a\u202eb"'))
    "say \"a\u202eb\""
    """
    inside = json.dumps(text, ensure_ascii=False)[1:-1].replace("`", "`" if mark == '"' else r"\u0060")
    return mark + "".join(it if it.isprintable() else json.dumps(it)[1:-1] for it in inside) + mark


def unquoted(form: str) -> str:
    r"""The text of what stands in quotes. Raises ValueError where a backslash stands before what it can't stand before.

    >>> unquoted(r'"a\nb"')
    'a\nb'
    """
    text: str = json.loads(f'"{form[1:-1]}"', strict=False)
    return text
