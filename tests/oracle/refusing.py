"""Which tables, and which uses of them, refuse a dictionary that has no other fault: by the rules of docs/DICTIONARIES.md, sentence by
sentence."""

from __future__ import annotations

import re
from collections.abc import Iterator
from typing import Any

from .values import Value, read

NAME = re.compile("[A-Za-z][A-Za-z0-9_-]{0,63}")
KEYS = {"name", "from", "to", "rows", "else"}
KEYED_BY = ("Int", "Dollar", "Day")
SCALARS = ("Boolean", "Int", "Dollar", "Rational", "Day", "Text")
MOST_TABLES, MOST_ROWS = 100, 1_000

Options = dict[str, list[str]]


def refused(dictionary: dict[str, Any]) -> str | None:
    """The line of the fault that tables make, or None where they make none. The types of operands aren't judged."""
    options: Options = {enum["name"]: enum["options"] for enum in dictionary.get("enums", [])}
    tables = dictionary.get("tables", [])
    if "tables" in dictionary and not (dictionary["version"] == "law-1" and are_tables(tables, options)):
        return "dictionary refused 3 Shape fact 0"
    names = [table["name"] for table in tables]
    for number, fact in enumerate(dictionary["facts"], 1):
        if not all(is_of_law(dictionary) and is_lookup(node, names) for node in lookups(fact)):
            return f"dictionary refused 3 Shape fact {number}"
    return None


def is_of_law(dictionary: dict[str, Any]) -> bool:
    """Whether the version is the one that has tables."""
    return bool(dictionary["version"] == "law-1")


def are_tables(tables: Any, options: Options) -> bool:
    """A list of at most 100 tables, no two of one name."""
    if not isinstance(tables, list) or len(tables) > MOST_TABLES or not all(is_table(table, options) for table in tables):
        return False
    return len({table["name"] for table in tables}) == len(tables)


def is_table(table: Any, options: Options) -> bool:
    """An object with the keys that a table has, each as it has to be."""
    if not isinstance(table, dict) or not KEYS <= set(table) <= KEYS | {"description"}:
        return False
    texts = [table[key] for key in table if key != "rows"]
    if not all(isinstance(text, str) for text in texts) or not NAME.fullmatch(table["name"]):
        return False
    if table["from"] not in KEYED_BY or not (table["to"] in SCALARS or of_enum(table["to"]) in options):
        return False
    return value_of(table, options, table["else"]) is not None and are_rows(table, options)


def are_rows(table: dict[str, Any], options: Options) -> bool:
    """A list of at most 1,000 pairs of texts, of a key and a value; each key is above the one before it."""
    rows = table["rows"]
    if not isinstance(rows, list) or len(rows) > MOST_ROWS:
        return False
    if not all(isinstance(row, list) and len(row) == 2 and all(isinstance(text, str) for text in row) for row in rows):
        return False
    keys = [read(table["from"], [], key) for key, _ in rows]
    if None in keys or None in [value_of(table, options, value) for _, value in rows]:
        return False
    orders = [key.order for key in keys if key]
    return all(one < other for one, other in zip(orders, orders[1:]))  # type: ignore[operator]  # all of one type


def of_enum(stated: str) -> str:
    """The list of options of which a type is; an empty text, which is no name, where it is of none."""
    return stated[5:-1] if stated.startswith("Enum(") and stated.endswith(")") else ""


def value_of(table: dict[str, Any], options: Options, text: str) -> Value | None:
    """The value that a text spells of the table's type."""
    return read(table["to"].partition("(")[0], options.get(of_enum(table["to"]), []), text)


def lookups(part: Any) -> Iterator[list[Any]]:
    """The Lookups in a fact, or in a part of it. A list whose first text is that name is one, but for a pair of a limit."""
    if isinstance(part, list) and part[:1] == ["Lookup"]:
        yield part
    for inner in part.values() if isinstance(part, dict) else part if isinstance(part, list) else ():
        yield from lookups(inner)


def is_lookup(node: list[Any], names: list[str]) -> bool:
    """The name of a table, and one operand."""
    return len(node) == 3 and node[1] in names and isinstance(node[2], list)
