"""Faults of tables: what of one has no form, and which row doesn't fit."""

from __future__ import annotations

import re
from collections.abc import Iterator
from typing import Any, NamedTuple

from ..constants import Number, misspelt, number_of
from ..expressions import LAW
from ..located import Pointer
from .finding import Finding, listed, nearest, shown
from .parts import expect_keys, expect_name, expect_text, kind_of, misform, options_of

KEYS = ("name", "from", "to", "rows", "else", "description")
KEYED_BY = ("Int", "Dollar", "Day")
"""The types by which a table may go."""
SCALARS = ("Boolean", "Int", "Dollar", "Rational", "Day", "Text")
ENUM = re.compile(r"Enum\((.*)\)", re.DOTALL)
EXAMPLE = '{"name":"mostAid","from":"Int","to":"Dollar","rows":[["1","291"]],"else":"0"}'
MOST_TABLES, MOST_ROWS = 100, 1_000

Options = dict[str, tuple[str, ...]]


class TableType(NamedTuple):
    """The types of a table: of its keys, and of its values."""

    keys: str
    values: str


def table_types(value: dict[str, Any]) -> dict[str, TableType]:
    """The tables of a dictionary by their names, as far as their types are known."""
    tables = value.get("tables")
    found: dict[str, TableType] = {}
    for table in tables if isinstance(tables, list) else []:
        if isinstance(table, dict) and isinstance(table.get("name"), str):
            keys, values = (it if isinstance(it, str) else "" for it in (table.get("from"), table.get("to")))
            found.setdefault(table["name"], TableType(keys if keys in KEYED_BY else "", values))
    return found


def misformed_tables(value: dict[str, Any]) -> Iterator[Finding]:
    """What of the tables of a dictionary has no form."""
    if "tables" not in value:
        return
    if value.get("version") != LAW:
        yield misform(("tables",), f"`tables` is of version {LAW}", f'write "version":"{LAW}"', is_key=True, related=(("version",),))
        return
    tables = value["tables"]
    if not isinstance(tables, list):
        yield misform(("tables",), f"the tables are a list, and this is {kind_of(tables)}", f'"tables":[{EXAMPLE}]')
        return
    if len(tables) > MOST_TABLES:
        yield misform(("tables", MOST_TABLES), f"{len(tables):,} tables, and there may be {MOST_TABLES}: here is the first too many")
    named: dict[str, int] = {}
    for at, table in enumerate(tables):
        if not isinstance(table, dict):
            yield misform(("tables", at), f"a table is an object in braces, and this is {kind_of(table)}", EXAMPLE)
            continue
        yield from _Table(table, ("tables", at), options_of(value)).faults()
        name = table.get("name")
        if isinstance(name, str) and named.setdefault(name, at) != at:
            yield misform(("tables", at, "name"), f"an earlier table is named `{name}`, too", related=(("tables", named[name], "name"),))


class _Table:
    """Looks through one table."""

    def __init__(self, stated: dict[str, Any], pointer: Pointer, options: Options) -> None:
        self.stated = stated
        self.pointer = pointer
        self.options = options
        name = stated.get("name")
        self.called = f"the table `{name}`" if isinstance(name, str) else "this table"

    def faults(self) -> Iterator[Finding]:
        """What has no form."""
        yield from expect_keys(self.stated, self.pointer, KEYS, KEYS[:-1], "a table")
        if "name" in self.stated:
            yield from expect_name(self.stated["name"], (*self.pointer, "name"), "the name of a table")
        yield from expect_text(self.stated.get("description", ""), (*self.pointer, "description"), "a description")
        yield from self._keyed_by()
        yield from self._gives()
        if "else" in self.stated:
            yield from self._value(self.stated["else"], (*self.pointer, "else"), "what stands below the first row")
        if "rows" in self.stated:
            yield from self._rows(self.stated["rows"], (*self.pointer, "rows"))

    def _keyed_by(self) -> Iterator[Finding]:
        keys, pointer = self.stated.get("from", KEYED_BY[0]), (*self.pointer, "from")
        yield from expect_text(keys, pointer, "the type of the keys")
        if isinstance(keys, str) and keys not in KEYED_BY:
            yield misform(pointer, f"a table has keys of the type {listed(KEYED_BY)}, and not {shown(keys)}")

    def _gives(self) -> Iterator[Finding]:
        values, pointer = self.stated.get("to", SCALARS[0]), (*self.pointer, "to")
        yield from expect_text(values, pointer, "the type of the values")
        if not isinstance(values, str) or values in SCALARS:
            return
        enum = ENUM.fullmatch(values)
        if not enum:
            yield misform(pointer, f"a table has no values of the type {shown(values)}", f"types are {listed((*SCALARS, 'Enum(..)'), 'and')}")
        elif enum[1] not in self.options:
            like = nearest(enum[1], self.options)
            yield misform(pointer, f"no list of options is named `{enum[1]}`", f"`{like}` is like it" if like else "")

    def _rows(self, rows: Any, pointer: Pointer) -> Iterator[Finding]:
        if not isinstance(rows, list):
            yield misform(pointer, f"the rows are a list of pairs, and this is {kind_of(rows)}", '[["1","291"],["2","535"]]')
            return
        if len(rows) > MOST_ROWS:
            yield misform((*pointer, MOST_ROWS), f"{self.called} has {len(rows):,} rows, and there may be {MOST_ROWS:,}: here is the first too many")
        before: Number | None = None
        for at, row in enumerate(rows):
            here = (*pointer, at)
            if not isinstance(row, list) or len(row) != 2:
                yield misform(here, f"a row is a pair of a key and a value, and this is {shown(row)}", '["1","291"]')
                continue
            wrong = list(self._key(row[0], (*here, 0), at + 1))
            yield from wrong
            yield from self._value(row[1], (*here, 1), f"the value of row no. {at + 1}")
            number = number_of(self.stated["from"], row[0]) if not wrong and self.stated.get("from") in KEYED_BY else None
            if before is not None and number is not None and number <= before:
                reason = f"the key {row[0]} of row no. {at + 1} of {self.called} isn't above the one before it, {rows[at - 1][0]}"
                yield misform((*here, 0), reason, "put the rows in the order of their keys, each key once", related=((*pointer, at - 1, 0),))
            before = number

    def _key(self, key: Any, pointer: Pointer, row: int) -> Iterator[Finding]:
        yield from expect_text(key, pointer, f"the key of row no. {row}")
        keys = self.stated.get("from")
        wrong = misspelt(keys, key) if isinstance(key, str) and keys in KEYED_BY else None
        if wrong:
            yield misform(pointer, f"the key of row no. {row} of {self.called} is no {keys}: {wrong}", related=((*self.pointer, "from"),))

    def _value(self, value: Any, pointer: Pointer, what: str) -> Iterator[Finding]:
        yield from expect_text(value, pointer, what)
        values = self.stated.get("to")
        if not isinstance(value, str) or not isinstance(values, str):
            return
        enum = ENUM.fullmatch(values)
        related = ((*self.pointer, "to"),)
        if values in SCALARS:
            wrong = misspelt(values, value)
            if wrong:
                yield misform(pointer, f"{what} of {self.called} is no {values}: {wrong}", related=related)
        elif enum and value not in self.options.get(enum[1], (value,)):
            options = self.options[enum[1]]
            like = nearest(value, options)
            hint = f"`{like}` is like it" if like else f"it has {listed(options, 'and') if options else 'none'}"
            yield misform(pointer, f"{what} of {self.called} is {shown(value)}, and the list `{enum[1]}` has no such option", hint, related=related)
