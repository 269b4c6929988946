"""Tables as large as they may be, and larger by one."""
import json
from collections.abc import Iterable, Iterator
from datetime import date, timedelta

from stored_cases import Made

Row = tuple[str, str]
MOST_ROWS, MOST_TABLES = 1_000, 100
REFUSED = b"dictionary refused 3 Shape fact 0\n"
STEP = 3
FIRST = date(2000, 2, 28)


def table(name: str, keys: str, rows: Iterable[Row]) -> dict[str, object]:
    """A table whose values are whole numbers."""
    return {"name": name, "from": keys, "to": "Int", "rows": list(rows), "else": "-1"}


def by_number(rows: int) -> dict[str, object]:
    """So many rows, three apart: that of 3 times K comes to K."""
    return table("t", "Int", ((str(STEP * row), str(row)) for row in range(rows)))


def by_amount(rows: int) -> dict[str, object]:
    """The same, three cents apart."""
    return table("t", "Dollar", ((cents(STEP * row), str(row)) for row in range(rows)))


def by_day(rows: int) -> dict[str, object]:
    """The same, three days apart."""
    return table("t", "Day", ((str(FIRST + timedelta(STEP * row)), str(row)) for row in range(rows)))


def cents(number: int) -> str:
    """An amount of so many cents."""
    return f"{'-' if number < 0 else ''}{abs(number) // 100}.{abs(number) % 100:02}"


def dictionary(*tables: dict[str, object], keys: str = "Int") -> bytes:
    """The tables, with a fact that reads the table `t` for an answer."""
    facts = [{"path": "/key", "writable": keys}, {"path": "/row", "derived": "Int", "is": ["Lookup", "t", ["Dependency", "/key"]]}]
    return json.dumps({"version": "law-1", "tables": tables, "facts": facts}).encode()


def each_row(rows: int, texts: Iterable[str]) -> tuple[bytes, bytes]:
    """A script that asks for what is three before the first key, and for all that follows up to three behind the last, and the replies."""
    due = [max(number // STEP, -1) for number in range(-STEP, STEP * rows)]
    due += [rows - 1] * STEP
    script = "".join(f"set /key {text}\nget /row\n" for text in texts)
    return script.encode(), "".join(f"ok\ncomplete {row}\n" for row in due).encode()


def numbers(rows: int) -> range:
    """What is asked for."""
    return range(-STEP, STEP * rows + STEP)


def cases() -> Iterator[Made]:
    """Each row of a thousand, by each kind of key, and how many rows and tables there may be."""
    yield "each of a thousand rows", "run d", dictionary(by_number(MOST_ROWS)), *each_row(MOST_ROWS, map(str, numbers(MOST_ROWS))), 0
    for rows in (1, 2, 3, 4, 5, 7, 8, 9):
        yield f"each of {rows} rows", "run d", dictionary(by_number(rows)), *each_row(rows, map(str, numbers(rows))), 0
    amounts = dictionary(by_amount(MOST_ROWS), keys="Dollar")
    yield "each of a thousand rows, by amounts", "run d", amounts, *each_row(MOST_ROWS, map(cents, numbers(MOST_ROWS))), 0
    days = (str(FIRST + timedelta(number)) for number in numbers(MOST_ROWS))
    yield "each of a thousand rows, by days", "run d", dictionary(by_day(MOST_ROWS), keys="Day"), *each_row(MOST_ROWS, days), 0
    yield "a thousand and one rows", "check d", dictionary(by_number(MOST_ROWS + 1)), b"", REFUSED, 1
    full = [by_number(MOST_ROWS) | {"name": f"t{at}"} for at in range(1, MOST_TABLES)]
    yield "a hundred tables of a thousand rows", "check d", dictionary(by_number(MOST_ROWS), *full), b"", b"dictionary accepted 2 facts 2 nodes\n", 0
    small = [table(f"t{at}", "Int", []) for at in range(1, MOST_TABLES + 1)]
    yield "a hundred tables", "check d", dictionary(by_number(1), *small[1:]), b"", b"dictionary accepted 2 facts 2 nodes\n", 0
    yield "a hundred and one tables", "check d", dictionary(by_number(1), *small), b"", REFUSED, 1
    twice = by_number(MOST_ROWS)
    twice["rows"] = [(str(STEP * row), str(row)) for row in range(MOST_ROWS - 1)] + [(str(STEP * (MOST_ROWS - 2)), "0")]
    yield "a thousand rows, the last of which has the key before it", "check d", dictionary(twice), b"", REFUSED, 1
