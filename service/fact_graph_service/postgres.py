"""PostgreSQL by the calls of libpq: a statement is prepared once on each connection, and goes there and back in one way.

A cursor of psycopg does so too, in more than twice the time of the processor.
"""

from __future__ import annotations

from collections.abc import Callable
from typing import Any, NamedTuple

import psycopg
from psycopg.pq import ConnStatus, DiagnosticField, ExecStatus
from psycopg.pq.abc import PGresult

BYTES, BIGINT, INTEGER, TEXT = 17, 20, 23, 25
"""The numbers of PostgreSQL's types."""


class Rows:
    """What a statement gave."""

    def __init__(self, rows: list[tuple[Any, ...]], count: int) -> None:
        self._rows, self.rowcount = rows, count

    def fetchone(self) -> tuple[Any, ...] | None:
        """The first row, where there is one."""
        return self._rows[0] if self._rows else None

    def fetchall(self) -> list[tuple[Any, ...]]:
        """All rows."""
        return self._rows


class Prepared(NamedTuple):
    """A statement that a connection knows."""

    name: bytes
    readers: list[Callable[[bytes], Any]]
    """What reads the values of each column."""


class Connection:
    """A connection, on which each statement is a transaction of its own where none was begun. What fails raises `psycopg.Error`."""

    def __init__(self, place: str, **parameters: Any) -> None:
        self._connection = psycopg.connect(place, autocommit=True, client_encoding="utf8", **parameters)
        self._libpq = self._connection.pgconn
        self._prepared: dict[str, Prepared] = {}

    @property
    def closed(self) -> bool:
        """Whether the connection is there no more."""
        return self._libpq.status == ConnStatus.BAD

    def close(self) -> None:
        """Ends the connection."""
        self._connection.close()

    def execute(self, statement: str, values: tuple[bytes | str | int, ...] = ()) -> Rows:
        """Runs a statement, whose values are `?1` and so on. Without values it may be several, and their rows are empty."""
        if not values:
            return Rows([()] * _made(self._libpq.exec_(statement.encode())).ntuples, 0)
        prepared = self._prepared.get(statement) or self._prepare(statement, values)
        result = _made(self._libpq.exec_prepared(prepared.name, [_written(value) for value in values], [1] * len(values), 1))
        columns = list(enumerate(prepared.readers))
        rows = [tuple(read(result.get_value(row, column) or b"") for column, read in columns) for row in range(result.ntuples)]
        return Rows(rows, result.command_tuples or 0)

    def _prepare(self, statement: str, values: tuple[bytes | str | int, ...]) -> Prepared:
        name = b"statement %d" % len(self._prepared)
        _made(self._libpq.prepare(name, statement.replace("?", "$").encode(), [_type(value) for value in values]))
        described = _made(self._libpq.describe_prepared(name))
        readers = [READERS[described.ftype(column)] for column in range(described.nfields)]
        self._prepared[statement] = Prepared(name, readers)
        return self._prepared[statement]


def _number(given: bytes) -> int:
    return int.from_bytes(given, "big", signed=True)


READERS: dict[int, Callable[[bytes], Any]] = {BYTES: bytes, BIGINT: _number, INTEGER: _number, TEXT: bytes.decode}


def _type(value: bytes | str | int) -> int:
    return BYTES if isinstance(value, bytes) else TEXT if isinstance(value, str) else BIGINT


def _written(value: bytes | str | int) -> bytes:
    if isinstance(value, bytes):
        return value
    return value.encode() if isinstance(value, str) else value.to_bytes(8, "big", signed=True)


def _made(result: PGresult) -> PGresult:
    """A result, where the database did what it was told."""
    if result.status in (ExecStatus.COMMAND_OK, ExecStatus.TUPLES_OK):
        return result
    state = (result.error_field(DiagnosticField.SQLSTATE) or b"").decode()
    try:
        kind = psycopg.errors.lookup(state)
    except KeyError:
        kind = psycopg.OperationalError
    raise kind(result.error_message.decode(errors="replace"))
