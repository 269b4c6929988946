"""Where sessions are kept: in a SQLite file, or in PostgreSQL, by the same statements.

A session is a row and the changes that were made in it, each under a number (its revision) and the id that the page gave it. Calls
are made within a `Hold`, a transaction over the session, but for those of which each is a transaction of its own: `step` and
`changes`. Every call may raise `StoreFailed`: then the hold is over, and whether its changes were written is only known by another one.
"""

from __future__ import annotations

import logging
import queue
import sqlite3
import time
from collections.abc import Callable, Iterator
from contextlib import contextmanager, suppress
from dataclasses import dataclass
from typing import Any, NamedTuple

import psycopg

from . import postgres

LOG = logging.getLogger(__name__)

SECONDS_TO_CONNECT = 5
SECONDS_FOR_LOCK = 5
SECONDS_FOR_CALL = 10
LOCK_OF_TABLES, LOCK_OF_ERASING = 20770117, 20770118

SCHEMA = """
CREATE TABLE IF NOT EXISTS dictionaries (digest TEXT PRIMARY KEY, text {bytes} NOT NULL);
CREATE TABLE IF NOT EXISTS sessions (name {bytes} PRIMARY KEY, visit TEXT NOT NULL, digest TEXT NOT NULL REFERENCES dictionaries,
  revision BIGINT NOT NULL, base BIGINT NOT NULL, snapshot {bytes} NOT NULL, expires BIGINT NOT NULL);
CREATE INDEX IF NOT EXISTS sessions_by_end ON sessions (expires);
CREATE TABLE IF NOT EXISTS changes (name {bytes} NOT NULL REFERENCES sessions ON DELETE CASCADE, revision BIGINT NOT NULL,
  id TEXT NOT NULL, sealed {bytes} NOT NULL, PRIMARY KEY (name, revision), UNIQUE (name, id))
"""

STEP = """
UPDATE sessions SET revision = ?2, expires = ?7 WHERE name = ?1 AND visit = ?5 AND base = ?6 AND revision = ?2 - 1 AND expires > ?8
  AND NOT EXISTS (SELECT 1 FROM changes WHERE name = ?1 AND id = ?3)
"""
"""Brings a session to a revision, where it is at the one before, over this base in this stay, its time isn't over, and no change has
the id."""
INSERT = "INSERT INTO changes (name, revision, id, sealed)"
CHANGES = """
SELECT changes.revision, id, sealed FROM changes JOIN sessions USING (name)
WHERE name = ?1 AND visit = ?2 AND base = ?3 AND changes.revision > ?4 ORDER BY changes.revision
"""


class StoreFailed(Exception):
    """The store didn't answer, or couldn't do what it was asked."""


class StoreFull(Exception):
    """The store has as many sessions as it may."""


class Head(NamedTuple):
    """The row of a session."""

    visit: str
    """A name of this stay that is no secret: another stay of the same visitor has another one."""
    digest: str
    """That of the dictionary over which the session stands."""
    revision: int
    """The number of the last change."""
    base: int
    """The revision at which the snapshot stands. The changes behind it are kept."""
    snapshot: bytes
    """The state at the base, sealed."""
    expires: int
    """When the session is erased, in seconds of the clock."""


class Change(NamedTuple):
    """A change that was accepted."""

    revision: int
    id: str
    sealed: bytes


@dataclass(frozen=True)
class Kind:
    """What a kind of database has of its own."""

    connect: Callable[[], Any]
    bytes: str
    tables: str
    """Has a row where the tables are there."""
    begin: str
    """Begins a transaction that has the lock of a number until its end. It reads what stands once it has the lock."""
    begin_to_read: str
    locked: str
    failures: tuple[type[Exception], ...]
    is_torn: Callable[[Any], bool]
    """Whether the database has ended a connection."""
    step: Callable[[Any, tuple[Any, ...]], bool]
    """Writes a change in a transaction of its own, where the session is at the revision before it. Says whether it did."""


def kind_of(place: str) -> Kind:
    """The kind of the database at a place, `sqlite:PATH` or `postgresql://..`. Raises ValueError for another."""
    if place.startswith("sqlite:"):
        path = place.removeprefix("sqlite:")
        return Kind(
            connect=lambda: _sqlite(path),
            bytes="BLOB",
            tables="SELECT 1 FROM sqlite_master WHERE name = 'dictionaries'",
            begin="BEGIN IMMEDIATE",  # the whole file's lock
            begin_to_read="BEGIN",
            locked="",
            failures=(sqlite3.Error,),
            is_torn=lambda _: False,
            step=_sqlite_step,
        )
    if place.startswith(("postgresql://", "postgres://")):
        return Kind(
            connect=lambda: _postgres(place),
            bytes="BYTEA",
            tables="SELECT 1 WHERE to_regclass('dictionaries') IS NOT NULL",
            begin="BEGIN ISOLATION LEVEL READ COMMITTED; SELECT pg_advisory_xact_lock({lock})",
            begin_to_read="BEGIN ISOLATION LEVEL REPEATABLE READ READ ONLY",
            locked="FOR UPDATE",
            failures=(psycopg.Error,),
            is_torn=lambda connection: bool(connection.closed),
            step=_postgres_step,
        )
    raise ValueError(f"a store is sqlite:PATH or postgresql://.., and not {place}")


def _sqlite(path: str) -> sqlite3.Connection:
    connection = sqlite3.connect(path, timeout=SECONDS_FOR_LOCK, isolation_level=None, check_same_thread=False)
    # what is committed is on the disk, also where the power goes; what is erased is overwritten
    for pragma in ("journal_mode=WAL", "synchronous=FULL", "foreign_keys=ON", "secure_delete=ON"):
        connection.execute(f"PRAGMA {pragma}")
    return connection


def _sqlite_step(connection: sqlite3.Connection, values: tuple[Any, ...]) -> bool:
    connection.execute("BEGIN IMMEDIATE")
    is_made = connection.execute(STEP, values).rowcount == 1
    if is_made:
        connection.execute(f"{INSERT} VALUES (?1, ?2, ?3, ?4)", values[:4])
    connection.execute("COMMIT")
    return is_made


def _postgres(place: str) -> postgres.Connection:
    bounds = {"lock_timeout": SECONDS_FOR_LOCK, "statement_timeout": SECONDS_FOR_CALL, "idle_in_transaction_session_timeout": SECONDS_FOR_CALL}
    options = " ".join(f"-c {name}={seconds}s" for name, seconds in bounds.items())
    return postgres.Connection(
        place,
        options=rf"{options} -c synchronous_commit=on -c default_transaction_isolation=read\ committed",
        connect_timeout=SECONDS_TO_CONNECT,
        keepalives_idle=SECONDS_FOR_CALL,
        tcp_user_timeout=SECONDS_FOR_CALL * 1000,
    )


def _postgres_step(connection: postgres.Connection, values: tuple[Any, ...]) -> bool:
    """One statement, which is one way to the database and back. The row that it changes is locked until it is written."""
    return connection.execute(f"WITH step AS ({STEP} RETURNING 1) {INSERT} SELECT ?1, ?2, ?3, ?4 FROM step", values).rowcount == 1


class Hold:
    """A transaction over one session. Where it is held to change, nobody else begins or changes the session meanwhile."""

    def __init__(self, kind: Kind, connection: Any, name: bytes, is_to_change: bool) -> None:
        self._kind, self._connection, self._name = kind, connection, name
        self._locked = kind.locked if is_to_change else ""  # a row that is read to be changed isn't erased before that as one whose time is over

    def head(self) -> Head | None:
        """The session's row, or None where there is none or its time is over."""
        columns, now = ", ".join(Head._fields), int(time.time())
        row = self._row(f"SELECT {columns} FROM sessions WHERE name = ?1 AND expires > ?2 {self._locked}", self._name, now)
        return Head(*row) if row else None

    def changes(self, after: int) -> list[Change]:
        """The changes behind a revision, in their order."""
        rows = self._run("SELECT revision, id, sealed FROM changes WHERE name = ?1 AND revision > ?2 ORDER BY revision", self._name, after)
        return [Change(*row) for row in rows.fetchall()]

    def change_of(self, change_id: str) -> Change | None:
        """The change that was made under this id, where it is still kept."""
        row = self._row("SELECT revision, id, sealed FROM changes WHERE name = ?1 AND id = ?2", self._name, change_id)
        return Change(*row) if row else None

    def dictionary(self, digest: str) -> bytes:
        """The text of a dictionary over which a session stands."""
        row = self._row("SELECT text FROM dictionaries WHERE digest = ?1", digest)
        assert row is not None, "each session refers to a dictionary that is kept"
        return bytes(row[0])

    def begin(self, head: Head, most: int) -> None:
        """Begins the session, which isn't there or whose time is over. Raises `StoreFull` where the store has as many as it may."""
        self._run("DELETE FROM sessions WHERE name = ?1", self._name)
        if self._row("SELECT 1 WHERE (SELECT count(*) FROM sessions) < ?1", most) is None:
            raise StoreFull
        marks = ", ".join(f"?{place}" for place in range(1, 2 + len(head)))
        self._run(f"INSERT INTO sessions (name, {', '.join(Head._fields)}) VALUES ({marks})", self._name, *head)

    def append(self, change: Change, expires: int) -> None:
        """Writes a change behind the others."""
        self._run(f"{INSERT} VALUES (?1, ?2, ?3, ?4)", self._name, *change)
        self._run("UPDATE sessions SET revision = ?2, expires = ?3 WHERE name = ?1", self._name, change.revision, expires)

    def rebase(self, head: Head) -> None:
        """Gives the session a new snapshot, and forgets the changes up to it."""
        columns = ", ".join(f"{column} = ?{place}" for place, column in enumerate(Head._fields, 2))
        self._run(f"UPDATE sessions SET {columns} WHERE name = ?1", self._name, *head)
        self._run("DELETE FROM changes WHERE name = ?1 AND revision <= ?2", self._name, head.base)

    def stay(self, expires: int) -> None:
        """Keeps the session until then."""
        self._run("UPDATE sessions SET expires = ?2 WHERE name = ?1", self._name, expires)

    def erase(self) -> None:
        """Erases the session and all of its changes."""
        self._run("DELETE FROM sessions WHERE name = ?1", self._name)

    def _row(self, statement: str, *values: Any) -> Any:
        return self._run(statement, *values).fetchone()

    def _run(self, statement: str, *values: Any) -> Any:
        return self._connection.execute(statement, values)


class Store:
    """A database of sessions."""

    def __init__(self, place: str) -> None:
        self._kind = kind_of(place)
        self._idle: queue.LifoQueue[Any] = queue.LifoQueue()

    def prepare(self, digest: str, dictionary: bytes) -> None:
        """Makes the tables where they aren't there, and keeps the dictionary. Where all is there it waits for nobody. Raises
        `StoreFailed`."""
        if self._has(digest):
            return
        with self._transaction(self._kind.begin.format(lock=LOCK_OF_TABLES)) as connection:
            for statement in SCHEMA.replace("{bytes}", self._kind.bytes).split(";"):
                connection.execute(statement)
            connection.execute("INSERT INTO dictionaries (digest, text) VALUES (?1, ?2) ON CONFLICT DO NOTHING", (digest, dictionary))

    def step(self, name: bytes, visit: str, base: int, change: Change, expires: int) -> bool:
        """Writes a change and keeps the session until then, where the session is there in this stay, over this base, at the revision
        before, and has no change of the id. Says whether it did."""
        values = (name, *change, visit, base, expires, int(time.time()))
        is_made: bool = self._at_once(lambda connection: self._kind.step(connection, values))
        return is_made

    def changes(self, name: bytes, visit: str, base: int, after: int) -> list[Change]:
        """The changes behind a revision, in their order, where the session stands over this base in this stay; else none."""
        rows = self._at_once(lambda connection: connection.execute(CHANGES, (name, visit, base, after)).fetchall())
        return [Change(*row) for row in rows]

    @contextmanager
    def held(self, name: bytes) -> Iterator[Hold]:
        """The session, to change it: what the block did is written at its end, or else nothing of it."""
        with self._transaction(self._kind.begin.format(lock=_lock_of(name))) as connection:
            yield Hold(self._kind, connection, name, True)

    @contextmanager
    def seen(self, name: bytes) -> Iterator[Hold]:
        """The session as it stands now, to read it."""
        with self._transaction(self._kind.begin_to_read) as connection:
            yield Hold(self._kind, connection, name, False)

    def expire(self) -> int:
        """Erases the sessions whose time is over, and says how many."""
        with self._transaction(self._kind.begin.format(lock=LOCK_OF_ERASING)) as connection:
            erased: int = connection.execute("DELETE FROM sessions WHERE expires <= ?1", (int(time.time()),)).rowcount
            return erased

    def check(self) -> None:
        """Raises `StoreFailed` where the store can't be read."""
        self._at_once(lambda connection: connection.execute("SELECT 1 FROM sessions LIMIT 1").fetchone())

    def close(self) -> None:
        """Closes the connections that nobody uses."""
        with suppress(queue.Empty):
            while True:
                self._idle.get_nowait().close()

    def _has(self, digest: str) -> bool:
        """Whether a dictionary is kept."""
        with self._transaction(self._kind.begin_to_read) as connection:
            if connection.execute(self._kind.tables).fetchone() is None:
                return False
            return connection.execute("SELECT 1 FROM dictionaries WHERE digest = ?1", (digest,)).fetchone() is not None

    def _at_once(self, use: Callable[[Any], Any]) -> Any:
        """What a connection is used for that is a transaction of its own, and does no harm twice."""
        try:
            connection, found = self._begun(use)
        except self._kind.failures as wrong:  # pylint: disable=catching-non-exception # those of the database
            raise _failed(wrong) from wrong  # pylint: disable=bad-exception-cause # it is the database's
        self._idle.put(connection)
        return found

    @contextmanager
    def _transaction(self, begin: str) -> Iterator[Any]:
        """A transaction on a connection of its own. One that fails is closed, so that nothing of it stays."""
        connection = None
        try:
            connection, _ = self._begun(lambda connection: connection.execute(begin))
            yield connection
            connection.execute("COMMIT")
        except self._kind.failures as wrong:  # pylint: disable=catching-non-exception # those of the database
            self._drop(connection)
            raise _failed(wrong) from wrong  # pylint: disable=bad-exception-cause # it is the database's
        except BaseException:
            if connection is not None:
                self._roll_back(connection)
            raise
        self._idle.put(connection)

    def _begun(self, begin: Callable[[Any], Any]) -> tuple[Any, Any]:
        """A connection on which something is begun, and what came of it: an idle one, or a new one where there is none or the idle ones
        were torn meanwhile. Nobody knows how far a torn one came, so what is begun has to be such that twice does no harm."""
        while True:
            try:
                connection, is_new = self._idle.get_nowait(), False
            except queue.Empty:
                connection, is_new = self._kind.connect(), True
            try:
                return connection, begin(connection)
            except self._kind.failures:  # pylint: disable=catching-non-exception # those of the database
                is_torn = self._kind.is_torn(connection)
                self._drop(connection)
                if is_new or not is_torn:
                    raise
                self.close()  # the other idle ones were torn with it

    def _roll_back(self, connection: Any) -> None:
        """Undoes what a transaction did, where the store had no part in its failure."""
        try:
            connection.execute("ROLLBACK")
        except self._kind.failures:  # pylint: disable=catching-non-exception # those of the database
            self._drop(connection)
        else:
            self._idle.put(connection)

    def _drop(self, connection: Any) -> None:
        if connection is not None:
            with suppress(*self._kind.failures):
                connection.close()


def _failed(wrong: Exception) -> StoreFailed:
    """What is raised where a database failed, which the log tells without values."""
    LOG.warning("the store failed: %s", type(wrong).__name__)
    return StoreFailed()


def _lock_of(name: bytes) -> int:
    """The number of a session's lock. Where two sessions have the same one, the calls of one wait for those of the other."""
    return int.from_bytes(name[:8], "big") >> 1  # PostgreSQL's numbers have a sign
