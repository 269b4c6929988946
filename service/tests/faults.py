#!/usr/bin/python3
"""Faults of the interview service, tried and counted: nothing that was acknowledged may be lost, and nothing else may stand.

    service/tests/faults.py [--runs N] [--visitors N] [--changes N] [--store sqlite|postgres]... [--kept FILE] [KIND]...
    service/tests/faults.py --kept FILE --table

With --kept a run's row is written into the file as it ends, and a run that has a row there isn't made again: so many runs are made in
pieces, each as long as it is let run. With --table the sums of these rows are printed as a table, and nothing is run.

In a run, visitors make changes through two workers over one store, each change at one of them at random, as the page does: with an
id, and again with the same id where no answer came. Meanwhile the fault of its kind is made, again and again:

  kill      a worker is killed by SIGKILL, and started anew
  database  PostgreSQL is stopped and started, or killed and started; a SQLite file is locked by another process
  disk      the store's disk is full for a while
  slow      many clients begin requests and never end them
  torn      a visitor closes the connection instead of reading the answer
  windows   each visitor has two windows, which change the same answers at once

Up to five runs of a kind over a store have the same workers, and visitors of their own. At the end of a run the changes in the store
are decrypted with each visitor's secret: they have to be those that the visitor was told of, each once, and no other. The engine runs
their lines: each has to have the reply that the visitor was told, and the service the same saved text and the same figures. The last
line is 'faults: N runs, M changes acknowledged, ..'. The exit status is 0 where nothing was lost, else or wrong, and 1 where something
was.
"""

from __future__ import annotations

import argparse
import asyncio
import contextlib
import dataclasses
import itertools
import json
import os
import random
import re
import secrets
import signal
import sqlite3
import subprocess
import sys
import tempfile
import time
import uuid
from collections.abc import Callable, Iterator
from contextlib import contextmanager
from dataclasses import dataclass, field
from pathlib import Path
from typing import IO, Any

sys.path[:0] = [str(Path(__file__).resolve().parents[2] / folder) for folder in ("python", "service")]

# pylint: disable=wrong-import-position # found by the path above
from counted import Row, add, rows_of, sums, table
from databases import Failed, Postgres
from fact_graph import Session
from fact_graph_service.sealing import Vault
from fact_graph_service.settings import Settings
from fact_graph_service.store import Store, StoreFailed
from pages import EXAMPLES
from servers import Worker, served
from waiting import SECONDS, wait_until

DICTIONARY = EXAMPLES / "screener.json"
QUESTIONS = ["get /outcome", "final /outcome", "get /help", "missing /help", "get /means", "get /people"]
MINUTES = 24 * 60
SECONDS_FOR_ANSWER = 30
AGAIN = (408, 429, 503)
"""The statuses at which a page makes its request again."""
DISK_BYTES = 250_000_000
LOG_BYTES = 4_000
MOST_FAULTS = 20
"""More than so many faults a run doesn't have."""
PIECE = 5
"""So many runs of a kind over a store are made over the same workers, before the other kinds have their turn."""


class Unserved(Exception):
    """A request that wasn't answered as a page's has to be."""


@dataclass
class Answer:
    """What a worker answered."""

    status: int
    headers: str
    body: bytes

    def json(self) -> Any:
        return json.loads(self.body)


async def ask(port: int, method: str, path: str, headers: dict[str, str], body: bytes = b"", is_torn: bool = False) -> Answer:
    """Makes a request. Where it is to be torn, the connection is closed once the request is sent. Raises OSError where no whole
    answer comes."""
    reader, writer = await asyncio.open_connection("127.0.0.1", port)
    try:
        head = {"Host": f"127.0.0.1:{port}", "Connection": "close", "Content-Length": str(len(body)), **headers}
        writer.write(f"{method} {path} HTTP/1.1\r\n".encode() + "".join(f"{name}: {value}\r\n" for name, value in head.items()).encode() + b"\r\n" + body)
        await writer.drain()
        if is_torn:
            raise ConnectionResetError("torn on purpose")
        said = await asyncio.wait_for(reader.read(-1), SECONDS_FOR_ANSWER)
    finally:
        writer.close()
    top, _, content = said.partition(b"\r\n\r\n")
    size = re.search(rb"\r\ncontent-length: (\d+)", top, re.IGNORECASE)
    if size is None or len(content) != int(size[1]):
        raise ConnectionResetError("no whole answer")
    return Answer(int(top.split(b" ", 2)[1]), top.decode(), content)


@dataclass
class Visitor:
    """A visitor, with what was acknowledged, by the ids of the changes."""

    ports: list[int]
    random: random.Random
    cookie: str = ""
    token: str = ""
    acknowledged: dict[str, tuple[str, str]] = field(default_factory=dict)
    visit: str | None = None
    repeated: int = 0

    @property
    def secret(self) -> str:
        return self.cookie.partition("=")[2]

    async def begin(self) -> None:
        """Opens the page."""
        answer = await self.ask("GET", "/")
        self.cookie = re.search(r"set-cookie: ([^;]*)", answer.headers, re.IGNORECASE)[1]  # type: ignore[index] # each page has it
        self.token = re.search(rb'content="([0-9a-f]{64})"', answer.body)[1].decode()  # type: ignore[index] # each page has it

    async def post(self, call: str, said: dict[str, Any], tear: float = 0.0) -> Answer:
        """Makes a call of the page."""
        own = {"Origin": f"http://127.0.0.1:{self.ports[0]}", "Cookie": self.cookie, "X-Token": self.token, "Content-Type": "application/json"}
        return await self.ask("POST", f"/{call}", own, json.dumps(said).encode(), tear)

    async def ask(self, method: str, path: str, headers: dict[str, str] | None = None, body: bytes = b"", tear: float = 0.0) -> Answer:
        """Makes a request at any of the workers, and makes it again as the page does until it is answered. Raises `Unserved`."""
        until = time.monotonic() + SECONDS
        while True:
            is_torn = self.random.random() < tear
            try:
                answer = await ask(self.random.choice(self.ports), method, path, headers or {}, body, is_torn)
                if answer.status == 200:
                    return answer
                came, is_to_be_asked_again = f"{answer.status} {answer.body!r}", answer.status in AGAIN
            except OSError as wrong:
                came, is_to_be_asked_again = repr(wrong), True
            if not is_to_be_asked_again or time.monotonic() > until:
                raise Unserved(f"{method} {path} {body!r}: {came}")
            self.repeated += 1
            if not is_torn:
                await asyncio.sleep(0.1)

    async def change(self, window: Window, line: str, tear: float) -> None:
        """Makes a change as the page does, and again where another window has gone on."""
        change, is_stale, told = uuid.uuid4().hex, True, {}
        while is_stale:
            said = {"visit": window.visit, "revision": window.revision, "change": change, "line": line, "questions": QUESTIONS}
            told = (await self.post("answer", said, tear)).json()
            window.visit, window.revision, self.visit, is_stale = told["visit"], told["revision"], told["visit"], told["stale"]
        if not told["reply"].startswith("refused "):
            self.acknowledged[change] = (line, told["reply"])

    def line(self) -> str:
        """A change of some kind, which may be refused."""
        pick = self.random
        member = pick.randint(1, 4)
        return pick.choice(
            [f"set /bill {pick.randint(0, 6000)}", f"set /savings {pick.randint(0, 40000)}", "set /tenure rents", "set /tenure other", "add /people",
             f"set /people/#{member}/wages {pick.randint(0, 30000)}", f"set /people/#{member}/born {pick.randint(1930, 2020)}-06-01",
             f"remove /people #{member}", "undo", "redo", "clear /bill", "set /caseNumber 123456789"]
        )


@dataclass
class Window:
    """What one window of a visitor knows."""

    visit: str | None = None
    revision: int = 0


@dataclass
class Tally:
    """What came of a run."""

    acknowledged: int = 0
    repeated: int = 0
    lost: int = 0
    others: int = 0
    wrong: int = 0


# ---- the stores


class SqlitePlace:
    """A SQLite file in a folder, which may be a disk of its own."""

    def __init__(self, folder: Path) -> None:
        self.folder, self.place = folder, f"sqlite:{folder}/store.sqlite"

    @contextmanager
    def out(self) -> Iterator[None]:
        """The file is locked by somebody else."""
        connection = sqlite3.connect(f"{self.folder}/store.sqlite", timeout=SECONDS, isolation_level=None, check_same_thread=False)
        connection.execute("BEGIN IMMEDIATE")
        try:
            yield
        finally:
            connection.close()

    def close(self) -> None:
        pass


class PostgresPlace:
    """A PostgreSQL in a folder, which may be a disk of its own."""

    def __init__(self, folder: Path) -> None:
        self.folder, self._database, self._kills = folder, Postgres(folder), 0
        self.place = self._database.place

    @contextmanager
    def out(self) -> Iterator[None]:
        """The server is stopped, or every second time killed."""
        self._kills += 1
        (self._database.kill if self._kills % 2 else self._database.stop)()
        try:
            yield
        finally:
            self._database.start()

    def revive(self) -> None:
        """Starts the server again where want of a disk has ended it."""
        if not self._database.answers():
            with contextlib.suppress(Failed):
                self._database.stop()
            self._database.start()

    def close(self) -> None:
        self._database.close()


STORES: dict[str, Callable[[Path], Any]] = {"sqlite": SqlitePlace, "postgres": PostgresPlace}


@contextmanager
def disk(is_small: bool) -> Iterator[Path]:
    """A folder, or a disk of its own that is soon full."""
    with tempfile.TemporaryDirectory(prefix="faults.") as name:
        folder = Path(name)
        folder.chmod(0o755)
        if is_small:
            subprocess.run(["mount", "-t", "tmpfs", "-o", f"size={DISK_BYTES}", "tmpfs", name], check=True)
        try:
            yield folder
        finally:
            if is_small:
                subprocess.run(["umount", "--lazy", name], check=True)


# ---- the faults


Fault = Callable[[Any, list[Worker], random.Random], Any]


async def kill(_: Any, workers: list[Worker], pick: random.Random) -> None:
    worker = pick.choice(workers)
    await asyncio.to_thread(worker.end, signal.SIGKILL)
    await asyncio.to_thread(worker.begin)


async def database(place: Any, _: list[Worker], pick: random.Random) -> None:
    out = place.out()
    await asyncio.to_thread(out.__enter__)
    try:
        await asyncio.sleep(pick.uniform(0.5, 8))
    finally:
        await asyncio.to_thread(out.__exit__, None, None, None)


async def full(place: Any, _: list[Worker], pick: random.Random) -> None:
    filler = place.folder / "filler"
    with filler.open("wb", buffering=0) as file, contextlib.suppress(OSError):
        while True:
            file.write(b"x" * 4096)
    try:
        await asyncio.sleep(pick.uniform(1, 4))
    finally:
        filler.unlink()
        if hasattr(place, "revive"):
            await asyncio.to_thread(place.revive)


async def slow(_: Any, workers: list[Worker], pick: random.Random) -> None:
    """Two hundred clients that begin a request, some in its head and some in its body, and send a byte now and then."""
    begun = []
    for number in range(200):
        port = pick.choice(workers).port
        _, writer = await asyncio.open_connection("127.0.0.1", port)
        head = f"POST /answer HTTP/1.1\r\nHost: 127.0.0.1:{port}\r\n"
        writer.write((head + ("Content-Length: 1000\r\n\r\n{" if number % 2 else "X-Slow: ")).encode())
        begun.append(writer)
    for _ in range(3):
        await asyncio.sleep(1)
        for writer in begun:
            with contextlib.suppress(OSError):
                writer.write(b" ")
    for writer in begun:
        writer.close()


async def nothing(_: Any, __: list[Worker], ___: random.Random) -> None:
    """The fault is in the visitors."""
    await asyncio.sleep(1)


@dataclass(frozen=True)
class Kind:
    """A kind of fault: what is done again and again, and what the visitors do."""

    fault: Fault
    tear: float = 0.0
    windows: int = 1


KINDS = {
    "kill": Kind(kill),
    "database": Kind(database),
    "disk": Kind(full),
    "slow": Kind(slow),
    "torn": Kind(nothing, tear=0.3),
    "windows": Kind(nothing, windows=2),
}


# ---- a run


async def change_all(kind: Kind, place: Any, workers: list[Worker], visitors: list[Visitor], changes: int, pick: random.Random) -> None:
    """All visitors make their changes, and the fault is made until they are done. The last one is ended too. Between two of them a share
    of the changes is answered, so that all are at last, however slow the machine is."""
    answered, wanted, share = 0, 0, max(1, changes * len(visitors) // MOST_FAULTS)
    is_over, is_answered = asyncio.Event(), asyncio.Event()

    async def work(visitor: Visitor, window: Window) -> None:
        nonlocal answered
        for _ in range(changes // kind.windows):
            await visitor.change(window, visitor.line(), kind.tear)
            answered += 1
            if answered >= wanted:
                is_answered.set()

    async def disturb() -> None:
        nonlocal wanted
        while not is_over.is_set():
            await asyncio.sleep(pick.uniform(0.2, 1.5))
            await kind.fault(place, workers, pick)
            if not is_over.is_set():
                wanted = answered + share
                is_answered.clear()
                await is_answered.wait()

    async def work_all() -> None:
        try:
            await asyncio.gather(*(work(visitor, Window()) for visitor in visitors for _ in range(kind.windows)))
        finally:
            is_over.set()
            is_answered.set()

    await asyncio.gather(*(visitor.begin() for visitor in visitors))
    await asyncio.gather(work_all(), disturb())


def answering(place: str) -> Store:
    """The store, once it answers."""
    store = Store(place)

    def answers() -> bool:
        try:
            store.check()
        except StoreFailed:
            return False
        return True

    wait_until("the store answers", answers)
    return store


async def judge(store: Store, vault: Vault, visitor: Visitor, tally: Tally) -> None:
    """Compares what a visitor was told with the store, and the service with the engine."""
    keys = vault.keys(visitor.secret)
    with store.seen(keys.name) as hold:
        head = hold.head()
        kept = hold.changes(0) if head else []
    tally.acknowledged += len(visitor.acknowledged)
    tally.repeated += visitor.repeated
    ids = {change.id for change in kept}
    tally.lost += len(visitor.acknowledged.keys() - ids)
    tally.others += len(ids - visitor.acknowledged.keys()) + len(kept) - len(ids)
    tally.wrong += [change.revision for change in kept] != list(range(1, len(kept) + 1))
    with Session.open(DICTIONARY) as session:
        for change in kept:
            name = f"change {head.visit} {change.revision} {change.id}"  # type: ignore[union-attr] # changes have a head
            line, reply, _ = json.loads(keys.seal.open(change.sealed, name))
            told = visitor.acknowledged.get(change.id)
            tally.wrong += told is not None and told != (line, reply) or session.line(line).removesuffix("\n") != reply
        known = {"visit": visitor.visit, "revision": 0}
        answered = (await visitor.post("answer", {**known, "questions": QUESTIONS})).json()
        tally.wrong += answered["replies"] != [session.line(question).removesuffix("\n") for question in QUESTIONS]
        if kept:
            tally.wrong += (await visitor.post("save", known)).body != session.save()


async def judge_all(settings: Settings, visitors: list[Visitor], tally: Tally) -> None:
    store = answering(settings.store)
    await asyncio.gather(*(judge(store, Vault(settings.key), visitor, tally) for visitor in visitors))
    store.close()


@dataclass(frozen=True)
class Plan:
    """How many visitors a run has, and how many changes they make in all."""

    visitors: int
    changes: int

    def runs(self, name: str, store: str, seeds: list[int]) -> Iterator[Row]:
        """Runs of a kind over a store, one behind the other, each with visitors of its own."""
        with disk(name == "disk") as folder, tempfile.TemporaryFile() as log:
            place = STORES[store](folder)
            try:
                cache = max(1, self.visitors // 2)
                settings = Settings(DICTIONARY, place.place, secrets.token_bytes(32), minutes=MINUTES, rate=1_000_000, cache=cache)
                with served(settings, 2, log) as workers:
                    for seed in seeds:
                        tally, begun, day = Tally(), time.monotonic(), time.strftime("%Y-%m-%d", time.gmtime())
                        try:
                            self.run(KINDS[name], place, workers, settings, random.Random(seed), tally)
                        except Unserved as wrong:
                            tally.wrong += 1
                            print(f"failed: {name} {store}, seed {seed}: {wrong}\n{end_of(log)}", flush=True)
                        seconds = round(time.monotonic() - begun)
                        yield Row(name, store, seed, day, self.visitors, **dataclasses.asdict(tally), seconds=seconds)
            finally:
                place.close()

    def run(self, kind: Kind, place: Any, workers: list[Worker], settings: Settings, pick: random.Random, tally: Tally) -> None:
        """A run. Raises `Unserved` where a visitor isn't served."""
        everybody = [Visitor([worker.port for worker in workers], random.Random(pick.random())) for _ in range(self.visitors)]
        asyncio.run(change_all(kind, place, workers, everybody, max(kind.windows, self.changes // self.visitors), pick))
        asyncio.run(judge_all(settings, everybody, tally))


def end_of(log: IO[bytes]) -> str:
    """The end of what the workers said."""
    log.seek(max(0, log.seek(0, os.SEEK_END) - LOG_BYTES))
    return log.read().decode(errors="replace")


def main(words: list[str]) -> int:
    arguments = argparse.ArgumentParser(description=__doc__, formatter_class=argparse.RawDescriptionHelpFormatter)
    arguments.add_argument("--runs", type=int, default=1)
    arguments.add_argument("--visitors", type=int, default=20)
    arguments.add_argument("--changes", type=int, default=400)
    arguments.add_argument("--seed", type=int, default=1)
    arguments.add_argument("--store", action="append", choices=STORES)
    arguments.add_argument("--kept", type=Path)
    arguments.add_argument("--table", action="store_true")
    arguments.add_argument("kinds", nargs="*", metavar="KIND", help=", ".join(KINDS))
    given = arguments.parse_args(words)
    if given.table and not given.kept:
        arguments.error("a table is of the rows that are kept: --kept says where")
    rows = rows_of(given.kept) if given.kept else []
    if given.table:
        print("\n".join(table(rows)))
        return 0
    made, plan = {row[:3] for row in rows}, Plan(given.visitors, given.changes)
    new: list[Row] = []
    for first in range(given.seed, given.seed + given.runs, PIECE):
        for name, store in itertools.product(given.kinds or KINDS, given.store or STORES):
            seeds = [seed for seed in range(first, min(first + PIECE, given.seed + given.runs)) if (name, store, seed) not in made]
            piece = []
            for row in plan.runs(name, store, seeds) if seeds else ():
                piece.append(row)
                if given.kept:
                    add(given.kept, row)
            if piece:
                print(f"{name:9} {store:9} {sums(piece)}", flush=True)
            new += piece
    print(f"faults: {sums(new)}")
    return 0 if all(row.is_well() for row in new) else 1


if __name__ == "__main__":
    sys.exit(main(sys.argv[1:]))
