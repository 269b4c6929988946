#!/usr/bin/python3
"""Times what a worker of the interview service takes of the processor for a change, part by part, behind HTTP.

    bench/service_parts.py [--library PATH] [--store PLACE] [--changes N]

A change is one of the screener, with the page's questions behind it. PLACE is that of a store, by default a SQLite file of its own; N is
500. Printed are milliseconds of this process's processor time for a change: the database's own aren't among them.
"""

from __future__ import annotations

import json
import os
import secrets
import sys
import tempfile
import time
from collections.abc import Callable
from pathlib import Path

TOP = Path(__file__).resolve().parent.parent
sys.path[:0] = [str(TOP / folder) for folder in ("tests", "python", "service")]
sys.dont_write_bytecode = True

from harness import add_library, words_of  # noqa: E402  # pylint: disable=wrong-import-position # found by the path above

DICTIONARY = TOP / "examples" / "screener.json"
CHANGES = 500
KEPT = 3600
SEALED = b"x" * 60
NAME = secrets.token_bytes(32)
"""That of the session to which the database's client writes."""


def questions() -> list[str]:
    """What the page asks behind a change of the screener."""
    page = json.loads(DICTIONARY.with_suffix(".page").read_text(encoding="utf-8"))
    asked = [f"{verb} {figure}" for figure in page["figures"] for verb in ("get", "final", "missing")]
    return asked + [f"get {slot}" for slot in ("/people", "/caseNumber", "/tenure", "/bill", "/savings")]


def line(number: int) -> str:
    """The change of a number."""
    return f"set /bill {number % 4999}.50"


def timed(part: Callable[[int], object], changes: int) -> float:
    """The milliseconds of processor for a change, once the first ones are done."""
    for number in range(20):
        part(number)
    began = time.process_time()
    for number in range(20, 20 + changes):
        part(number)
    return 1000 * (time.process_time() - began) / changes


class Parts:
    """The parts of a change, each of which is done by its number."""

    def __init__(self, place: str) -> None:
        # pylint: disable=import-outside-toplevel # the package finds its library when it is imported
        from fact_graph import Session
        from fact_graph_service.sealing import Vault, new_secret
        from fact_graph_service.store import Head, Store
        from fact_graph_service.visitors import Asked, Visitors

        text = DICTIONARY.read_bytes()
        self.questions, self.session, self.secret = questions(), Session(text), new_secret()
        self.store, self.vault, self.known = Store(place), Vault(secrets.token_bytes(32)), Asked(None, 0)
        self.visitors = Visitors(text, self.store, seconds=KEPT, most=1_000_000, cache=1)
        with self.store.held(NAME) as hold:
            hold.begin(Head("visit", self.visitors.digest, 0, 0, SEALED, int(time.time()) + KEPT), 1_000_000)

    def engine(self, number: int) -> None:
        """The engine makes the change and answers the questions."""
        for one in (line(number), *self.questions):
            self.session.line(one)

    def sealing(self, _: int) -> None:
        """The visitor's keys are worked out, and the change is encrypted."""
        keys = self.vault.keys(self.secret)
        keys.is_token(keys.token)
        keys.seal.close(SEALED, "place")

    def store_client(self, number: int) -> None:
        """The database is told of the change, as where the session stands in memory."""
        from fact_graph_service.store import Change  # pylint: disable=import-outside-toplevel # as above

        is_made = self.store.step(NAME, "visit", 0, Change(number + 1, str(number), SEALED), int(time.time()) + KEPT)
        assert is_made

    def call(self, number: int) -> None:
        """All of it, as HTTP calls it."""
        asked = self.known._replace(change=str(number), line=line(number), questions=self.questions)
        answered = self.visitors.answer(self.vault.keys(self.secret), asked)
        self.known = self.known._replace(visit=answered.visit, revision=answered.revision)


def parts_of_a_change(place: str, changes: int = CHANGES) -> dict[str, float]:
    """Milliseconds of processor for a change, by part. The last part is the whole call, which has the others in it."""
    parts = Parts(place)
    named = {
        "the engine": parts.engine,
        "keys and encryption": parts.sealing,
        "the database's client": parts.store_client,
        "all of the call behind HTTP": parts.call,
    }
    found = {name: timed(part, changes) for name, part in named.items()}
    parts.store.close()
    return found


def main(argv: list[str]) -> int:
    """Times the parts once."""
    words = words_of(__doc__)
    add_library(words)
    words.add_argument("--store", metavar="PLACE")
    words.add_argument("--changes", type=int, default=CHANGES, metavar="N")
    given = words.parse_args(argv)
    os.environ["FACT_GRAPH_LIBRARY"] = str(given.library)
    with tempfile.TemporaryDirectory(prefix="service_parts.") as folder:
        for name, took in parts_of_a_change(given.store or f"sqlite:{folder}/store.sqlite", given.changes).items():
            print(f"{name:28} {took:.2f} ms of processor for a change")
    return 0


if __name__ == "__main__":
    sys.exit(main(sys.argv[1:]))
