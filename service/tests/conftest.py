"""What the tests share: stores of both kinds, and the service over them."""

from __future__ import annotations

import os
import secrets
import signal
from collections.abc import Iterator
from contextlib import ExitStack
from pathlib import Path
from typing import Any

import pytest

from browsers import BROWSERS
from databases import Postgres
from fact_graph_service import app, store
from fact_graph_service.settings import Settings
from interviews import INTERVIEWS
from pages import EXAMPLES, Page
from servers import Worker, served
from waiting import SECONDS

MOST_SECONDS = 3 * SECONDS
"""A walk through an interview, which is made for many tests, takes longest; this is far more than it takes."""


def pytest_runtest_logstart(nodeid: str) -> None:
    """Has a test fail that doesn't come to its end, wherever it waits; what it does then has an end too."""

    def end(*_: object) -> None:
        raise TimeoutError(f"{nodeid}: no end within {MOST_SECONDS} seconds")

    signal.signal(signal.SIGALRM, end)
    signal.setitimer(signal.ITIMER_REAL, MOST_SECONDS, SECONDS)


def pytest_runtest_logfinish() -> None:
    """The test has come to its end."""
    signal.setitimer(signal.ITIMER_REAL, 0)


@pytest.fixture(autouse=True)
def patience(monkeypatch: pytest.MonkeyPatch) -> None:
    """Here a call may take as long as it does on a slow machine."""
    for name in ("SECONDS_TO_CONNECT", "SECONDS_FOR_LOCK", "SECONDS_FOR_CALL"):
        monkeypatch.setattr(store, name, SECONDS)
    monkeypatch.setattr(app, "SECONDS_FOR_BODY", SECONDS)


@pytest.fixture(scope="session")
def postgres() -> Iterator[Postgres]:
    """A PostgreSQL for all tests."""
    database = Postgres()
    yield database
    database.close()


@pytest.fixture(params=["sqlite", "postgres"])
def place(request: pytest.FixtureRequest, tmp_path: Path) -> str:
    """The place of an empty store."""
    if request.param == "sqlite":
        return f"sqlite:{tmp_path}/store.sqlite"
    database: Postgres = request.getfixturevalue("postgres")
    database.clear()
    return database.place


@pytest.fixture
def settings(place: str) -> Settings:
    """Settings over the screener."""
    return Settings(EXAMPLES / "screener.json", place, secrets.token_bytes(32), rate=10_000)


@pytest.fixture
def page(settings: Settings) -> Iterator[Page]:
    """A page of a new visitor."""
    with Page.open(settings) as opened:
        yield opened


@pytest.fixture(scope="session")
def program() -> Path:
    """The program: the one that FACT_GRAPH_PROGRAM names, else the one that stands built in the repository."""
    found = Path(os.environ.get("FACT_GRAPH_PROGRAM", EXAMPLES.parent / "crates" / "interview" / "out" / "interview")).resolve()
    assert found.is_file(), f"no program at {found}: rt ci builds it"
    return found


@pytest.fixture(scope="session", params=BROWSERS)
def driver(request: pytest.FixtureRequest) -> Iterator[Any]:
    """A browser."""
    with BROWSERS[request.param]() as browser:
        browser.set_script_timeout(SECONDS)
        yield browser


@pytest.fixture(scope="session")
def workers(tmp_path_factory: pytest.TempPathFactory) -> Iterator[dict[str, Worker]]:
    """A worker over each interview, all in two languages."""
    with ExitStack() as begun:
        found = {}
        for name, interview in INTERVIEWS.items():
            settings = Settings(interview.rules, f"sqlite:{tmp_path_factory.mktemp('served')}/store.sqlite", secrets.token_bytes(32), rate=10_000)
            [found[name]] = begun.enter_context(served(settings))
        yield found


@pytest.fixture(scope="session")
def worker(workers: dict[str, Worker]) -> Worker:
    """The worker over the screener."""
    return workers["screener"]
