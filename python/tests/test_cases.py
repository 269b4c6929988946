"""The stored cases of tests/rows that the library serves: each line has the stored reply, and so has the call that it is. The plain
session that random commands are held to says the same."""

from __future__ import annotations

import json
from collections.abc import Callable, Iterator
from pathlib import Path

import pytest
from oracle.refusing import refused
from oracle.session import Session as Plain
from run_rows import first_difference
from stored_cases import Malformed, Served, also, cases_of, files_of_cases, served

from fact_graph import Desk, DictionaryRefused, SavedRefused, Session

from .calls import replies

# Files all of whose cases are of words that the library doesn't serve.
OTHERS = ("gen.py",)
FILES = [path for path in files_of_cases() if path.name not in OTHERS]
# The plain session evaluates everything anew, so what is larger would take it too long.
LARGEST_PLAIN = 100_000

of_each_file = pytest.mark.parametrize("path", FILES, ids=lambda path: str(path.name))


def cases(path: Path) -> Iterator[Served]:
    """The cases of a file that the library serves, each check that is refused as a run, too."""
    for case in cases_of(path):
        if isinstance(case, Malformed):
            raise case
        yield from filter(None, map(served, also(case)))


def begun(case: Served) -> Session | Desk:
    """The session of a case, or its desk."""
    if case.word == "desk":
        return Desk(case.dictionary)
    if case.word == "built-in":
        return Session.built_in(case.dictionary.decode())
    if case.saved is None:
        return Session(case.dictionary)
    return (Session.load if case.word == "load" else Session.carry)(case.dictionary, case.saved)


def by_lines(session: Session | Desk, script: bytes) -> str:
    """What a session says to the lines of a script."""
    return "".join(session.line(line) for line in script.split(b"\n"))


def said(case: Served, answered: Callable[[Session | Desk, bytes], str]) -> tuple[bytes, int]:
    """The text and the status that the program has by the same words, where the script is answered so."""
    try:
        session = begun(case)
    except DictionaryRefused as refused:
        return f"{refused}\n".encode(), 1
    except SavedRefused as refused:
        return f"{refused}\n".encode(), 8
    with session:
        dropped = "".join(f"dropped {it.kind} {it.slot}\n" for it in session.dropped) if isinstance(session, Session) else ""
        text = answered(session, case.case.script)
        return session.save() if case.word == "save" else (dropped + text).encode(), 0


def wrong_in(path: Path, answered: Callable[[Session | Desk, bytes], str]) -> list[str]:
    """The cases of a file whose text or status isn't the stored one."""
    wrong, count = [], 0
    for count, (case, (text, status)) in enumerate(((case.case, said(case, answered)) for case in cases(path)), 1):
        if (text, status) != (case.due, case.status):
            wrong.append(f"{case.place}: {first_difference(case.due, text)}; status {status} for {case.status}")
    assert count, f"{path.name} has no case that the library serves"
    return wrong


@of_each_file
def test_each_line_has_the_stored_reply(path: Path) -> None:
    assert not wrong_in(path, by_lines)


@of_each_file
def test_each_call_has_the_stored_reply(path: Path) -> None:
    assert not wrong_in(path, replies)


def plain_cases(path: Path) -> Iterator[Served]:
    """The cases of a file that a plain session has: runs of a dictionary that is accepted, none of them large."""
    for case in cases(path):
        if case.word == "built-in":
            with Session.built_in(case.dictionary.decode()) as session:
                case = case._replace(dictionary=session.source)
        is_small = len(case.dictionary) + len(case.case.script) < LARGEST_PLAIN
        if case.word in ("run", "built-in") and case.case.status == 0 and is_small:
            yield case


@of_each_file
def test_the_plain_session_has_the_stored_replies(path: Path) -> None:
    for case in plain_cases(path):
        session = Plain(case.dictionary)
        text = "".join(map(session.line, case.case.script.split(b"\n")))
        assert text.encode() == case.case.due, case.case.place


@pytest.mark.parametrize("path", [path for path in FILES if path.stem == "tables"], ids=lambda path: str(path.name))
def test_the_plain_rules_refuse_the_same_tables(path: Path) -> None:
    count = 0
    for count, case in enumerate(cases(path), 1):
        due, said = case.case.due.decode(), refused(json.loads(case.dictionary))
        assert due == f"{said}\n" if said else not due.startswith("dictionary refused 3 "), case.case.place
    assert count > 1
