"""A session as Python people use one: as a container of slots, in blocks of changes, copied and pickled."""

from __future__ import annotations

import copy
import json
import pickle
import signal
import threading
from collections.abc import Callable, Iterator
from decimal import Decimal
from unittest import mock

import pytest

from fact_graph import Refused, Result, Session, SessionClosed, UnknownSlot, Watch

from .places import EXAMPLES, SUM

class Stop(Exception):
    """What ends a block."""


@pytest.fixture(name="session")
def _session() -> Session:
    return Session(SUM)


@pytest.fixture(name="screener")
def _screener() -> Session:
    return Session.open(EXAMPLES / "screener.json")


@pytest.fixture(name="interrupts")
def _interrupts() -> Iterator[None]:
    # what runs behind a shell's `&` ignores this signal
    before = signal.signal(signal.SIGINT, signal.default_int_handler)
    yield
    signal.signal(signal.SIGINT, before)


# ---- a container


def test_slots_are_read_set_and_cleared(session: Session) -> None:
    assert (session["/a"], session["/b"]) == (None, Decimal("0.00"))
    session["/a"] = 5
    assert (session["/a"], session["/s"], session.get("/s").kind) == (Decimal("5.00"), Decimal("5.00"), "placeholder")
    del session["/a"]
    assert session.get("/a") == Result("incomplete")


def test_a_fault_has_no_value(session: Session) -> None:
    session["/a"], session["/b"] = "9999999999999.99", 1
    assert session["/s"] is None and session.get("/s").fault == "overflow"


@pytest.mark.parametrize("slot", ["/nowhere", "/people/#1/born", "/people/#1/nothing"])
def test_a_slot_that_does_not_stand_is_a_key_error(screener: Session, slot: str) -> None:
    for verb in ("get", "final", "clear"):
        with pytest.raises(KeyError) as raised:
            getattr(screener, verb)(slot)
        assert isinstance(raised.value, UnknownSlot)
    assert slot not in screener


@pytest.mark.parametrize("slot", ["bill", "/bill ", "/bill\n", "/people/#01/born", "/people/*/born", "", 5, None])
def test_what_is_no_path_is_in_no_session(screener: Session, slot: object) -> None:
    screener.add("/people")
    assert slot not in screener


def test_the_slots_are_those_that_stand(screener: Session) -> None:
    assert set(screener) == {path for path, fact in screener.dictionary.facts.items() if fact.collection is None}
    screener.add("/people")
    screener.add("/people")
    screener.remove("/people", 1)
    assert all(slot in screener for slot in screener)
    assert [slot for slot in screener if "#" in slot] == [f"/people/#2/{name}" for name in ("born", "wages", "adult", "elderly")]
    assert screener.members("/people") == (2,) and screener.members("/adults") == () and screener.members("/bill") == ()


def test_the_library_lists_the_facts(screener: Session) -> None:
    facts = screener.facts()
    assert list(facts) == list(screener.dictionary.facts)
    for path, fact in screener.dictionary.facts.items():
        listed = facts[path]
        assert (listed.path, listed.is_writable, listed.type, listed.collection) == (path, fact.is_writable, fact.type, fact.collection)
    facts.clear()
    screener.close()
    assert screener.facts()["/people/*/born"].collection == "/people"


def test_the_library_says_descriptions(screener: Session) -> None:
    for path, fact in screener.dictionary.facts.items():
        assert screener.description(path) == fact.description
    assert screener.description("/people/#2/wages") == screener.description("/people/*/wages")
    for slot in ("/nowhere", "/people/#2/nowhere", "/bill ", ""):
        with pytest.raises(UnknownSlot, match="refused 3 UnknownFact"):
            screener.description(slot)
    stated = json.dumps({"version": "1", "facts": [{"path": "/a", "writable": "Text", "description": "refused 1 \0\n\u20ac"}]})
    with Session(stated) as session:
        assert session.description("/a") == "refused 1 \0\n\u20ac"
    with pytest.raises(SessionClosed):
        session.description("/a")


def test_members_may_be_added_while_slots_are_gone_through(screener: Session) -> None:
    for slot in screener:
        if slot == "/people":
            screener.add(slot)
    assert screener.members("/people") == (1,)


def test_a_session_says_what_it_is(session: Session) -> None:
    assert repr(session) == "<Session over 3 facts>"
    session.close()
    assert repr(session) == "<Session over 3 facts, closed>"


def test_a_dictionary_is_opened_by_its_path_or_its_bytes() -> None:
    path = EXAMPLES / "three.json"
    assert Session.open(path).dictionary == Session.open(str(path)).dictionary == Session.open(path.read_bytes()).dictionary


# ---- copies


@pytest.mark.parametrize("again", [copy.copy, copy.deepcopy, lambda session: pickle.loads(pickle.dumps(session))])
def test_a_copy_goes_on_by_itself(screener: Session, again: Callable[[Session], Session]) -> None:
    screener.add("/people")
    screener["/people/#1/wages"] = 100
    screener.override("/size", 4)
    other = again(screener)
    assert other.save() == screener.save() and other["/size"] == 4
    with pytest.raises(Refused, match="NothingToUndo"):
        other.undo()
    other["/bill"] = 1
    assert screener["/bill"] is None


def test_a_closed_session_is_not_copied(session: Session) -> None:
    session.close()
    with pytest.raises(SessionClosed):
        copy.copy(session)


# ---- blocks of changes


def test_a_block_that_ends_keeps_its_changes(session: Session) -> None:
    with session.changes():
        session["/a"], session["/b"] = 1, 2
    assert session["/s"] == Decimal("3.00")
    session.undo()
    assert session.get("/s") == Result("placeholder", Decimal("1.00"))


def test_a_block_that_fails_is_undone(session: Session) -> None:
    session["/a"] = 1
    before = session.save()
    with pytest.raises(Stop), session.changes():
        session["/a"] = 2
        session.line("set /b 3")
        session.line(b"clear /a\r")
        session.override("/s", 9)
        session.undo()
        session.redo()
        raise Stop
    assert session.save() == before
    for _ in range(4):
        session.redo()
    assert session["/s"] == Decimal("9.00")


def test_a_refusal_in_a_block_undoes_what_came_before_it(screener: Session) -> None:
    with pytest.raises(Refused, match="Limit 2"), screener.changes():
        screener["/bill"] = 10
        member = screener.add("/people")
        screener[f"/people/#{member}/wages"] = 5
        screener["/bill"] = 6000
    assert screener.save() == b"saved 1\nnext 1\nend\n"


def test_a_refusal_that_is_caught_counts_for_nothing(session: Session) -> None:
    with session.changes():
        session["/a"] = 1
        for wrong in ("x", "1.234"):
            with pytest.raises(Refused):
                session["/b"] = wrong
        assert session.line("set /b x") == "refused 6 BadValue\n"
        session["/b"] = 2
    assert session["/s"] == Decimal("3.00")


def test_an_inner_block_is_undone_alone(session: Session) -> None:
    with session.changes():
        session["/a"] = 1
        with pytest.raises(Stop), session.changes():
            session["/a"], session["/b"] = 2, 3
            raise Stop
        assert session["/s"] == Decimal("1.00")
        session["/b"] = 4
    assert session["/s"] == Decimal("5.00")


def test_an_outer_block_undoes_its_inner_ones(session: Session) -> None:
    session["/b"] = 7
    with pytest.raises(Stop), session.changes():
        session["/a"] = 1
        with session.changes():
            session["/a"] = 2
        raise Stop
    assert session.get("/s") == Result("incomplete") and session["/b"] == Decimal("7.00")


def test_undo_stays_within_a_block(session: Session) -> None:
    session["/a"] = 1
    with session.changes():
        with pytest.raises(Refused, match="13 NothingToUndo"):
            session.undo()
        assert session.line("undo") == session.line("undo\r") == "refused 13 NothingToUndo\n"
        assert session.line("undo ") == "refused 1 BadLine\n"
        session["/a"] = 2
        session.undo()
        with pytest.raises(Refused, match="NothingToUndo"):
            session.undo()
    session.undo()
    assert session["/a"] is None


def test_a_block_may_begin_with_redo(session: Session) -> None:
    session["/a"] = 1
    session.undo()
    with pytest.raises(Stop), session.changes():
        session.redo()
        raise Stop
    assert session["/a"] is None
    session.redo()
    assert session["/a"] == Decimal("1.00")


@pytest.mark.parametrize("end", [lambda session: session.close(), lambda session: session.line("quit")])
def test_a_block_in_which_the_session_ends_has_its_own_exception(session: Session, end: Callable[[Session], object]) -> None:
    with pytest.raises(Stop), session.changes():
        session["/a"] = 1
        end(session)
        raise Stop


def test_other_threads_wait_for_the_end_of_a_block(session: Session) -> None:
    said: list[object] = []

    def answer() -> None:
        session["/b"] = 5
        said.append(session["/a"])

    other = threading.Thread(target=answer)
    with pytest.raises(Stop), session.changes():
        session["/a"] = 1
        other.start()
        other.join(0.05)
        assert other.is_alive() and not said
        session["/a"] = 2
        raise Stop
    other.join()
    assert said == [None] and session.save() == b"saved 1\nnext 1\nvalue /b 5.00\nend\n"


@pytest.mark.usefixtures("interrupts")
@pytest.mark.parametrize("is_made", [True, False])
def test_a_signal_within_a_call_loses_count_of_nothing(session: Session, is_made: bool) -> None:
    session["/a"] = 1
    answer = session._answer  # pylint: disable=protected-access # what a signal comes behind

    def interrupted(line: str | bytes) -> str | int:
        said = answer(line) if is_made else 0
        signal.raise_signal(signal.SIGINT)
        return said

    with pytest.raises(KeyboardInterrupt), session.changes():
        session["/b"] = 2
        with mock.patch.object(session, "_answer", interrupted):
            session["/a"] = 3
    assert session.save() == b"saved 1\nnext 1\nvalue /a 1.00\nend\n"


def test_watches_fire_in_a_block_too(session: Session) -> None:
    session.watch("completed", "/s")
    with session.changes():
        session["/a"], session["/b"] = 1, 2
        assert session.fired == (Watch("completed", "/s"),)
