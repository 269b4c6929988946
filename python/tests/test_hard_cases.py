"""What a host comes to that isn't of the engine: forks, signals, threads, and what is no text, no value or of a newer library."""

# pylint: disable=protected-access, unnecessary-dunder-call # they look at what a session keeps, and call what `with` does

from __future__ import annotations

import copy
import enum
import gc
import os
import pickle
import signal
import threading
from collections.abc import Callable, Iterator
from concurrent.futures import ThreadPoolExecutor
from decimal import Decimal
from fractions import Fraction
from functools import partial
from pathlib import Path
from typing import Any, NoReturn
from unittest import mock

import pytest

from fact_graph import DictionaryRefused, FactGraphError, Refused, SavedRefused, Session, SessionBusy, SessionClosed, SessionForked
from fact_graph._library import Fault

FACTS = """{"version":"1","enums":[{"name":"tenure","options":["rents","owns"]}],"facts":[
  {"path":"/a","writable":"Dollar"},{"path":"/b","writable":"Dollar"},{"path":"/n","writable":"Int"},{"path":"/q","writable":"Rational"},
  {"path":"/t","writable":"Text"},{"path":"/e","writable":"Enum(tenure)"},{"path":"/p","writable":"Collection"},
  {"path":"/s","derived":"Dollar","is":["Add",["Dependency","/a"],["Dependency","/b"]]}]}"""
THREADS = 8

# Each call on a session.
CALLS: dict[str, Callable[[Session], object]] = {
    "set": lambda session: session.set("/a", 1),
    "clear": lambda session: session.clear("/a"),
    "open_list": lambda session: session.open_list("/p"),
    "add": lambda session: session.add("/p"),
    "remove": lambda session: session.remove("/p", 1),
    "override": lambda session: session.override("/s", 1),
    "release": lambda session: session.release("/s"),
    "undo": lambda session: session.undo(),
    "redo": lambda session: session.redo(),
    "changes": lambda session: session.changes().__enter__(),
    "get": lambda session: session.get("/a"),
    "final": lambda session: session.final("/a"),
    "missing": lambda session: session.missing("/s"),
    "members": lambda session: session.members("/p"),
    "why": lambda session: session.why("/s"),
    "reads": lambda session: session.reads("/s"),
    "stamp": lambda session: session.stamp("/a"),
    "touched": lambda session: session.touched(),
    "watch": lambda session: session.watch("changed", "/a"),
    "unwatch": lambda session: session.unwatch("changed", "/a"),
    "in": lambda session: "/a" in session,
    "save": lambda session: session.save(),
    "line": lambda session: session.line("get /a"),
    "copy": copy.copy,
    "with": lambda session: session.__enter__(),
    "close": lambda session: session.close(),
}


@pytest.fixture(name="session")
def opened() -> Iterator[Session]:
    """A session over the facts."""
    with Session(FACTS) as session:
        yield session


def raised_by(call: Callable[[], object]) -> str:
    """The name of what a call raises, or no text."""
    try:
        call()
    except Exception as wrong:  # pylint: disable=broad-exception-caught # its name is what is asked for
        return type(wrong).__name__
    return ""


def in_child(work: Callable[[], str]) -> str:
    """What a forked child says, which ends in any case."""
    reading, writing = os.pipe()
    child = os.fork()
    if child == 0:
        try:
            os.write(writing, work().encode())
        finally:
            os._exit(0)
    os.close(writing)
    with os.fdopen(reading) as told:
        said = told.read()
    assert os.waitpid(child, 0)[1] == 0
    return said


# ---- forks

def test_each_call_in_a_child_is_refused_by_name(session: Session) -> None:
    """The child makes none of them, and the parent's session goes on."""
    session.set("/a", 5)
    said = in_child(lambda: " ".join(name for name, call in CALLS.items() if raised_by(partial(call, session)) != "SessionForked"))
    assert said == ""
    assert session.get("/a").value == Decimal("5.00")


def test_a_session_ends_in_its_own_process_alone(session: Session) -> None:
    """A child doesn't free what the parent's library may be at work on, nor does the end of a block there."""
    kept = [Session(FACTS)]

    def end_all() -> str:
        finaliser = kept[0]._end
        was_alive = finaliser.alive
        kept.clear()
        gc.collect()
        with session:
            pass
        return f"{was_alive}"

    assert in_child(lambda: raised_by(session.__exit__)) == ""
    assert in_child(lambda: raised_by(end_all)) == "SessionForked"
    assert in_child(lambda: str(kept[0]._end.alive)) == "False"
    assert kept[0]._end.alive and kept[0].get("/s").kind == "incomplete"


def test_a_child_waits_for_no_thread_of_its_parent(session: Session) -> None:
    """A thread that has the session at the fork isn't there in the child."""
    begun, over = threading.Event(), threading.Event()

    def hold() -> None:
        with session._lock:
            begun.set()
            over.wait()

    thread = threading.Thread(target=hold)
    thread.start()
    begun.wait()
    try:
        assert in_child(lambda: raised_by(lambda: session.get("/a"))) == "SessionForked"
    finally:
        over.set()
        thread.join()


def test_a_child_has_sessions_of_its_own() -> None:
    """What is opened behind the fork is the child's."""
    assert in_child(lambda: Session(FACTS).line("get /a")) == "incomplete\n"


def test_a_block_of_changes_ends_in_a_child_without_a_word(session: Session) -> None:
    """What raised within is what comes out of it."""
    def leave() -> str:
        try:
            with session.changes():
                assert os.getpid() == parent
                child = os.fork()
                if child == 0:
                    raise KeyError("within")
                os.waitpid(child, 0)
        except KeyError:
            os.write(writing, b"KeyError")
            os._exit(0)
        return ""

    parent = os.getpid()
    reading, writing = os.pipe()
    leave()
    os.close(writing)
    with os.fdopen(reading) as told:
        assert told.read() == "KeyError"
    assert session.get("/a").kind == "incomplete"


# ---- signals

@pytest.mark.parametrize("name", [name for name in CALLS if name not in ("with", "copy")])
def test_a_handler_within_a_call_is_told_so(session: Session, name: str) -> None:
    """A signal's handler that comes while a call is made has an error, and the call ends as ever."""
    seen: list[str] = []
    handled = signal.signal(signal.SIGUSR1, lambda number, frame: seen.append(raised_by(lambda: CALLS[name](session))))
    answer = session._answer

    def interrupted(line: str | bytes) -> str | int:
        said = answer(line)
        signal.raise_signal(signal.SIGUSR1)
        return said

    try:
        with mock.patch.object(session, "_answer", interrupted):
            session.set("/a", 5)
    finally:
        signal.signal(signal.SIGUSR1, handled)
    assert seen == ["SessionBusy"]
    assert session.get("/a").value == Decimal("5.00")


def test_what_a_handler_raises_leaves_the_session_as_it_is(session: Session) -> None:
    """Ctrl-C in the middle of a call isn't the end of the session."""
    answer = session._answer

    def interrupted(line: str | bytes) -> NoReturn:
        answer(line)
        raise KeyboardInterrupt

    with mock.patch.object(session, "_answer", interrupted), pytest.raises(KeyboardInterrupt):
        session.set("/a", 5)
    assert session.get("/a").value == Decimal("5.00")


def test_handlers_at_any_moment() -> None:
    """A timer's handler calls the session some thousand times, at whatever moment: it is answered or told to wait."""
    def interrupted() -> str:
        session, seen = Session(FACTS), []

        def handle(_number: int, _frame: object) -> None:
            seen.append(raised_by(lambda: session.get("/s")))
            signal.setitimer(signal.ITIMER_REAL, 0.0002)  # however long it took, so that the calls go on

        signal.signal(signal.SIGALRM, handle)
        signal.setitimer(signal.ITIMER_REAL, 0.0002)
        for number in range(20_000):
            session.set("/a", number)
        signal.setitimer(signal.ITIMER_REAL, 0)
        return f"{session.get('/a').value} {bool(seen)} {set(seen) <= {'', 'SessionBusy'}}"

    assert in_child(interrupted) == "19999.00 True True"


# ---- threads

def answered(session: Session, slot: str) -> set[object]:
    """The kinds of results that a thread sees which sets a slot and asks for it."""
    seen: set[object] = set()
    for number in range(300):
        session.set(slot, number)
        seen.add(session.get(slot).kind)
        seen.add(session.line(f"get {slot}").endswith(".00\n"))
    return seen


def test_eight_threads_with_a_session_each() -> None:
    """Calls of different sessions run side by side."""
    sessions = [Session(FACTS) for _ in range(THREADS)]
    with ThreadPoolExecutor(THREADS) as pool:
        assert list(pool.map(answered, sessions, ["/a"] * THREADS)) == [{"complete", True}] * THREADS
    assert [session.save() for session in sessions] == [b"saved 1\nnext 1\nvalue /a 299.00\nend\n"] * THREADS


def test_one_session_from_eight_threads(session: Session) -> None:
    """One call is made at a time, and each thread has the replies to its own."""
    with ThreadPoolExecutor(THREADS) as pool:
        assert list(pool.map(answered, [session] * THREADS, ["/a", "/b"] * (THREADS // 2))) == [{"complete", True}] * THREADS
    assert session.get("/s").value == Decimal("598.00")
    session.undo()


# ---- what is no text

@pytest.mark.parametrize("text", [Path("facts.json"), 3, 10**10, None, [123], 2.5], ids=repr)
def test_what_is_no_text_is_a_type_error(session: Session, text: Any) -> None:
    """Neither for a dictionary, nor for a saved text, a line or a slot."""
    calls: list[Callable[[Any], object]] = [
        Session, lambda it: Session.load(FACTS, it), lambda it: Session.carry(it, b""), session.line, session.get, session.clear, session.add,
        lambda it: session.set(it, 1), lambda it: session.watch("changed", it), lambda it: session.watch(it, "/a"),
    ]
    for call in calls:
        with pytest.raises(TypeError):
            call(text)


@pytest.mark.parametrize("kind", [bytes, bytearray, memoryview])
def test_texts_as_bytes(kind: Callable[[bytes], Any]) -> None:
    """Bytes in any of the forms that Python has for them."""
    with Session(kind(FACTS.encode())) as session:
        assert session.line(kind(b"set /a 5")) == "ok\n"
        assert Session.load(kind(FACTS.encode()), kind(session.save())).get("/a").value == Decimal("5.00")


@pytest.mark.parametrize("value", [None, 2.5, (1,), [1], object(), b"5", complex(1)], ids=lambda it: type(it).__name__)
def test_what_is_no_value_is_a_type_error(session: Session, value: Any) -> None:
    """`set` and `override` take what their type says."""
    for call in (session.set, session.override):
        with pytest.raises(TypeError):
            call("/a", value)
    with pytest.raises(TypeError):
        session.remove("/p", value)


def test_half_of_a_character_is_refused(session: Session) -> None:
    """A lone surrogate is refused as the bytes are that it would come to."""
    half = "\ud800"
    calls: list[Callable[[], object]] = [lambda: session.set("/t", half), lambda: session.get("/" + half), lambda: session.watch(half, "/a")]
    for call in calls:
        with pytest.raises(Refused, match="refused 1 BadLine"):
            call()
    assert session.line("set /t " + half) == "refused 1 BadLine\n"
    with pytest.raises(DictionaryRefused, match="dictionary refused 2 NotJson"):
        Session(FACTS.replace("rents", half))
    with pytest.raises(SavedRefused, match="saved refused line 3"):
        Session.load(FACTS, f"saved 1\nnext 1\nvalue /t {half}\nend\n")


def test_numbers_of_any_length_are_refused(session: Session) -> None:
    """Python's own limit on digits isn't in the way."""
    long = 10**5000
    calls: list[Callable[[], object]] = [
        lambda: session.set("/n", long),
        lambda: session.set("/a", long),
        lambda: session.set("/q", Fraction(long, 3)),
        lambda: session.override("/s", -long),
        lambda: session.remove("/p", long),
    ]
    for call in calls:
        with pytest.raises(Refused, match="refused 2 LongLine"):
            call()
    with pytest.raises(Refused, match="refused 6 BadValue"):
        session.set("/n", 10**1000)


class Tenure(str, enum.Enum):
    """An option as an enum of the host's."""

    RENTS = "rents"


class Count(enum.IntEnum):
    """A number as an enum of the host's."""

    TWO = 2


def test_enums_of_the_host(session: Session) -> None:
    """They are texts and numbers by their values."""
    session.set("/e", Tenure.RENTS)
    session.set("/n", Count.TWO)
    assert (session.get("/e").value, session.get("/n").value) == ("rents", 2)


# ---- what a newer library says

def test_a_fault_of_a_newer_library_has_its_number() -> None:
    """This package has no name for it."""
    error = Fault(number=41, fact=3, node=2**32 - 1, what=2**32 - 1, line=0).error()
    assert isinstance(error, DictionaryRefused)
    assert (error.number, error.name, str(error)) == (41, "UnknownFault", "dictionary refused 41 UnknownFault fact 3")
    assert str(pickle.loads(pickle.dumps(error))) == str(error)


def test_an_end_that_a_newer_library_gives(session: Session) -> None:
    """It is no want of memory."""
    with mock.patch.object(session, "_answer", return_value=7), pytest.raises(FactGraphError, match="with 7,") as raised:
        session.get("/a")
    assert not isinstance(raised.value, (MemoryError, SessionClosed, SessionBusy, SessionForked))
