"""How many changes a session keeps for undo."""

from __future__ import annotations

import copy
import pickle
from decimal import Decimal

import pytest

from fact_graph import Refused, Session

from .places import SUM


class Stop(Exception):
    """What ends a block."""


def answered(count: int, undo: int | None) -> Session:
    """A session of so many changes, whose last answer is their number."""
    session = Session(SUM, undo=undo)
    for number in range(1, count + 1):
        session["/a"] = number
    return session


def undone(session: Session) -> int:
    """How many changes can be undone, all of which are."""
    for count in range(1_000):
        try:
            session.undo()
        except Refused as refused:
            assert refused.name == "NothingToUndo"
            return count
    raise AssertionError("no end")


@pytest.mark.parametrize(("undo", "due"), [(None, 5), (0, 0), (1, 1), (4, 4), (5, 5), (6, 5), (2**70, 5)])
def test_the_newest_changes_are_kept(undo: int | None, due: int) -> None:
    with answered(5, undo) as session:
        assert (session.stamp("/a"), session["/a"]) == (5, Decimal(5))
        assert undone(session) == due
        assert session["/a"] == (Decimal(5 - due) if due < 5 else None)
        for _ in range(due):
            session.redo()
        assert session["/a"] == Decimal(5) and undone(session) == due


def test_lines_are_changes_too() -> None:
    with Session(SUM, undo=1) as session:
        assert [session.line(line) for line in ("set /a 1", "set /a 2", "undo", "undo", "redo", "undo")] == [
            "ok\n", "ok\n", "ok\n", "refused 13 NothingToUndo\n", "ok\n", "ok\n"
        ]  # fmt: skip


def test_a_block_keeps_its_changes_until_it_ends() -> None:
    session = answered(3, 2)
    with pytest.raises(Stop), session.changes():
        for number in range(10, 20):
            session["/a"] = number
        with session.changes():
            session["/a"], session["/b"] = 20, 21
        raise Stop
    assert (session["/a"], session.get("/b").kind, undone(session)) == (Decimal(3), "placeholder", 2)
    session.redo()
    session.redo()
    with session.changes():
        for number in range(10, 20):
            session["/a"] = number
    assert undone(session) == 2 and session["/a"] == Decimal(17)


def test_a_block_may_end_the_session() -> None:
    session = answered(3, 1)
    with session.changes():
        session["/a"] = 4
        session.close()


def test_copies_keep_as_many() -> None:
    session = answered(3, 2)
    begun = [begin(SUM, session.save(), undo=2) for begin in (Session.load, Session.carry)]
    for other in (copy.copy(session), pickle.loads(pickle.dumps(session)), *begun):
        for number in range(5):
            other["/a"] = number
        assert undone(other) == 2


@pytest.mark.parametrize("undo", [-1, -(2**70)])
def test_no_number_below_0(undo: int) -> None:
    with pytest.raises(ValueError, match="from 0 on"):
        Session(SUM, undo=undo)
