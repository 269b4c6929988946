"""Desks: several parties at one session, against what docs/COMMANDS.md says."""

from __future__ import annotations

import os
import signal
import threading
from collections.abc import Callable
from decimal import Decimal
from pathlib import Path

import pytest

from fact_graph import (
    Desk,
    DictionaryRefused,
    Party,
    Refused,
    Result,
    SavedRefused,
    Session,
    SessionBusy,
    SessionClosed,
    SessionForked,
    UnknownDictionary,
    UnknownSlot,
)

from .places import DICTIONARIES, EXAMPLES

TWO = DICTIONARIES / "two_amounts.json"


def refused(raised: pytest.ExceptionInfo[Refused]) -> tuple[int, str, int | None]:
    """What a refusal says."""
    return raised.value.number, raised.value.name, raised.value.place


def test_an_edit_over_anothers_change_is_stale_until_the_party_has_looked() -> None:
    with Desk.open(TWO) as desk:
        one, two = desk.party(1), desk.party(2)
        one["/a"] = 5
        with pytest.raises(Refused) as raised:
            two["/a"] = 6
        assert refused(raised) == (20, "Stale", 1)
        assert two.get("/a") == Result("complete", Decimal("5.00"))
        two["/a"] = 6
        with pytest.raises(Refused) as raised:
            one.undo()
        assert refused(raised) == (21, "NotYours", 2)
        two.undo()
        with pytest.raises(Refused) as raised:
            one.redo()
        assert refused(raised) == (21, "NotYours", 2)
        assert one["/a"] == Decimal("5.00")


def test_each_way_to_look_is_one() -> None:
    for look in (Party.get, Party.final, Party.stamp):
        with Desk.open(TWO) as desk:
            desk.party(1)["/a"] = 5
            look(desk.party(2), "/a")
            desk.party(2)["/a"] = 6
    with Desk.open(TWO) as desk:
        desk.party(1)["/a"] = 5
        assert desk.party(2).missing("/s") == ("/b",)
        with pytest.raises(Refused):
            del desk.party(2)["/a"]


def test_parties_share_members_and_overrides() -> None:
    with Desk.open(EXAMPLES / "screener.json") as desk:
        filer, reviewer = desk.party(1), desk.party(16)
        member = filer.add("/people")
        filer[f"/people/#{member}/wages"] = 900
        assert reviewer["/people"] == (1,)
        with pytest.raises(Refused) as raised:
            reviewer.override("/size", 3)
        assert refused(raised) == (20, "Stale", 1) and reviewer["/size"] == 1
        reviewer.override("/size", 3)
        assert filer["/size"] == 3
        with pytest.raises(Refused):
            desk.party(2).release("/size")
        reviewer.release("/size")
        assert filer["/size"] == 1
        reviewer.remove("/people", member)
        with pytest.raises(UnknownSlot):
            filer.get(f"/people/#{member}/wages")
        assert (filer.stamp("/people"), filer.touched() > 0) == (5, True)


def test_a_desk_is_opened_as_a_session_is() -> None:
    text = TWO.read_bytes()
    for desk in (Desk(text), Desk(text.decode()), Desk.open(TWO), Desk.open(text)):
        with desk:
            assert desk.line("@1 get /s") == "@1 incomplete\n"
    with Desk.open("year 2023") as desk:
        desk.party(1)["/married"] = True
        assert desk.party(2).final("/married") is True
    with pytest.raises(DictionaryRefused):
        Desk("no dictionary")
    with pytest.raises(UnknownDictionary):
        Desk.built_in("year 1900")
    with pytest.raises(SavedRefused) as raised:
        Desk.load(text, "saved 1\nnext one\n")
    assert raised.value.line == 2


def test_a_saved_text_goes_from_a_desk_to_a_session_and_back() -> None:
    text = TWO.read_bytes()
    with Desk(text) as desk:
        desk.party(1)["/a"], desk.party(2)["/b"] = 1, 2
        saved = desk.save()
    with Session.load(text, saved) as session:
        assert session["/s"] == Decimal("3.00") and session.save() == saved
    with Desk.load(text, saved) as desk:
        assert desk.save() == saved
        desk.party(3)["/a"] = 7
        with pytest.raises(Refused) as raised:
            desk.party(1)["/a"] = 8
        assert refused(raised) == (20, "Stale", 1)


def test_a_line_is_answered_as_the_program_does() -> None:
    with Desk.open(TWO) as desk:
        assert desk.line("") == desk.line(b"# \xff") == ""
        assert desk.line("get /a") == desk.line("@17 get /a") == desk.line("@1\n") == "refused 1 BadLine\n"
        assert desk.line("@1 watch changed /a") == "@1 refused 1 BadLine\n"
        assert desk.line("@2 missing /s") == "@2 missing 2\n@2 /a\n@2 /b\n"
        assert desk.line(b"@1 " + b"x" * 4094) == "refused 2 LongLine\n"
        with pytest.raises(ValueError):
            desk.line("@1 set /a 1\n@1 undo")


def test_a_party_has_a_number() -> None:
    with Desk.open(TWO) as desk:
        assert [desk.party(k).number for k in (1, 16)] == [1, 16]
        for number in (0, 17, -1):
            with pytest.raises(ValueError):
                desk.party(number)
        assert repr(desk) == "<Desk>" and repr(desk.party(2)) == "<Party 2 of a Desk>"


def test_a_value_is_no_second_command() -> None:
    with Desk(b'{"version":"1","facts":[{"path":"/t","writable":"Text"}]}') as desk:
        party = desk.party(1)
        for text in ("a b", "", " @2 get /t", "a\u2028b"):
            party["/t"] = text
            assert party["/t"] == text
        with pytest.raises(Refused) as raised:
            party["/t x"] = "y"
        assert refused(raised) == (1, "BadLine", None)


def test_quit_of_any_party_ends_the_desk() -> None:
    desk = Desk.open(TWO)
    desk.party(1)["/a"] = 1
    assert desk.line("@2 quit") == desk.line("@1 get /a") == ""
    with pytest.raises(SessionClosed):
        desk.party(1).undo()
    assert b"value /a 1.00" in desk.save()
    desk.close()
    desk.close()
    calls: list[Callable[[], object]] = [desk.save, lambda: desk.line("@1 undo"), lambda: desk.party(1).get("/a")]
    for call in calls:
        with pytest.raises(SessionClosed):
            call()
    assert repr(desk) == "<Desk, closed>"


def test_threads_are_parties() -> None:
    with Desk.open(EXAMPLES / "screener.json") as desk:
        def add(number: int) -> None:
            for _ in range(10):
                desk.party(number).add("/people")

        threads = [threading.Thread(target=add, args=(number,)) for number in range(1, 9)]
        for thread in threads:
            thread.start()
        for thread in threads:
            thread.join()
        assert desk.party(1)["/people"] == tuple(range(1, 81))


def test_a_handler_is_told_that_a_call_has_not_ended() -> None:
    with Desk.open(TWO) as desk:
        told = []

        def handler(*_: object) -> None:
            try:
                desk.save()
            except SessionBusy as busy:
                told.append(busy)

        before = signal.signal(signal.SIGUSR1, handler)
        try:
            with desk._held():  # pylint: disable=protected-access # a call that hasn't ended
                os.kill(os.getpid(), signal.SIGUSR1)
        finally:
            signal.signal(signal.SIGUSR1, before)
        assert told and desk.line("@1 get /a") == "@1 incomplete\n"


def test_a_forked_child_has_no_desk(tmp_path: Path) -> None:
    desk = Desk.open(TWO)
    child = os.fork()
    if child == 0:
        said = ""
        try:
            desk.party(1).get("/a")
        except SessionForked:
            said = "forked"
        (tmp_path / "said").write_text(said)
        os._exit(0)  # pylint: disable=protected-access # as a child ends that was forked
    os.waitpid(child, 0)
    assert (tmp_path / "said").read_text() == "forked"
    assert desk.line("@1 get /a") == "@1 incomplete\n"
    desk.close()
