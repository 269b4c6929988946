"""The calls of a session, against what docs/COMMANDS.md and the stored cases say."""

from __future__ import annotations

import json
import os
import subprocess
import sys
import threading
from collections.abc import Callable
from datetime import date
from decimal import Decimal
from fractions import Fraction
from unittest import mock

import pytest

from fact_graph import DictionaryRefused, OutOfMemory, Refused, Result, SavedRefused, Session, SessionClosed, Watch
from fact_graph.values import Answer, text_of

from .places import DICTIONARIES, EXAMPLES, SUM, TOP


def refused(number: int, name: str, place: int | None, call: Callable[..., object], *arguments: object) -> None:
    """Holds a call to its refusal."""
    with pytest.raises(Refused) as raised:
        call(*arguments)
    assert (raised.value.number, raised.value.name, raised.value.place) == (number, name, place)


def test_the_sum_of_the_first_page() -> None:
    with Session(SUM) as session:
        assert session.get("/s") == Result("incomplete")
        session.set("/a", 5)
        assert session.get("/s") == Result("placeholder", Decimal("5.00"))
        assert session.final("/s") is None
        session.set("/b", Decimal("2"))
        assert session.get("/s") == ("complete", Decimal("7.00"), None)
        assert session.final("/s") == Decimal("7.00")
        session.undo()
        assert session.get("/s").kind == "placeholder"
        refused(5, "WrongKind", None, session.set, "/s", 8)


def test_changes_are_numbered() -> None:
    with Session(SUM.replace(',"placeholder":["Dollar","0"]', "")) as session:
        session.set("/a", 5)
        assert (session.touched(), session.stamp("/s"), session.stamp("/b")) == (2, 1, 0)
        session.set("/a", 5)
        assert session.touched() == 0
        session.undo()
        session.undo()
        assert (session.touched(), session.stamp("/s")) == (2, 4)


def test_missing_and_watches() -> None:
    with Session.open(DICTIONARIES / "two_amounts.json") as session:
        assert session.missing("/s").slots == ("/a", "/b")
        session.watch("completed", "/s")
        session.set("/a", 1)
        assert (session.missing("/s").slots, session.fired) == (("/b",), ())
        session.set("/b", 2)
        assert session.fired == (Watch("completed", "/s"),)
        refused(17, "WatchThere", None, session.watch, "completed", "/s")
        session.unwatch("completed", "/s")
        session.undo()
        assert not session.fired
        refused(19, "NotWatched", None, session.unwatch, "completed", "/s")


def test_limits_and_checks_have_a_place() -> None:
    with Session.open(EXAMPLES / "screener.json") as session:
        refused(8, "Check", 2, session.set, "/caseNumber", "12345")
        refused(7, "Limit", 2, session.set, "/bill", 6000)
        refused(4, "NoMember", None, session.set, "/people/#4/born", date(2001, 1, 1))
        refused(6, "BadValue", None, session.set, "/tenure", "leases")
        refused(3, "UnknownFact", None, session.get, "/nowhere")


EACH_TYPE: list[tuple[str, Answer, str]] = [
    ("/inArrears", True, "true"),
    ("/rooms", 7, "7"),
    ("/rent", Decimal("812.5"), "812.50"),
    ("/share", Fraction(2, 6), "1/3"),
    ("/movedIn", date(2024, 2, 29), "2024-02-29"),
    ("/name", "A. Muller", "A. Muller"),
    ("/tenure", "owns", "owns"),
]


@pytest.mark.parametrize("slot, value, text", EACH_TYPE)
def test_each_type_has_its_values(slot: str, value: Answer, text: str) -> None:
    with Session.open(EXAMPLES / "everything.json") as session:
        session.set(slot, value)
        assert session.get(slot) == Result("complete", value)
        assert type(session[slot]) is type(value)
        assert session.line(f"get {slot}") == f"complete {text}\n"


def test_members_and_what_follows_of_them() -> None:
    with Session.open(EXAMPLES / "everything.json") as session:
        session["/rooms"], session["/share"] = 7, Fraction(2, 6)
        assert [session.add("/people"), session.add("/people")] == [1, 2]
        session.set("/people/#1/born", date(2015, 6, 9))
        session.set("/people/#2/born", date(1970, 1, 1))
        assert session.get("/people") == Result("complete", (1, 2))
        assert session.get("/adults") == Result("placeholder", (2,))
        assert session.get("/firstAdult") == Result("complete", 2)
        assert session.get("/people/#2/birthYear") == Result("complete", 1970)
        assert session.get("/perRoom") == Result("complete", Fraction(2, 7))
        assert session.final("/people/#1/adult") is False
        session.remove("/people", 1)
        assert session.get("/people").value == (2,)


def test_a_fault_is_a_result() -> None:
    with Session(SUM) as session:
        session.set("/a", Decimal("9999999999999.99"))
        session.set("/b", Decimal("0.01"))
        assert session.get("/s") == Result("fault", None, "overflow")


def test_open_override_release_clear_redo() -> None:
    with Session.open(EXAMPLES / "screener.json") as session:
        session.open_list("/people")
        assert (session.get("/people").value, session.get("/size").value) == ((), 0)
        refused(10, "AlreadyOpen", None, session.open_list, "/people")
        session.override("/size", 3)
        assert session.final("/size") == 3
        session.release("/size")
        session.undo()
        assert session.get("/size").value == 3
        session.redo()
        assert session.get("/size").value == 0
        refused(14, "NothingToRedo", None, session.redo)
        session.set("/savings", 1)
        session.clear("/savings")
        assert session.get("/savings") == Result("placeholder", Decimal("0.00"))


def test_a_slot_and_a_value_stay_apart() -> None:
    text = '{"version":"1","facts":[{"path":"/t","writable":"Text"}]}'
    with Session(text) as session:
        refused(1, "BadLine", None, session.set, "/t a", "b")
        refused(6, "BadValue", None, session.set, "/t", "a\r")
        refused(6, "BadValue", None, session.set, "/t", "a\nset /t b")
        refused(2, "LongLine", None, session.set, "/t", "x" * 5000)
        assert session.get("/t") == Result("incomplete")
        session.set("/t", " grüße  ")
        assert session.get("/t").value == " grüße  "
        session.set("/t", "")
        assert session.get("/t") == Result("complete", "")
        with pytest.raises(TypeError):
            session.set("/t", 1.5)  # type: ignore[arg-type] # which is refused


def test_a_reply_longer_than_the_room() -> None:
    paths = [f"/f{number:03}" for number in range(400)]
    uses = [["Dependency", path] for path in paths]
    facts = [*({"path": path, "writable": "Int"} for path in paths), {"path": "/s", "derived": "Int", "is": ["Add", *uses]}]
    with Session(json.dumps({"version": "1", "facts": facts})) as session:
        assert list(session.missing("/s")) == paths


def test_lines() -> None:
    with Session(SUM) as session:
        assert session.line("get /s") == "incomplete\n"
        assert session.line("get /s\n") == "incomplete\n"
        assert session.line(b"get /a\xff") == "refused 1 BadLine\n"
        assert (session.line(""), session.line("# a note")) == ("", "")
        with pytest.raises(ValueError):
            session.line("get /s\nget /a")
        session.set("/a", 5)
        assert (session.line("quit"), session.line("get /s")) == ("", "")
        with pytest.raises(SessionClosed):
            session.get("/s")
        assert session.save() == b"saved 1\nnext 1\nvalue /a 5.00\nend\n"


def test_saved_texts() -> None:
    kept = "saved 1\nnext 1\nvalue /a 5.00\nend\n"
    with Session.load(SUM, kept) as session:
        assert session.get("/a").value == Decimal("5.00")
        refused(13, "NothingToUndo", None, session.undo)
        assert session.save() == kept.encode()
    for text, line in ((kept.replace("5.00", "5"), 3), ("", 1)):
        with pytest.raises(SavedRefused) as raised:
            Session.load(SUM, text)
        assert (raised.value.line, str(raised.value)) == (line, f"saved refused line {line}")
    carried = Session.carry(SUM.replace("/b", "/c"), kept.replace("end", "value /b 2.00\nend"))
    assert (carried.dropped, carried.get("/a").value) == ((("value", "/b", None),), Decimal("5.00"))


def test_a_text_from_outside() -> None:
    limited = SUM.replace('"/b","writable":"Dollar"', '"/b","writable":"Dollar","limits":[["Max","3"]]')
    text = "saved 1\nnext 1\nvalue /a 5.00\nvalue /b 4\noverride /s 9.00\nend\n"
    with Session.resume(limited, text) as session:
        value, override = session.dropped
        assert (value.kind, value.slot, str(value.refused)) == ("value", "/b", "refused 7 Limit 1")
        assert override == ("override", "/s", None)
        refused(7, "Limit", 1, session.set, "/b", 4)
        assert session.save() == b"saved 1\nnext 1\nvalue /a 5.00\nend\n"
    with pytest.raises(SavedRefused) as raised:
        Session.resume(limited, text.replace("next 1\n", ""))
    assert raised.value.line == 2


def test_a_dictionary_is_refused() -> None:
    with pytest.raises(DictionaryRefused) as raised:
        Session(SUM.replace('"/b"', '"/2nd"', 1))
    fault = raised.value
    assert (fault.number, fault.name, fault.fact, fault.node, fault.what) == (6, "BadPath", 2, None, None)
    assert str(fault) == "dictionary refused 6 BadPath fact 2"
    with pytest.raises(DictionaryRefused) as raised:
        Session(b"{")
    assert str(raised.value) == "dictionary refused 2 NotJson"


def test_what_the_dictionary_says() -> None:
    with Session.open(EXAMPLES / "screener.json") as session:
        said = session.dictionary
        bill, born = said.fact_at("/bill"), said.fact_at("/people/#2/born")
        assert (bill.type.name, bill.limits) == ("Dollar", (("Min", "0"), ("Max", "5000.00")))
        assert (born.path, born.collection, born.is_writable) == ("/people/*/born", "/people", True)
        assert said.options[said.fact_at("/tenure").type.of or ""] == ("rents", "owns", "other")


# ---- what isn't of the engine: closing, threads, want of memory, finding the library


def test_a_closed_session_raises() -> None:
    session = Session(SUM)
    with session:
        session.set("/a", 1)
    session.close()
    for call in (session.undo, session.save, lambda: session.get("/a"), lambda: session.line("get /a"), session.__enter__):
        with pytest.raises(SessionClosed):
            call()


def test_threads_share_a_session() -> None:
    with Session(SUM) as session:
        wrong: list[str] = []

        def ask(slot: str) -> None:
            for number in range(200):
                session.set(slot, number)
                if session.get(slot).value is None:
                    wrong.append(slot)

        threads = [threading.Thread(target=ask, args=(slot,)) for slot in ("/a", "/b", "/a", "/b")]
        for thread in threads:
            thread.start()
        for thread in threads:
            thread.join()
        assert (wrong, session.get("/s").value) == ([], Decimal("398.00"))


def test_want_of_memory() -> None:
    with Session(SUM) as session, mock.patch.object(session, "_answer", return_value=2), pytest.raises(MemoryError) as raised:
        session.get("/a")
    assert isinstance(raised.value, OutOfMemory)


def test_no_library() -> None:
    code = "import fact_graph\ntry: fact_graph.Session(b'')\nexcept fact_graph.LibraryMissing as wrong: print('FACT_GRAPH_LIBRARY' in str(wrong))"
    beside = {**os.environ, "FACT_GRAPH_LIBRARY": "/nowhere/libfact_graph.so", "PYTHONPATH": str(TOP / "python")}
    ran = subprocess.run([sys.executable, "-c", code], env=beside, capture_output=True, text=True, check=False)
    assert (ran.stdout, ran.stderr) == ("True\n", "")


def test_amounts_as_texts() -> None:
    for value, text in (("2.5", "2.50"), ("2", "2.00"), ("1E+3", "1000.00"), ("1.999", "1.999"), ("-0.5", "-0.50"), ("1E+999999", "1E+999999")):
        assert text_of(Decimal(value)) == text
