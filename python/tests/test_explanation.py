"""Why a result is what it is, and what it still wants, as trees."""

from __future__ import annotations

import copy
import dataclasses
import json
import pickle
import sys
import threading
from collections import Counter
from typing import cast
from unittest import mock

import pytest
from hypothesis import given
from oracle.session import Session as Plain

from fact_graph import Explanation, Missing, Session, UnknownSlot
from fact_graph.dictionary import ListedFact
from fact_graph.explanation import Walk
from fact_graph.values import Result

from .interviews import Interview, interviews
from .places import EXAMPLES, SUM
from .trees import agree

LONG = 5_000


@given(interviews())
def test_the_trees_are_those_of_plain_evaluation(interview: Interview) -> None:
    plain = Plain(interview.dictionary)
    with Session(interview.dictionary) as session:
        for line in interview.lines:
            assert session.line(line) == plain.line(line.encode())
        for slot in session:
            agree(session, plain, slot)


def test_a_placeholder_may_want_answers_of_its_own() -> None:
    """So what is missing may have something below it."""
    stands_in = SUM.replace('"placeholder":["Dollar","0"]', '"placeholder":["Dependency","/a"]')
    with Session(stands_in) as session:
        assert session.missing("/b").slots == ("/a", "/b")
        assert str(session.missing("/b")).splitlines() == ["/b incomplete (missing)", "  /a incomplete (missing)"]


def test_an_override_is_told_and_has_nothing_below_it() -> None:
    with Session(SUM) as session:
        session.override("/s", 3)
        assert str(session.why("/s")) == "/s final 3.00 (override)"
        session.release("/s")
        assert [it.slot for it in session.why("/s") if it.is_overridden] == []


def test_no_answer_looks_like_an_override() -> None:
    """A text may have characters at which some split lines."""
    facts = [{"path": "/t", "writable": "Text"}, {"path": "/one", "derived": "Int", "is": ["Int", "1"]}]
    with Session(json.dumps({"version": "1", "facts": facts})) as session:
        session["/t"] = "a\u2028override /one 1"
        assert not session.why("/one").is_overridden


def test_a_fault_and_a_list_are_shown_as_a_session_says_them() -> None:
    with Session(SUM) as session:
        session["/a"], session["/b"] = "9999999999999.99", 1
        assert session.why("/s").said == "fault overflow"
    with Session.open(EXAMPLES / "everything.json") as session:
        for line in (EXAMPLES / "everything.script").read_text().splitlines():
            session.line(line)
        for slot in session:
            assert session.why(slot, depth=0).said.replace("final ", "complete ") == session.line(f"get {slot}").removesuffix("\n")


def test_a_description_is_one_line_where_its_slot_stands_first() -> None:
    described = SUM.replace('"/a","writable":"Dollar"', r'"/a","writable":"Dollar","description":" one\n\ttwo\u001b[31m "')
    twice = described.replace('["Dependency","/b"]', '["Dependency","/b"],["Dependency","/t"]').replace(
        '{"path":"/s"', '{"path":"/t","derived":"Dollar","is":["Dependency","/a"]},{"path":"/s"'
    )
    with Session(twice) as session:
        assert session.why("/s").children[0].description == " one\n\ttwo\x1b[31m "
        first = ["/s incomplete", "  /a incomplete (missing)  # one two [31m", "  /b placeholder 0.00 (missing)"]
        assert str(session.why("/s")).splitlines() == [*first, "  /t incomplete", "    /a incomplete (missing)"]


def test_a_tree_goes_down_to_a_depth() -> None:
    with Session(SUM) as session:
        session["/a"] = 1
        assert str(session.why("/s", depth=0)) == "/s placeholder 1.00 (reads 2)"
        assert session.why("/s", depth=1) == session.why("/s")


def test_a_tree_stays_as_it_was() -> None:
    with Session(SUM) as session:
        why, missing = session.why("/s"), session.missing("/s")
        before = (str(why), str(missing), missing.slots)
        session["/a"] = session["/b"] = 1
        assert (str(why), str(missing), missing.slots) == before
        assert (session.missing("/s").slots, bool(session.missing("/s"))) == ((), False)
    assert repr(missing) == "<Missing of /s: /a, /b>"
    with pytest.raises(dataclasses.FrozenInstanceError):
        setattr(why, "slot", "/a")
    assert not hasattr(why, "__dict__") and not hasattr(missing, "__dict__")


def test_trees_are_compared_copied_and_pickled() -> None:
    with Session(SUM) as session:
        why, missing = session.why("/s"), session.missing("/s")
        for again in (copy.copy(why), copy.deepcopy(why), pickle.loads(pickle.dumps(why)), session.why("/s")):
            assert again == why and hash(again) == hash(why)
        assert pickle.loads(pickle.dumps(missing)) == missing and len({missing, session.missing("/s")}) == 1
        assert why not in (session.why("/s", depth=0), session.why("/a"), session.missing("/b").tree, "/s")
        session["/b"] = 0
        assert why != session.why("/s") and missing != session.missing("/s")


@pytest.mark.parametrize("slot", ["/nowhere", "/people/#1/born"])
def test_a_slot_that_does_not_stand_has_no_tree(slot: str) -> None:
    with Session.open(EXAMPLES / "screener.json") as session:
        with pytest.raises(UnknownSlot):
            session.why(slot)
        with pytest.raises(UnknownSlot):
            session.missing(slot)


def test_a_tree_is_of_one_moment() -> None:
    """What another thread changes waits for its end."""
    with Session(SUM) as session:
        other = threading.Thread(target=lambda: session.set("/a", 5))
        reads = session.reads

        def meanwhile(slot: str) -> list[str]:
            if not other.ident:
                other.start()
                other.join(0.05)
            return reads(slot)

        with mock.patch.object(session, "reads", meanwhile):
            why = session.why("/s")
        other.join()
        assert [it.said for it in why] == ["incomplete", "incomplete", "placeholder 0.00"]
        assert session.why("/s").said == "placeholder 5.00"


class Layered:
    """What answers as a session over layers of facts, each of which reads all those of the layer below it; and counts what it is asked."""

    def __init__(self, layers: int, width: int) -> None:
        self.layers, self.width = layers, width
        self.asked: Counter[tuple[str, str]] = Counter()
        paths = [f"/f{layer}-{at}" for layer in range(layers) for at in range(width)]
        self.listed = {path: ListedFact.of_line(f"{path} {'writable' if path.startswith('/f0-') else 'derived'} Int") for path in paths}

    def facts(self) -> dict[str, ListedFact]:
        """As a session's."""
        return self.listed

    def description(self, slot: str) -> str:
        """As a session's."""
        self.asked["description", slot] += 1
        return ""

    def get(self, slot: str) -> Result:
        """As a session's."""
        self.asked["get", slot] += 1
        return Result("complete", 1)

    def final(self, slot: str) -> int:
        """As a session's."""
        self.asked["final", slot] += 1
        return 1

    def reads(self, slot: str) -> list[str]:
        """As a session's."""
        self.asked["reads", slot] += 1
        layer = int(slot[2:].partition("-")[0])
        return [f"/f{layer - 1}-{at}" for at in range(self.width)] if layer else []

    def walk(self, missing: tuple[str, ...] = ()) -> Walk:
        """What is read for the last fact."""
        return Walk(cast(Session, self), f"/f{self.layers - 1}-0", missing)


@pytest.mark.parametrize(("layers", "width"), [(LONG, 1), (100, 10)])
def test_each_slot_is_asked_for_once(layers: int, width: int) -> None:
    """However often it is read; and the tree is as large as what is read."""
    layered = Layered(layers, width)
    walk = layered.walk(("/f0-0",))
    for tree in (walk.why(None), walk.leading()):
        edges = sum(len(it.below) for it in tree if not it.is_above)
        assert sum(1 for _ in tree) == edges + 1 <= layers * width * width + 1
        assert len({it.slot for it in tree}) <= layers * width
    assert set(layered.asked.values()) == {1}


def test_a_tree_may_be_deeper_than_calls() -> None:
    assert sys.getrecursionlimit() < LONG
    walk = Layered(LONG, 1).walk(("/f0-0",))
    why, missing = walk.why(None), Missing(("/f0-0",), walk.leading())
    assert [level for level, _ in why.levels()] == [*range(LONG)]
    assert missing.tree == why == pickle.loads(pickle.dumps(why)) == copy.deepcopy(why)
    assert hash(missing) == hash(copy.deepcopy(missing)) and repr(why) == "<Explanation of /f4999-0: final 1, 1 below>"
    assert str(missing).splitlines()[-1] == "  " * (LONG - 1) + "/f0-0 final 1 (missing)"
    last = [*why][-1]
    assert isinstance(last, Explanation) and (last.slot, last.children) == ("/f0-0", ())
