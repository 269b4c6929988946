"""The dictionaries that come with the library and their pages, what a slot reads, and the memory of long texts."""

from __future__ import annotations

import copy
import ctypes
import json
import re
from datetime import date
from pathlib import Path
from typing import Any

import pytest

from fact_graph import DictionaryRefused, Refused, Session, UnknownDictionary, UnknownSlot
from fact_graph._library import library
from fact_graph.built_in import page_of
from fact_graph.page import misstated
from fact_graph.session import BUILT_IN, KEPT

from .calls import replies
from .places import EXAMPLES, SUM, TOP

HOUSEHOLDS = {"year 2023": EXAMPLES / "years" / "2023.script", "income 2023": EXAMPLES / "income" / "2023.script"}
FACTS = {words: 45 if words.startswith("year") else 69 for words in BUILT_IN}
YEARS = (TOP / "crates" / "tax_2023" / "src" / "years.rt").read_text(encoding="utf-8")


@pytest.mark.parametrize(("words", "script"), HOUSEHOLDS.items())
def test_a_household_has_its_replies(words: str, script: Path) -> None:
    lines, due = script.read_bytes(), script.with_suffix(".replies").read_text()
    with Session.built_in(words) as session, Session.built_in(words) as by_calls, Session(session.source) as of_text:
        for other in (session, of_text):
            assert "".join(map(other.line, lines.split(b"\n"))) == due
        assert replies(by_calls, lines) == due
        assert session.save() == of_text.save() == by_calls.save()
        again = copy.copy(session)
        assert list(again) == list(session) and again.save() == session.save()
        assert all(session.reads(slot) == of_text.reads(slot) for slot in session)


@pytest.mark.parametrize("words", FACTS)
def test_its_text_is_its_dictionary(words: str) -> None:
    with Session.built_in(words) as session, Session(session.source) as of_text:
        assert len(session.facts()) == FACTS[words]
        assert list(session.facts()) == list(session.dictionary.facts)
        assert (of_text.dictionary, of_text.source) == (session.dictionary, session.source)


def test_all_are_named() -> None:
    years = re.findall(r'\("(\d+)", TaxYear::Year\d+\)', YEARS)
    assert years and [f"{kind} {year}" for kind in ("year", "income") for year in years] == list(BUILT_IN)


@pytest.mark.parametrize("words", ["", "year", "year 2022", "year 2023 ", "income 2022", "Year 2023"])
def test_there_are_no_others(words: str) -> None:
    with pytest.raises(UnknownDictionary):
        Session.built_in(words)


def test_the_income_of_2024_has_its_own_schedule() -> None:
    """By hand: 55,000.50 less 29,200 are 25,800.50, of which 23,200 at 10 percent are 2,320.00 and 2,600.50 at 12 percent 312.06."""
    with Session.built_in("income 2024") as session:
        for path, value in {"married": "true", "fileJointly": "true", "spouseItemizes": "false", "canBeClaimed": "false", "blind": "false",
                            "spouseBlind": "false", "dateOfBirth": "1985-03-10", "spouseDateOfBirth": "1987-07-04", "earnedIncome": "52000.00",
                            "otherIncome": "3000.50"}.items():
            assert session.line(f"set /{path} {value}") == "ok\n"
        assert session.line("open /dependents") == "ok\n"
        assert session.line("final /standardDeduction") == "final 29200.00\n"
        assert session.line("final /taxAfterCredits") == "final 2632.06\n"


def test_a_text_is_kept_as_it_was_given() -> None:
    with Session(SUM) as session:
        assert session.source == SUM.encode()
    with pytest.raises(DictionaryRefused):
        Session("year 2023")


# ---- the pages


def page(words: str, language: str = "") -> dict[str, Any]:
    """What the page of these rules says."""
    text = page_of(words, language)
    assert text is not None
    said: dict[str, Any] = json.loads(text)
    return said


def constant(session: Session, path: str, kind: str) -> str:
    """The one constant of a type in the expression of a fact, as it is spelled there."""
    [fact] = [fact for fact in json.loads(session.source)["facts"] if fact["path"] == path]
    [spelled] = set(re.findall(rf'\["{kind}", "([^"]+)"\]', json.dumps(fact["is"])))
    return str(spelled)


@pytest.mark.parametrize("language", ["", "es"])
@pytest.mark.parametrize("words", FACTS)
def test_each_question_has_its_words_on_the_page(words: str, language: str) -> None:
    said = page(words, language)
    with Session.built_in(words) as session:
        dictionary = session.dictionary
        assert not list(misstated({"groups": page(words)["groups"], **said}, dictionary))
    assert [path for path in (*dictionary.facts, "/dependents/*") if not said["labels"].get(path)] == []
    asked = [path for path, fact in dictionary.facts.items() if fact.is_writable]
    assert [path for path in (*asked, *page(words)["figures"]) if not said["sources"].get(path)] == []
    assert list(said["headings"]) == list(page(words)["groups"]) and "{" not in "".join(said["introduction"])


@pytest.mark.parametrize("words", FACTS)
def test_a_page_has_the_numbers_of_its_dictionary(words: str) -> None:
    helps = page(words)["help"]
    with Session.built_in(words) as session:
        below = float(constant(session, "/dependents/*/qualifyingRelative", "Dollar"))
        born = date.fromisoformat(constant(session, "/boxes", "Day"))
    assert f"has less than ${below:,.0f}." in helps["/dependents/*/grossIncome"]
    assert all(f"born before {born:%B} {born.day}, {born.year}." in helps[path] for path in ("/dateOfBirth", "/spouseDateOfBirth"))


def test_a_year_that_there_is_not_has_no_page() -> None:
    assert (page_of("year 2022"), page_of("year 2023", "fr")) == (None, None)


# ---- what a slot reads


def test_what_a_slot_reads() -> None:
    with Session.open(EXAMPLES / "screener.json") as session:
        assert session.reads("/bill") == []
        assert session.reads("/size") == ["/people"]
        session.add("/people")
        assert session.reads("/adults") == ["/people", "/people/#1/adult"]
        session.override("/size", 3)
        assert session.reads("/size") == []


@pytest.mark.parametrize("slot", ["", "a", "/a ", " /a", "/a\n", "/a\r", "/people/*/born", "x" * 1_000, "x" * 1_001, "x" * 5_000, "/\ud800"])
def test_what_is_no_path_reads_nothing(slot: str) -> None:
    with Session(SUM) as session:
        with pytest.raises(Refused) as raised:
            session.reads(slot)
        assert str(raised.value) == "refused 1 BadLine"


@pytest.mark.parametrize("slot", ["/nowhere", "/people/#1/born", "/people/#1/nothing"])
def test_a_slot_that_does_not_stand_reads_nothing(slot: str) -> None:
    with Session.open(EXAMPLES / "screener.json") as session:
        with pytest.raises(UnknownSlot) as of_get:
            session.get(slot)
        with pytest.raises(UnknownSlot) as of_reads:
            session.reads(slot)
        assert str(of_reads.value) == str(of_get.value)


# ---- memory


def kept(session: Session) -> int:
    """How many bytes of the last text the library keeps, as far as ten are asked for."""
    room = ctypes.create_string_buffer(10)
    return library().read(session._graph, 0, room, 10, session._back)  # pylint: disable=protected-access # which no public call shows


def test_a_long_text_is_given_back() -> None:
    text = '{"version":"1","facts":[{"path":"/p","writable":"Collection"},{"path":"/p/*/t","writable":"Text"}]}'
    with Session(text) as session:
        assert session.save() and kept(session) == 10
        for _ in range(70):
            session[f"/p/#{session.add('/p')}/t"] = "x" * 1_000
        assert len(session.save()) > KEPT and kept(session) == 0
        session.undo()
        assert session.get("/p/#70/t").kind == "incomplete"
