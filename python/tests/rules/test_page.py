"""docs/RULES.md says what is so."""

from __future__ import annotations

import re
from pathlib import Path

import pytest

from fact_graph import Session
from fact_graph.__main__ import main
from fact_graph.rules import formatted, parse
from fact_graph.status import Status

from ..places import TOP

PAGE = (TOP / "docs" / "RULES.md").read_text()
WHOLE, ANSWERED, FOLLOWING, OF_LAW, TABLES, TOLD_OF_TABLE, TOLD = re.findall(r"```text\n(.*?)```", PAGE, re.DOTALL)


def test_the_first_example_is_a_dictionary(library: Path) -> None:
    """It has its form, and is accepted."""
    assert library
    assert formatted(WHOLE) == WHOLE
    with Session(parse(WHOLE).json) as session:
        assert session.missing("/help")


@pytest.mark.parametrize(("savings", "outcome", "due"), [("9999.99", "full", "840.50"), ("18000", "half", "420.00"), ("18000.01", "none", "0.00")])
def test_the_first_example_pays_by_its_outcome(library: Path, savings: str, outcome: str, due: str) -> None:
    """A home without people gets all of the bill, half of it in whole dollars, or nothing."""
    assert library
    with Session(parse(WHOLE).json) as session:
        session.open_list("/people")
        session["/savings"], session["/bill"] = savings, "840.50"
        assert (session["/outcome"], str(session.final("/help"))) == (outcome, due)


@pytest.mark.parametrize("facts", [ANSWERED, FOLLOWING])
def test_the_other_examples_have_their_form(facts: str) -> None:
    """They do so among others."""
    text = f"version 2\n\nenum tenure: rents, owns\n\n{facts}"
    assert formatted(text) == text


def test_the_words_of_laws_are_a_dictionary(library: Path) -> None:
    """They have their form, and give what they say."""
    assert library
    assert formatted(OF_LAW) == OF_LAW
    with Session(parse(OF_LAW).json) as session:
        person = session.add("/people")
        session[f"/people/#{person}/born"], session["/appliedOn"], session["/monthlyWages"] = "2000-02-29", "2018-02-28", "10.01"
        shown = [session.line(f"get {path}") for path in (f"/people/#{person}/age", "/contribution", "/decideBy", "/daysLeft")]
    assert shown == ["complete 17\n", "complete 4.00\n", "complete 2018-03-28\n", "complete 28\n"]


@pytest.mark.parametrize(
    ("answers", "due"),
    [
        ({"/size": 0, "/appliedOn": "2023-09-30"}, ("0.00", "807.00")),
        ({"/size": 2, "/appliedOn": "2023-10-01"}, ("535.00", "802.00")),
        ({"/size": 7, "/appliedOn": "2024-09-30"}, ("766.00", "802.00")),
        ({"/size": 1, "/appliedOn": "2024-10-01"}, ("291.00", "796.00")),
    ],
)
def test_the_tables_are_a_dictionary(library: Path, answers: dict[str, int | str], due: tuple[str, str]) -> None:
    """They have their form, and give what they say."""
    assert library
    assert formatted(TABLES) == TABLES
    with Session(parse(TABLES).json) as session:
        session["/income"] = 1000
        for path, value in answers.items():
            session[path] = value
        assert (str(session["/mostAid"]), str(session["/counted"])) == due


def test_what_is_told_of_a_row(monkeypatch: pytest.MonkeyPatch, tmp_path: Path, capsys: pytest.CaptureFixture[str]) -> None:
    """A key that doesn't rise is told as the page has it."""
    monkeypatch.chdir(tmp_path)
    Path("aid.facts").write_text(TABLES.replace("from 3: $766", "from 2: $766"), encoding="utf-8")
    assert main(["check", "aid.facts"]) == Status.DICTIONARY_REFUSED
    assert capsys.readouterr().out.startswith(TOLD_OF_TABLE)


def test_what_is_told_of_slips(monkeypatch: pytest.MonkeyPatch, tmp_path: Path, capsys: pytest.CaptureFixture[str]) -> None:
    """Two slips in the first example are told as the page has them."""
    monkeypatch.chdir(tmp_path)
    Path("help.facts").write_text(WHOLE.replace("<= $18,000", "= $18,000").replace("if /means", "if means"), encoding="utf-8")
    assert main(["check", "help.facts"]) == Status.DICTIONARY_REFUSED
    assert capsys.readouterr().err == f"fact-graph: {TOLD}"


def test_each_value_is_one() -> None:
    """The values of the table are those of the types that it names."""
    section = PAGE[PAGE.index("## Values") : PAGE.index("## Words and marks")]
    rows = re.findall(r"^\| (`.*?) \| an? ([A-Z]\w+)", section, re.MULTILINE)
    assert len(rows) == 6
    for forms, kind in rows:
        for form in re.findall(r"`([^`]*)`", forms):
            stated = parse(f"version 2\n/x: {kind} = {form}\n").value["facts"][0]["is"][0]
            assert (stated if stated not in ("True", "False") else "Boolean") == kind


def test_the_program_prints_what_it_says(library: Path, monkeypatch: pytest.MonkeyPatch, capsys: pytest.CaptureFixture[str]) -> None:
    """The lines of the program print what stands behind them."""
    assert library
    [program] = re.findall(r"```python\n(.*?)```", PAGE, re.DOTALL)
    monkeypatch.chdir(TOP)
    exec(compile(program, "docs/RULES.md", "exec"), {})  # pylint: disable=exec-used # the page's own example
    assert capsys.readouterr().out.splitlines() == re.findall(r"\)  # (.*)", program)
