"""Checks of rules: what each finds, that nothing is called always so that isn't, and what a maker lets stand."""

from __future__ import annotations

import json
from datetime import date
from fractions import Fraction
from pathlib import Path
from typing import Any

import pytest
from hypothesis import HealthCheck, given, settings

from fact_graph import Value
from fact_graph.cases import Case, Entry
from fact_graph.checks import NotAllowed, findings, read_allowances
from fact_graph.checks.ranges import NOTHING, Anything, Options, Range, Span
from fact_graph.checks.reasoning import Reasoning
from fact_graph.commands import command_line
from fact_graph.coverage.measuring import At, Reading
from fact_graph.coverage.probes import Probes
from fact_graph.rulebook import Rulebook, cases_of

from .interviews import Interview, interviews
from .test_coverage import PLACE, AsTheyAre, answered, slots

SWITCH = {"path": "/s", "derived": "Int"}
FACTS: dict[str, dict[str, Any]] = {
    "b": {"path": "/b", "writable": "Boolean"},
    "e": {"path": "/e", "writable": "Enum(e)"},
    "n": {"path": "/n", "writable": "Int", "limits": [["Min", "0"], ["Max", "10"]]},
    "m": {"path": "/m", "writable": "Int", "limits": [["Min", "0"]], "placeholder": ["Int", "1"]},
}
OF_LAW: dict[str, dict[str, Any]] = {
    "d": {"path": "/d", "writable": "Day", "limits": [["Min", "2024-02-10"], ["Max", "2024-03-31"]]},
    "u": {"path": "/u", "writable": "Dollar", "limits": [["Min", "0"], ["Max", "5"]]},
}
ENUMS = [{"name": "e", "options": ["x", "y"]}]
IS_B, N, M = ["Dependency", "/b"], ["Dependency", "/n"], ["Dependency", "/m"]
LESS, MORE = ["LessThan", N, ["Int", "5"]], ["GreaterThanOrEqual", N, ["Int", "5"]]


def switch(*tests: Any) -> dict[str, Any]:
    """A fact whose value hangs on these tests."""
    return {**SWITCH, "is": ["Switch", *[["Case", test, ["Int", str(at)]] for at, test in enumerate(tests)]]}


def boolean(*written: Any) -> dict[str, Any]:
    """A condition as a fact."""
    return {"path": "/s", "derived": "Boolean", "is": list(written)}


def whole(*written: Any, **more: Any) -> dict[str, Any]:
    """A number as a fact."""
    return {**SWITCH, "is": list(written), **more}


def is_e(option: str) -> list[Any]:
    """Whether the enum has this option."""
    return ["Equal", ["Dependency", "/e"], ["Enum", "e", option]]


FOUND: tuple[tuple[str, dict[str, Any], list[str]], ...] = (
    ("a Switch whose last test may be false", switch(IS_B), ["open-switch /s 1"]),
    ("a Switch that ends with True", switch(IS_B, ["True"]), []),
    ("a Switch over a condition and its opposite", switch(IS_B, ["Not", IS_B]), []),
    ("a Switch over all options", switch(is_e("x"), is_e("y")), []),
    ("a Switch over some options", switch(is_e("x"), is_e("x")), ["open-switch /s 1", "unreachable-case /s 6"]),
    ("a Switch over the two sides of a bound", switch(LESS, MORE), []),
    ("a Switch with a gap between two bounds", switch(LESS, ["GreaterThan", N, ["Int", "5"]]), ["open-switch /s 1"]),
    ("a Switch over an All and the opposites of its sides", switch(["All", IS_B, LESS], ["Not", IS_B], ["Not", LESS]), []),
    ("a case behind one that is always taken", switch(["True"], IS_B), ["unreachable-case /s 4"]),
    ("a case that no limit lets in", switch(["GreaterThan", N, ["Int", "10"]], ["True"]), ["unreachable-case /s 2"]),
    ("a side that limits make true", boolean("All", ["LessThanOrEqual", N, ["Int", "10"]], IS_B), ["constant-condition /s 2"]),
    ("a condition that limits make false", boolean("LessThan", N, ["Int", "0"]), ["constant-condition /s 1"]),
    ("a condition that contradicts itself", boolean("All", IS_B, ["Not", IS_B]), ["constant-condition /s 1"]),
    ("a conditional that is never so", whole("Int", "1", conditional=[["Equal", N, ["Int", "11"]], ["Int", "2"]]), ["constant-condition /s 2"]),
    ("a sum that stays small", whole("Add", N, N), []),
    ("a sum that has no end", whole("Add", M, N), ["overflow /s 1"]),
    ("a product of what went beyond the range before, which is said once", whole("Multiply", ["Add", M, N], N), ["overflow /s 2"]),
    ("a sum that a Switch keeps small", whole("Switch", ["Case", ["LessThan", M, N], ["Add", M, N]], ["Case", ["True"], N]), []),
    ("a divisor that can be zero", {"path": "/s", "derived": "Rational", "is": ["Divide", ["Int", "1"], N]}, ["zero-divide /s 1"]),
    ("a divisor that can't", {"path": "/s", "derived": "Rational", "is": ["Divide", ["Int", "1"], ["Add", N, ["Int", "1"]]]}, []),
    ("a placeholder for an answer that has none", whole("Add", N, ["Int", "1"], placeholder=["Int", "0"]), ["hidden-answer /s 4"]),
    ("a placeholder above answers that have their own", whole("LesserOf", M, ["Int", "1"], placeholder=["Int", "0"]), []),
)


def rules(*facts: dict[str, Any]) -> bytes:
    """A dictionary of these facts."""
    return json.dumps({"version": "2", "enums": ENUMS, "facts": [*FACTS.values(), *facts]}).encode()


D, U, BORN = ["Dependency", "/d"], ["Dependency", "/u"], ["Day", "2006-03-01"]
RANGES: tuple[tuple[list[Any], str, tuple[int, int], tuple[str, ...]], ...] = (
    (["AgeOn", BORN, D], "Int", (17, 18), ()),
    (["AgeOn", D, BORN], "Int", (-19, -18), ()),
    (["DaysBetween", BORN, D], "Int", (6555, 6605), ()),
    (["MonthOf", D], "Int", (2, 3), ()),
    (["DayOf", D], "Int", (1, 31), ()),
    (["DayOf", BORN], "Int", (1, 1), ()),
    (["YearOf", ["AddMonths", D, ["Int", "10"]]], "Int", (2024, 2025), ()),
    (["AddYears", D, ["Int", "-300"]], "Day", (0, -1), ("overflow",)),
    (["RoundUp", U, ["Dollar", "2"]], "Dollar", (0, 600), ()),
    (["RoundDown", U, ["Dollar", "2"]], "Dollar", (0, 400), ()),
    (["RoundNearest", ["Rational", "1/3"], ["Dollar", "0.05"]], "Dollar", (35, 35), ()),
    (["RoundUp", ["Dollar", "7"], U], "Dollar", (700, 1200), ("zero-divide",)),
    (["RoundDown", ["Dollar", "7"], U], "Dollar", (200, 700), ("zero-divide",)),
    (["RoundUp", U, ["Dollar", "0"]], "Dollar", (0, -1), ("zero-divide",)),
)


AID = {"name": "aid", "from": "Int", "to": "Dollar", "rows": [["1", "291"], ["2", "-5"], ["11", "900"]], "else": "0.50"}
SPANS: tuple[tuple[list[Any], tuple[int, int]], ...] = (
    (["Lookup", "aid", N], (-500, 29100)),
    (["Lookup", "aid", ["Add", N, ["Int", "1"]]], (-500, 90000)),
    (["Lookup", "aid", ["Subtract", N, ["Int", "11"]]], (50, 50)),
    (["Lookup", "aid", ["Int", "1"]], (29100, 29100)),
    (["Multiply", ["Lookup", "aid", ["Int", "3"]], ["Int", "2"]], (-1000, -1000)),
)


@pytest.mark.parametrize("node, ends", SPANS, ids=[str(row[0]) for row in SPANS])
def test_what_a_table_comes_to(node: list[Any], ends: tuple[int, int]) -> None:
    """The least and the greatest of the values to which a key can lead."""
    found = Reasoning(Rulebook(tabled([AID], {"path": "/s", "derived": "Dollar", "is": node}))).fact("/s")
    assert isinstance(found, Span) and (found.low, found.high) == ends


def tabled(tables: list[dict[str, Any]], *facts: dict[str, Any]) -> bytes:
    """A dictionary of these tables and facts."""
    return json.dumps({"version": "law-1", "tables": tables, "facts": [*FACTS.values(), *facts], "enums": ENUMS}).encode()


OF_TABLES: tuple[tuple[str, dict[str, Any], list[str]], ...] = (
    ("a table that no rule reads", {}, ["unused-table t 0: no rule reads this table"]),
    ("a table whose rows are all reached", {"is": ["Lookup", "t", N]}, []),
    ("what stands below the first row may not be reached", {"is": ["Lookup", "t", ["Add", N, ["Int", "1"]]]}, []),
    (
        "a row before the least key, and one behind the greatest",
        {"is": ["Lookup", "t", ["LesserOf", N, ["Int", "4"]]]},
        ["unreachable-row t 0: no key leads to the row from 5: 50"],
    ),
    (
        "rows between which all keys lie",
        {"is": ["Lookup", "t", ["GreaterOf", N, ["Int", "5"]]]},
        ["unreachable-row t 0: no key leads to the row from 1: 10"],
    ),
    ("rows that two rules reach together", {"is": ["Add", *[["Lookup", "t", ["Int", key]] for key in ("1", "7")]]}, []),
    (
        "rows by what is known in a case",
        {"is": ["Switch", ["Case", LESS, ["Lookup", "t", N]], ["Case", ["True"], ["Int", "0"]]]},
        ["unreachable-row t 0: no key leads to the row from 5: 50"],
    ),
    (
        "a case that can't be taken, whose rows aren't named too",
        {"is": ["Switch", ["Case", ["LessThan", N, ["Int", "0"]], ["Lookup", "t", N]], ["Case", ["True"], ["Int", "0"]]]},
        ["unreachable-case /s 2: the case /n < 0 is never taken: its test is never true there"],
    ),
)


@pytest.mark.parametrize("fact, found", [row[1:] for row in OF_TABLES], ids=[row[0] for row in OF_TABLES])
def test_what_is_found_of_tables(fact: dict[str, Any], found: list[str]) -> None:
    """Tables that no rule reads, and rows to which no key leads."""
    table = {"name": "t", "from": "Int", "to": "Int", "rows": [["1", "10"], ["5", "50"]], "else": "0"}
    text = tabled([table], {**SWITCH, "is": N, **fact})
    assert [f"{it.check} {it.path} {it.node}: {it.reason}" for it in findings(Rulebook(text), ["/s"]) if it.check != "unused-answer"] == found


@pytest.mark.parametrize("values, condition", [("Boolean", ["Lookup", "t", N]), ("Enum(e)", ["Equal", ["Lookup", "t", N], ["Enum", "e", "x"]])])
def test_conditions_that_a_table_decides(values: str, condition: list[Any]) -> None:
    """A condition is always true where all rows that are reached make it true."""
    true, false = ("true", "false") if values == "Boolean" else ("x", "y")
    for rows, found in (([["0", true], ["11", false]], ["constant-condition /s 1", "unreachable-row t 0"]), ([["0", true], ["5", false]], [])):
        table = {"name": "t", "from": "Int", "to": values, "rows": rows, "else": false}
        assert sorted(told(tabled([table], boolean(*condition)), "/s")) == found


@pytest.mark.parametrize("node, kind, ends, faults", RANGES, ids=[str(row[0]) for row in RANGES])
def test_what_words_of_laws_come_to(node: list[Any], kind: str, ends: tuple[int, int], faults: tuple[str, ...]) -> None:
    """The least and the greatest, by the limits of the answers, and the faults. Where the least is more there is no result."""
    text = json.dumps({"version": "law-1", "facts": [*OF_LAW.values(), {"path": "/s", "derived": kind, "is": node}]}).encode()
    reasoning = Reasoning(Rulebook(text))
    found = reasoning.fact("/s")
    assert (found == NOTHING) if ends[0] > ends[1] else (isinstance(found, Span) and (found.low, found.high) == ends)
    assert reasoning.faults[("/s", 1)] == set(faults)


def told(text: bytes, *figures: str) -> list[str]:
    """What is found where these are the figures, but for the answers that no figure rests on."""
    return [f"{it.check} {it.path} {it.node}" for it in findings(Rulebook(text), figures) if it.check != "unused-answer"]


@pytest.mark.parametrize("fact, found", [row[1:] for row in FOUND], ids=[row[0] for row in FOUND])
def test_each_check(fact: dict[str, Any], found: list[str]) -> None:
    """What is found of a fact."""
    assert told(rules(fact), "/s") == found


def test_facts_and_answers_that_no_figure_rests_on() -> None:
    """What a figure rests on is used, also through the facts of members."""
    text = json.dumps(
        {
            "version": "1",
            "facts": [
                {"path": "/c", "writable": "Collection"},
                {"path": "/c/*/m", "writable": "Int", "limits": [["Min", "0"], ["Max", "9"]]},
                {"path": "/c/*/other", "writable": "Int"},
                {"path": "/a", "writable": "Int"},
                {"path": "/s", "derived": "Int", "is": ["CollectionSum", "/c/*/m"]},
                {"path": "/t", "derived": "Int", "is": ["CollectionSize", "/c"]},
            ],
        }
    ).encode()
    found = [f"{it.check} {it.path}" for it in findings(Rulebook(text), ["/s"])]
    assert found == ["unused-answer /c/*/other", "unused-answer /a", "unused-fact /t"]


@settings(max_examples=60, deadline=None, suppress_health_check=list(HealthCheck))
@given(interviews())
def test_what_is_said_always_holds(interview: Interview) -> None:
    """No answers give a value, a case, a side or a fault that the checks rule out."""
    rulebook = Rulebook(interview.dictionary)
    reasoning, probes = Reasoning(rulebook), Probes(rulebook)
    sessions = [answered(text, interview.lines) for text in probes.texts()]
    faults = {fault for found in reasoning.faults.values() for fault in found}
    for slot in slots(answered(interview.dictionary, interview.lines)):
        path, result = rulebook.dictionary.fact_at(slot).path, sessions[0].get(slot)
        if result.value is not None:
            assert has(reasoning.fact(path), result.value)
        if result.fault and "Rational" not in interview.dictionary.decode():
            assert result.fault in faults
        reading = Reading(probes, sessions, Case("", PLACE, (), (Entry(slot, "", PLACE),)), AsTheyAre(sessions[0].dictionary))
        for point in reading.reached:
            if point.kind == "case":
                assert (point.of, point.at) in reasoning.taken
            if point.kind == "row":
                assert point.at in reasoning.rows[point.of]
            if point.kind == "side":
                assert has(reasoning.ranges[point.of, point.at], point.value is True)
        main = rulebook.trees[path].main
        if "#" not in slot and main and main.name == "Switch" and main.number in {number for at, number in reasoning.ranges if at == path}:
            tests = [reading.outcome(rulebook.trees[path], test, At()).value for test, _ in cases_of(main)]
            conditional = rulebook.trees[path].test
            is_read = conditional is None or reading.outcome(rulebook.trees[path], conditional, At()).value is False
            assert not is_read or set(tests) != {False} or (path, main.number) in reasoning.left


def has(found: Range, value: Value) -> bool:
    """Whether a range has a value."""
    if isinstance(found, Anything):
        return True
    if isinstance(found, Options):
        return found != NOTHING and value in found.values
    number: Any = value
    if found.unit == "Members":
        assert isinstance(value, tuple)
        number = len(value)
    elif found.unit == "Dollar":
        number = Fraction(str(value)) * 100
    elif isinstance(value, date):
        number = value.toordinal()
    return bool(found.low <= number <= found.high)


def written(folder: Path, fact: dict[str, Any], lint: str | None = None) -> str:
    """Rules in a file, and what is allowed beside them."""
    (folder / "rules.json").write_bytes(rules(fact))
    if lint is not None:
        (folder / "rules.lint").write_text(lint)
    return str(folder / "rules.json")


def test_what_stands_of_a_table_is_allowed_by_its_name(tmp_path: Path, capsys: pytest.CaptureFixture[str]) -> None:
    """A line allows a check for a table as for a fact."""
    file = tmp_path / "rules.json"
    table = {"name": "aid", "from": "Int", "to": "Int", "rows": [["11", "1"]], "else": "0"}
    file.write_bytes(tabled([table], {**SWITCH, "is": ["Lookup", "aid", N]}))
    (tmp_path / "rules.lint").write_text(f"{ALLOWED}# The limit may rise.\nallow unreachable-row aid\nallow unused-table aid\n")
    assert command_line(["lint", str(file), "--figure", "/s"]) == 12
    assert capsys.readouterr().out == f"{file.with_suffix('.lint')}:7: allow unused-table aid allows nothing: take it away\n0 found\n"


ALLOWED = "# The answers are asked for by the clerk.\nallow unused-answer /b\nallow unused-answer /e\nallow unused-answer /m\n"


def test_the_command(tmp_path: Path, capsys: pytest.CaptureFixture[str]) -> None:
    """It shows what is found, by check, fact and node, and ends with a status that says so."""
    assert command_line(["lint", written(tmp_path, whole("Add", N, M))]) == 12
    shown = capsys.readouterr().out
    assert "overflow  /s node 1\n  Add can go beyond the range of its type: /m has no Max\n" in shown
    assert shown.endswith("3 found\n")


def test_what_is_allowed_is_not_told(tmp_path: Path, capsys: pytest.CaptureFixture[str]) -> None:
    """What a line allows isn't shown, and a line that allows nothing is."""
    assert command_line(["lint", written(tmp_path, whole("Add", N, N), ALLOWED)]) == 0
    assert capsys.readouterr().out == "nothing found\n"
    assert command_line(["lint", written(tmp_path, whole("Add", N, N), f"{ALLOWED}allow overflow /s\n")]) == 12
    assert "rules.lint:5: allow overflow /s allows nothing: take it away" in capsys.readouterr().out


@pytest.mark.parametrize(
    "text, wrong",
    [
        ("allow overflow /s", "line 1: a note above it"),
        ("# why\nallow overflows /s", "line 2: there is no check overflows; did you mean `overflow`?"),
        ("# why\nallow overflow /t", "line 2: there is no fact or table /t"),
        ("# why\n\nallow overflow /s", "line 3: a note above it"),
        ("# why\nallow overflow", "line 2: write `allow CHECK /path`"),
    ],
)
def test_lines_that_allow_nothing_there_is(text: str, wrong: str) -> None:
    """What is wrong with a line is said with its number."""
    with pytest.raises(NotAllowed) as raised:
        read_allowances(text, ["/s"])
    assert str(raised.value).startswith(wrong)
