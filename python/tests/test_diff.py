"""What changes between two dictionaries: the rules, the figures of cases, and what is dropped of saved answers."""

from __future__ import annotations

import json
import shutil
from pathlib import Path
from typing import Any

import pytest

from fact_graph.changes import changes
from fact_graph.commands import command_line
from fact_graph.rulebook import Rulebook

from .places import EXAMPLES

A: dict[str, Any] = {"path": "/a", "writable": "Int", "limits": [["Min", "0"], ["Max", "9"]]}
S: dict[str, Any] = {"path": "/s", "derived": "Int", "is": ["Add", ["Dependency", "/a"], ["Int", "1"]]}
T: dict[str, Any] = {"path": "/t", "writable": "Text", "limits": [["Check", "digits"]]}

CHANGED: tuple[tuple[str, dict[str, Any], dict[str, Any], list[str]], ...] = (
    ("nothing", S, S, []),
    ("a constant", S, {**S, "is": ["Add", ["Dependency", "/a"], ["Int", "2"]]}, ["/s: /a + 1 becomes /a + 2"]),
    ("an operand more", S, {**S, "is": ["Add", ["Dependency", "/a"]]}, ["/s: /a + 1 becomes Add(/a)"]),
    ("a placeholder", S, {**S, "placeholder": ["Int", "0"]}, ["/s: placeholder: 0 is new"]),
    ("a description", S, {**S, "description": "More."}, ["/s: description: none becomes More."]),
    ("limits", A, {**A, "limits": [["Max", "8"]]}, ["/a: limit from 0 is gone", "/a: limit to 9 becomes to 8"]),
    ("a check", T, {**T, "limits": [["Check", "nine-digits"]]}, ["/t: limit digits is gone", "/t: limit nine-digits is new"]),
    ("a type", T, {"path": "/t", "writable": "Day"}, ["/t: type: Text becomes Day", "/t: limit digits is gone"]),
    ("a fact that is called otherwise", T, {**T, "path": "/u"}, ["/t: is gone: perhaps it is called /u now", "/u: is new: Text, is answered"]),
    (
        "an answer that follows now",
        T,
        {"path": "/t", "derived": "Text", "is": ["Text", "1"]},
        ["/t: follows now, and was answered", "/t: limit digits is gone"],
    ),
)


def rulebook(fact: dict[str, Any], options: list[str]) -> Rulebook:
    """Rules with this fact."""
    facts = [fact] if fact["path"] == "/a" else [A, fact]
    return Rulebook(json.dumps({"version": "2", "enums": [{"name": "e", "options": options}], "facts": facts}).encode())


@pytest.mark.parametrize("old, new, words", [row[1:] for row in CHANGED], ids=[row[0] for row in CHANGED])
def test_what_differs_in_a_fact(old: dict[str, Any], new: dict[str, Any], words: list[str]) -> None:
    """Each part of a fact, in the smallest part of its expression."""
    assert [f"{it.of}: {it.words}" for it in changes(rulebook(old, ["x"]), rulebook(new, ["x"]))] == words


def test_options() -> None:
    """Options that are gone and that are new."""
    assert [f"{it.of}: {it.words}" for it in changes(rulebook(S, ["x", "y"]), rulebook(S, ["y", "z"]))] == ["enum e: x is gone, z is new"]


TABLE: dict[str, Any] = {"name": "t", "from": "Int", "to": "Dollar", "rows": [["1", "291"], ["2", "535"]], "else": "0"}
TABLES: tuple[tuple[str, dict[str, Any], list[str]], ...] = (
    ("nothing", TABLE, []),
    ("a value written otherwise, and a key", {**TABLE, "rows": [["01", "291.00"], ["2", "535"]], "else": "0.00"}, []),
    ("a value", {**TABLE, "rows": [["1", "292"], ["2", "535"]]}, ["table t: from 1: $291 becomes $292"]),
    ("what stands below the first", {**TABLE, "else": "23.00"}, ["table t: otherwise $0 becomes $23.00"]),
    (
        "rows",
        {**TABLE, "rows": [["-1", "5"], ["2", "536"], ["3", "700"]]},
        ["table t: from -1: $5 is new", "table t: from 1: $291 is gone", "table t: from 2: $535 becomes $536", "table t: from 3: $700 is new"],
    ),
    ("values of another type", {**TABLE, "to": "Int"}, [
        "table t: Int to Dollar becomes Int to Int", "table t: otherwise $0 becomes 0", "table t: from 1: $291 becomes 291",
        "table t: from 2: $535 becomes 535",
    ]),
    ("keys of another type", {**TABLE, "from": "Dollar"}, ["table t: Int to Dollar becomes Dollar to Dollar"]),
    ("keys of another type, in other rows", {**TABLE, "from": "Dollar", "rows": []}, [
        "table t: Int to Dollar becomes Dollar to Dollar", "table t: the rows are others",
    ]),
    ("a description", {**TABLE, "description": "By size."}, ["table t: description: none becomes By size."]),
    ("a name", {**TABLE, "name": "u"}, ["table t: is gone", "table u: is new: Int to Dollar, otherwise $0, 2 rows"]),
)  # fmt: skip


def tabled(table: dict[str, Any]) -> Rulebook:
    """Rules with this table."""
    return Rulebook(json.dumps({"version": "law-1", "tables": [table], "facts": [A]}).encode())


@pytest.mark.parametrize("new, words", [row[1:] for row in TABLES], ids=[row[0] for row in TABLES])
def test_what_differs_in_a_table(new: dict[str, Any], words: list[str]) -> None:
    """Each row by its key, from what to what."""
    assert [f"{it.of}: {it.words}" for it in changes(tabled(TABLE), tabled(new))] == words


def test_a_rule_that_reads_a_table_now() -> None:
    """It is told as it is read."""
    old, new = ({**S, "is": node} for node in (["Int", "1"], ["Lookup", "t", ["Add", ["Dependency", "/a"], ["Int", "1"]]]))
    table = {**TABLE, "to": "Int"}
    before, after = (Rulebook(json.dumps({"version": "law-1", "tables": [table], "facts": [A, fact]}).encode()) for fact in (old, new))
    assert [f"{it.of}: {it.words}" for it in changes(before, after)] == ["/s: 1 becomes t for (/a + 1)"]


DIFFERENCE = """\
enum outcome
  half is gone, quarter is new
/bill
  limit to $5,000.00 becomes to $1,000.00
/outcome
  half becomes quarter
/help
  /outcome is half becomes /outcome is quarter
  /bill * 1/2 becomes /bill * 1/4
"""


def test_the_mended_screener(tmp_path: Path, capsys: pytest.CaptureFixture[str]) -> None:
    """The rules, the cases and the saved text of the examples."""
    old, new = str(EXAMPLES / "screener.json"), str(EXAMPLES / "saved" / "mended.json")
    (tmp_path / "a.cases.csv").write_text(
        "title,/bill,/tenure,/savings,/people/ann/born,/people/ann/wages,due /help,due /most,due /outcome\n"
        "half,1000,rents,0,1991-04-02,0,500,24500,half\nelder,1000,rents,0,1958-11-30,0,1000,24500,full\n"
        "too much,1000.01,rents,0,1958-11-30,0,1000.01,24500,full\n"
    )
    shutil.copy(EXAMPLES / "saved" / "monday.saved", tmp_path)
    (tmp_path / "broken.saved").write_text("saved 1\nnext x\n")
    assert command_line(["diff", old, new, "--cases", str(tmp_path / "a.cases.csv"), "--saved", str(tmp_path)]) == 12
    shown = capsys.readouterr().out
    assert shown.startswith(DIFFERENCE)
    cases = shown[len(DIFFERENCE) :].replace(f"{tmp_path}/", "")
    assert cases == (
        "half (a.cases.csv:2:1)\n"
        "  figure    before           after             by\n"
        "  /help     complete 500.00  complete 250.00   -250.00\n"
        "  /outcome  complete half    complete quarter\n"
        "too much (a.cases.csv:4:1)\n"
        "  the new rules can't run it: `1000.01` is refused for /bill: it breaks Max 1000.00\n"
        "2 of 3 cases differ\n"
        "broken.saved\n  can't be carried: saved refused line 2\n"
        "monday.saved\n  dropped value /bill\n  dropped override /outcome\n"
    )


def test_the_same_rules(capsys: pytest.CaptureFixture[str]) -> None:
    """Nothing differs between rules and themselves."""
    name = str(EXAMPLES / "screener.json")
    assert command_line(["diff", name, name, "--cases", str(EXAMPLES / "screener.cases.yaml")]) == 0
    assert capsys.readouterr().out == "nothing differs\n"
