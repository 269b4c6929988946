"""The commands over rules as text."""

from __future__ import annotations

import io
import sys
from pathlib import Path

import pytest

from fact_graph.__main__ import main
from fact_graph.rules import text_of
from fact_graph.status import Status

from ..places import TOP

EXAMPLES = TOP / "examples"
TEXT = "version 2\n\n/rent: Dollar, from $0  # of a month\n/half: Dollar = /rent * 1/2\n"
JSON = """{"version":"2",
"facts":[
{"path":"/rent","writable":"Dollar","limits":[["Min","0"]]},
{"path":"/half","derived":"Dollar","is":["Multiply",["Dependency","/rent"],["Rational","1/2"]]}
]}
"""


@pytest.fixture(name="rules")
def written_rules(tmp_path: Path) -> Path:
    """A file of rules."""
    path = tmp_path / "rent.facts"
    path.write_text(TEXT)
    return path


def test_convert_there_and_back(rules: Path, capsysbinary: pytest.CaptureFixture[bytes]) -> None:
    """Rules have their JSON, and that has their text but for its comments."""
    made = rules.with_suffix(".json")
    assert main(["convert", str(rules)]) == Status.DONE
    assert capsysbinary.readouterr().out == JSON.encode()
    assert main(["convert", str(rules), "-o", str(made)]) == Status.DONE
    assert main(["convert", str(rules), "--check", str(made)]) == Status.DONE
    assert main(["convert", str(made)]) == Status.DONE
    assert capsysbinary.readouterr().out.decode() == TEXT.replace("  # of a month", "")


def test_convert_checks_what_is_there(rules: Path, capsys: pytest.CaptureFixture[str]) -> None:
    """A file that isn't what the rules give is named, and left."""
    made = rules.with_suffix(".json")
    made.write_text(JSON.replace("1/2", "1/3"))
    assert main(["convert", str(rules), "--check", str(made)]) == Status.FINDINGS
    assert capsys.readouterr().out == f"{made}: not what {rules} gives\n"
    assert "1/3" in made.read_text()


def test_convert_needs_a_form(tmp_path: Path, capsys: pytest.CaptureFixture[str]) -> None:
    """JSON that hasn't the form of a dictionary has no text, and its fault is shown."""
    made = tmp_path / "money.json"
    made.write_text('{"version":"1","facts":[\n{"path":"/a","writable":"Money"}]}')
    assert main(["convert", str(made)]) == Status.DICTIONARY_REFUSED
    assert f"{made}:2:25: 3 Shape fact 1" in capsys.readouterr().err


def test_fmt_puts_rules_into_their_form(rules: Path, capsys: pytest.CaptureFixture[str]) -> None:
    """What isn't in its form is named by a check, and else put into it."""
    rules.write_text(TEXT.replace("/rent * 1/2", "(  /rent*1/2 )"))
    assert main(["fmt", "--check", str(rules)]) == Status.FINDINGS
    assert capsys.readouterr().out == f"{rules}: not in its form\n"
    assert main(["fmt", str(rules)]) == Status.DONE
    assert rules.read_text() == TEXT
    assert main(["fmt", "--check", str(rules)]) == Status.DONE


def test_fmt_of_standard_input(monkeypatch: pytest.MonkeyPatch, capsysbinary: pytest.CaptureFixture[bytes]) -> None:
    """Of - the form is printed."""
    monkeypatch.setattr(sys, "stdin", io.TextIOWrapper(io.BytesIO(b"version 2\n/a:Int=1\n")))
    assert main(["fmt", "-"]) == Status.DONE
    assert capsysbinary.readouterr().out == b"version 2\n/a: Int = 1\n"


def test_a_slip_is_shown_at_its_place(rules: Path, capsys: pytest.CaptureFixture[str]) -> None:
    """A text that isn't one of rules ends each command, with the line and a mark below the column."""
    rules.write_text(TEXT.replace("* 1/2", "="))
    for command in ("check", "convert", "fmt"):
        assert main([command, str(rules)]) == Status.DICTIONARY_REFUSED
        told = capsys.readouterr().err
        assert f"{rules}:4:23: an operator, `except`, `placeholder` or the end of the rule belongs here" in told
        assert "  4 | /half: Dollar = /rent =\n    |                       ^\n" in told


def test_commands_take_rules_as_text(rules: Path, library: Path, capsys: pytest.CaptureFixture[str]) -> None:
    """A file of rules is accepted as its JSON is, and a fault of the engine stands in the text."""
    assert library
    assert main(["check", str(rules)]) == Status.DONE
    assert capsys.readouterr().out == f"{rules}: accepted, 2 facts, 3 nodes\n"
    assert main(["check", str(EXAMPLES / "screener.facts")]) == Status.DONE
    rules.write_text(TEXT.replace("/rent *", "/rnet *"))
    capsys.readouterr()
    assert main(["check", str(rules)]) == Status.DICTIONARY_REFUSED
    assert f"{rules}:4:17: 9 UnknownPath fact 2" in capsys.readouterr().out


def test_bytes_that_are_no_text(rules: Path, capsys: pytest.CaptureFixture[str]) -> None:
    """Rules are UTF-8."""
    rules.write_bytes(b"version 2\n# \xff\n")
    assert main(["check", str(rules)]) == Status.DICTIONARY_REFUSED
    assert f"{rules}:2: the byte ff isn't UTF-8" in capsys.readouterr().err


def test_text_of_nothing_much() -> None:
    """A dictionary without facts has a text, too."""
    assert text_of({"version": "1", "facts": []}) == "version 1\n"


def test_a_fault_is_shown_in_the_words_of_the_rules(rules: Path, library: Path, capsys: pytest.CaptureFixture[str]) -> None:
    """Where the rules are text, no JSON of the node stands beside their line."""
    assert library
    rules.write_text(TEXT.replace("* 1/2", "* /rent"))
    assert main(["check", str(rules)]) == Status.DICTIONARY_REFUSED
    told = capsys.readouterr().out
    assert f"{rules}:4:17: 12 IllTyped fact 2 node 1\n  fact 2, /half, node 1\n  Multiply takes" in told
    assert "  4 | /half: Dollar = /rent * /rent\n    |                 ^\n" in told
