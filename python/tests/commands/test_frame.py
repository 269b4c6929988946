"""The command line as a whole: how commands are found, and how each way of ending is told."""

import builtins
from pathlib import Path

import pytest

from fact_graph.__main__ import main
from fact_graph.commands import Commands, commands
from fact_graph.status import Status


def test_help_has_a_line_for_each_command(capsys: pytest.CaptureFixture[str]) -> None:
    assert isinstance(commands, Commands)
    assert main(["--help"]) == Status.DONE
    shown = capsys.readouterr().out
    for name in commands.list_commands(None):  # type: ignore[arg-type] # the names are the same in each context
        assert f"\n  {name} " in shown


def test_each_command_explains_itself(capsys: pytest.CaptureFixture[str]) -> None:
    assert isinstance(commands, Commands)
    for name in commands.list_commands(None):  # type: ignore[arg-type] # the names are the same in each context
        assert main([name, "--help"]) == Status.DONE
        assert f"Usage: fact-graph {name}" in capsys.readouterr().out


def test_what_went_wrong_is_a_status_and_a_line(tmp_path: Path, capsys: pytest.CaptureFixture[str]) -> None:
    bad = tmp_path / "bad.json"
    bad.write_text("{")
    for words, status, said in (
        (["check", str(bad)], Status.DICTIONARY_REFUSED, ""),
        (["nothing"], Status.USAGE, "No such command 'nothing'"),
        (["check"], Status.USAGE, "Missing argument 'FILE'"),
        (["check", str(tmp_path / "none")], Status.FETCH_FAULT, "none: No such file or directory"),
        (["check", "year", "2022"], Status.USAGE, "no rules year 2022 come with fact-graph"),
    ):
        assert main(words) == status
        assert said in capsys.readouterr().err


def test_a_missing_package_is_named(monkeypatch: pytest.MonkeyPatch, capsys: pytest.CaptureFixture[str]) -> None:
    imported = builtins.__import__

    def without_click(name: str, *more: object) -> object:
        if name == "commands":
            raise ModuleNotFoundError("No module named 'click'", name="click")
        return imported(name, *more)  # type: ignore[arg-type] # handed on as they come

    monkeypatch.setattr(builtins, "__import__", without_click)
    assert main(["check"]) == Status.NOT_INSTALLED
    assert "python3-click" in capsys.readouterr().err
