"""The commands, each as a user runs it in a script."""

import json
import shutil
import subprocess
import sys
from pathlib import Path

import pytest

from fact_graph.__main__ import main
from fact_graph.status import Status

EXAMPLES = Path(__file__).resolve().parents[3] / "examples"
SCREENER = str(EXAMPLES / "screener.json")
SCRIPT = str(EXAMPLES / "screener.script")

Shown = pytest.CaptureFixture[str]


@pytest.fixture(name="bad")
def _bad(tmp_path: Path) -> str:
    """A dictionary with three faults, the second of which the engine names first."""
    file = tmp_path / "bad.json"
    file.write_text(
        '{"version":"1","facts":[\n {"path":"/rent","writable":"Dollar","limits":[["Min","x"]]},\n'
        ' {"path":"/two","derived":"Dollar","is":["Add",["Dependency","/rent"],["Dependency","/rnet"]]},\n'
        ' {"path":"/sum","derived":"Dollar","is":["Add",["Dependency","/rent"],["Int","1"]]}]}'
    )
    return str(file)


def test_check_accepts(capsys: Shown) -> None:
    assert main(["check", SCREENER]) == Status.DONE
    assert capsys.readouterr().out == f"{SCREENER}: accepted, 19 facts, 52 nodes\n"


def test_check_shows_the_first_fault(bad: str, capsys: Shown) -> None:
    assert main(["check", bad]) == Status.DICTIONARY_REFUSED
    assert capsys.readouterr().out.splitlines() == [
        f"{bad}:3:85: 9 UnknownPath fact 2",
        "  fact 2, /two",
        "  there is no fact `/rnet`",
        "  `/rent` is like it",
        '  3 |  {"path":"/two","derived":"Dollar","is":["Add",["Dependency","/rent"],["Dependency","/rnet"]]},',
        "    |" + " " * 85 + "^",
        "  To mend it: Correct the name, or add the fact. Inside a member `../name` is the same member's fact; under a Filter or a Find `name`"
        " is that of the member that is tested.",
    ]


def test_check_all_goes_on(bad: str, capsys: Shown) -> None:
    assert main(["check", "--all", bad]) == Status.DICTIONARY_REFUSED
    lines = capsys.readouterr().out.splitlines()
    assert [line for line in lines if line.startswith(bad)] == [
        f"{bad}:3:85: 9 UnknownPath fact 2", f"{bad}:2:55: 13 BadLimit fact 1", f"{bad}:4:41: 12 IllTyped fact 3 node 1"
    ]  # fmt: skip
    assert lines[-1] == "3 in all"


def test_check_finds_what_the_engine_takes_and_no_maker_means(tmp_path: Path, capsys: Shown) -> None:
    rules = tmp_path / "rules.json"
    rules.write_text('{"version":"1","facts":[{"path":"/a","path":"/b","writable":"Int"}]}')
    (tmp_path / "rules.page").write_text('{"titel":"Help","figures":["/a"],"labels":{"/bb":"B"}}')
    assert main(["check", str(rules)]) == Status.FINDINGS
    shown = capsys.readouterr().out
    assert f"{rules}:1:38: the key `path` stands twice here" in shown
    page = tmp_path / "rules.page"
    assert f"{page}:1:2: a page has no key `titel`; `title` is like it" in shown
    assert f'{page}:1:28: there is no fact "/a"' in shown
    assert f'{page}:1:44: there is no fact "/bb"; `/b` is like it' in shown


PAGE_OF_BILL = {
    "introduction": ["Two figures."],
    "groups": {"home": ["/tenure", "/people"], "money": ["/bill"]},
    "headings": {"money": "Money"},
    "purposes": {"/caseNumber": "tel"},
}
MISSTATED = [
    ({"introduction": "Two"}, "an introduction is a list of texts, one for each paragraph"),
    ({"groups": ["/bill"]}, "the groups are an object of lists of paths by group"),
    ({"groups": {"home": "/bill"}}, "a group is a list of paths"),
    ({"groups": {"home": ["/bil"]}}, 'there is no fact "/bil"; `/bill` is like it'),
    ({"groups": {"home": ["/help"]}}, '"/help" is worked out, and a group is of questions'),
    ({"groups": {"home": ["/people/*/born"]}}, '"/people/*/born" is asked with the other questions on a member of /people, so it stands in no group'),
    ({"groups": {"home": ["/bill"], "money": ["/bill"]}}, '"/bill" stands in a group before'),
    ({"groups": {"home": ["/bill"]}, "headings": {"hom": "Home"}}, 'there is no group "hom"; `home` is like it'),
    ({"purposes": {"/caseNumber": "bday"}}, "the purpose of a Text is `name`,"),
    ({"purposes": {"/bill": "name"}}, '"/bill" has a type without purposes'),
]


@pytest.mark.parametrize(("stated", "reason"), [(PAGE_OF_BILL, ""), *MISSTATED])
def test_check_tells_what_is_wrong_with_a_page(stated: dict[str, object], reason: str, tmp_path: Path, capsys: Shown) -> None:
    rules = tmp_path / "rules.json"
    shutil.copy(SCREENER, rules)
    rules.with_suffix(".page").write_text(json.dumps(stated))
    assert main(["check", str(rules)]) == (Status.FINDINGS if reason else Status.DONE)
    shown = capsys.readouterr().out
    assert reason in shown and ("rules.page" in shown) == bool(reason)


def test_run_has_the_replies_of_the_program(capsys: Shown) -> None:
    assert main(["run", SCREENER, SCRIPT]) == Status.DONE
    assert capsys.readouterr().out == (EXAMPLES / "screener.replies").read_text()


def test_rules_with_a_fault_end_each_command_alike(bad: str, capsys: Shown) -> None:
    for words in (["run", bad, SCRIPT], ["save", bad, SCRIPT], ["missing", bad, "/sum"], ["graph", bad], ["ask", bad]):
        assert main(words) == Status.DICTIONARY_REFUSED
        assert "9 UnknownPath fact 2" in capsys.readouterr().err


def test_answers_are_saved_carried_and_missing(tmp_path: Path, capsysbinary: pytest.CaptureFixture[bytes]) -> None:
    saved = tmp_path / "saved"
    assert main(["save", SCREENER, SCRIPT]) == Status.DONE
    saved.write_bytes(capsysbinary.readouterr().out)
    assert main(["run", SCREENER, "--saved", str(saved), str(_script(tmp_path, "get /bill\n"))]) == Status.DONE
    assert capsysbinary.readouterr().out == b"complete 1240.50\n"
    assert main(["missing", SCREENER, "/help", "/outcome"]) == Status.DONE
    assert capsysbinary.readouterr().out == b"/tenure\n/savings\n/people\n"
    assert main(["missing", SCREENER, "/hlp"]) == Status.COMMAND_REFUSED
    assert b"/hlp: refused 3 UnknownFact" in capsysbinary.readouterr().err
    fewer = json.loads(Path(SCREENER).read_text(encoding="utf-8"))
    fewer["facts"] = [fact for fact in fewer["facts"] if fact["path"] != "/caseNumber"][:6]
    other, out = tmp_path / "other.json", tmp_path / "kept"
    other.write_text(json.dumps(fewer))
    assert main(["carry", str(other), str(saved), "-o", str(out)]) == Status.DONE
    assert b"dropped value /caseNumber\n" in capsysbinary.readouterr().out
    assert "value /bill 1240.50\n" in out.read_text()
    saved.write_text("saved 1\nnonsense\n")
    assert main(["carry", SCREENER, str(saved)]) == Status.SAVED_REFUSED


def _script(folder: Path, text: str) -> Path:
    script = folder / "script"
    script.write_text(text)
    return script


def test_graph_draws_each_kind_of_fact(capsysbinary: pytest.CaptureFixture[bytes]) -> None:
    assert main(["graph", SCREENER, "--text"]) == Status.DONE
    lines = capsysbinary.readouterr().out.decode().splitlines()
    for due in (
        '  "/savings" [shape=box, style=dashed];',
        '  "/bill" [shape=box, tooltip="The heating bill of a year."];',
        '  "/adults" [shape=ellipse, peripheries=2];',
        '    "/people/*/adult" [shape=ellipse];',
        '  "/people/*/born" -> "/people/*/adult";',
        '  "/people/*/adult" -> "/adults";',
        '  "/people/*/wages" -> "/wages";',
    ):
        assert due in lines
    assert main(["graph", SCREENER, "--text", "--of", "/size"]) == Status.DONE
    assert capsysbinary.readouterr().out.decode().count("shape=") == 2
    assert main(["graph", SCREENER, "--of", "/siz"]) == Status.COMMAND_REFUSED


def test_graph_is_svg_where_graphviz_is(tmp_path: Path, monkeypatch: pytest.MonkeyPatch, capsysbinary: pytest.CaptureFixture[bytes]) -> None:
    out = tmp_path / "facts.svg"
    assert main(["graph", SCREENER, "-o", str(out)]) == Status.DONE
    assert "<svg" in out.read_text()
    monkeypatch.setattr(shutil, "which", lambda name: None)
    assert main(["graph", SCREENER]) == Status.DONE
    captured = capsysbinary.readouterr()
    assert captured.out.startswith(b"digraph facts {") and b"Graphviz isn't installed" in captured.err


def test_an_output_that_is_full_is_told() -> None:
    words = [sys.executable, "-m", "fact_graph", "run", SCREENER, SCRIPT]
    with open("/dev/full", "wb") as full:
        ended = subprocess.run(words, stdout=full, stderr=subprocess.PIPE, cwd=EXAMPLES.parent / "python", check=False)
    assert ended.returncode == Status.WRITE_FAULT
    assert b"No space left on device" in ended.stderr
