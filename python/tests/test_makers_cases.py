"""Cases of a maker's own: their files, what is compared, and how it is reported."""

from __future__ import annotations

import subprocess
from pathlib import Path
from xml.etree import ElementTree

import pytest

from fact_graph.cases import Case, CaseError, Runner, read_cases
from fact_graph.commands import command_line

from .places import EXAMPLES

RULES = b"""{"version":"1","enums":[{"name":"e","options":["x","y"]}],"facts":[
  {"path":"/a","writable":"Int","limits":[["Max","9"]]},
  {"path":"/d","writable":"Dollar","placeholder":["Dollar","1"]},
  {"path":"/e","writable":"Enum(e)"},
  {"path":"/t","writable":"Text"},
  {"path":"/c","writable":"Collection"},
  {"path":"/c/*/m","writable":"Int"},
  {"path":"/big","derived":"Collection(/c)","is":["Filter","/c",["LessThan",["Int","5"],["Dependency","m"]]]},
  {"path":"/first","derived":"Item(/c)","is":["Find","/c",["LessThan",["Int","5"],["Dependency","m"]]]},
  {"path":"/s","derived":"Int","is":["CollectionSum","/c/*/m"]},
  {"path":"/q","derived":"Rational","is":["Divide",["Int","1"],["Dependency","/a"]]},
  {"path":"/p","derived":"Int","is":["Multiply",["Dependency","/a"],["Int","999999999999999"]]},
  {"path":"/known","derived":"Boolean","is":["IsComplete","/a"]}]}"""

AS_DUE = (
    ("a value", "{/a: 5}", "{/a: 5}"),
    ("a value written otherwise", "{/d: 5}", "{/d: 5.00}"),
    ("a value written otherwise in what is due", "{/d: 5.00}", "{/d: 05}"),
    ("a quoted value", '{/t: "5"}', '{/t: "5"}'),
    ("a text that begins as a state does", "{/t: open}", "{/t: complete open}"),
    ("a placeholder", "{}", "{/d: placeholder 1}"),
    ("a figure that waits", "{}", "{/s: incomplete}"),
    ("a fault of an amount", "{/a: 2}", "{/p: fault overflow}"),
    ("a fault of a division", "{/a: 0}", "{/q: fault zero-divide}"),
    ("a figure that is final", "{/c: [], /a: 1}", "{/s: final 0}"),
    ("a figure that isn't final", "{}", "{/d: open}"),
    ("a complete figure that isn't final", "{/a: 1}", "{/known: open}"),
    ("nobody", "{/c: []}", "{/c: [], /big: []}"),
    ("members by name", "{/c: {p: {m: 6}, q: {m: 5}, r: {m: 7}}}", "{/big: [p, r], /first: p, /c/q/m: 5, /s: 18}"),
    ("members in one text", "{/c: [p, q]}", '{/c: "[p, q]"}'),
    ("members without answers", "{/c: [p, q]}", "{/c: [p, q], /s: incomplete}"),
    ("members that are written in a row", "{/c: {p: , q: {m: 1}}}", "{/c: {q: {m: 1}}}"),
    ("members' answers by path", "{/c: [p], /c/p/m: 4}", "{/s: 4}"),
)


def yaml(given: str, due: str, more: str = "") -> list[Case]:
    """The cases of a file with one."""
    return read_cases("a.yaml", f"cases:\n- title: one\n  given: {given}\n  due: {due}\n{more}".encode())


@pytest.mark.parametrize("given, due", [row[1:] for row in AS_DUE], ids=[row[0] for row in AS_DUE])
def test_as_due(given: str, due: str) -> None:
    """A case whose figures are as they are due, twice, since nothing is left of the first time."""
    runner = Runner(RULES)
    assert [(it.differences, it.error) for it in runner.run(yaml(given, due) * 2)] == [((), None)] * 2


DIFFERENT = (
    ("another value", "{/a: 5}", "{/a: 6}", ("/a", "complete 6", "complete 5", ())),
    ("another state", "{}", "{/d: 1}", ("/d", "complete 1.00", "placeholder 1.00", ("/d",))),
    ("what is missing", "{/c: {p: {m: 1}, q: }}", "{/s: 1}", ("/s", "complete 1", "incomplete", ("/c/q/m",))),
    ("a figure that isn't final", "{/a: 1}", "{/known: final true}", ("/known", "final true", "complete true, not final", ())),
    ("a figure that is final", "{/a: 1}", "{/a: open}", ("/a", "open", "final 1", ())),
    ("other members", "{/c: {p: {m: 6}, q: {m: 7}}}", "{/big: [q]}", ("/big", "complete [q]", "complete [p q]", ())),
    ("another member", "{/c: {p: {m: 6}, q: {m: 7}}}", "{/first: q}", ("/first", "complete q", "complete p", ())),
)


@pytest.mark.parametrize("given, due, difference", [row[1:] for row in DIFFERENT], ids=[row[0] for row in DIFFERENT])
def test_not_as_due(given: str, due: str, difference: tuple[str, str, str, tuple[str, ...]]) -> None:
    """A figure that isn't as it is due, with what is found, and what it still wants."""
    [outcome] = Runner(RULES).run(yaml(given, due))
    [found] = outcome.differences
    assert (found.figure, found.due, found.found, found.missing) == difference


def test_what_is_given_to_all_cases() -> None:
    """A case says what it says, and else what the file says; a collection is said as a whole."""
    one, two = "{title: one, given: {/c: {q: {m: 2}}}, due: {/a: 1, /s: 2}}", "{title: two, given: {/a: 2}, due: {/a: 2, /s: 1}}"
    text = f"given: {{/a: 1, /c: {{p: {{m: 1}}}}}}\ncases: [{one}, {two}]"
    assert all(it.is_as_due for it in Runner(RULES).run(read_cases("a.yaml", text.encode())))


def test_overrides() -> None:
    """A figure that is overridden."""
    assert all(it.is_as_due for it in Runner(RULES).run(yaml("{}", "{/s: final 7}", "  overrides: {/s: 7}")))


TABLE = """\ufefftitle;/a;/c;/c/p/m;/c/q/m;override /p;due /s;due /p;cites;date
one;1;;4;5;;9;999999999999999;Rule 1;2025-01-31

two;;[];;;7;final 0;7;;
"""


def test_a_table() -> None:
    """Each line is a case; an empty field says nothing; columns are parted by semicolons too."""
    first, second = cases = read_cases("a.csv", TABLE.encode())
    assert (first.title, first.cites, first.date, second.place) == ("one", "Rule 1", "2025-01-31", ("a.csv", 4, 1))
    assert [(it.differences, it.error) for it in Runner(RULES).run(cases)] == [((), None)] * 2


WRONG = (
    ("a path of no fact", "{/aa: 1}", "{/a: 1}", "3:16: the rules have no fact /aa; did you mean `/a`?"),
    ("a path of a figure that isn't there", "{}", "{/big/p/m: 1}", "4:19: the rules have no fact /big/*/m; did you mean `/c/*/m`?"),
    ("a value of another type", "{/a: 1.5}", "{/a: 1}", "3:15: `1.5` is no answer to /a, which is a whole number of at most 15 digits, as `1200`"),
    ("an option that there isn't", "{/e: z}", "{/a: 1}", "3:15: `z` is no answer to /e, which is one of x, y"),
    ("a value that breaks a limit", "{/a: 10}", "{/a: 1}", "3:15: `10` is refused for /a: it breaks Max 9"),
    ("an answer that follows", "{/s: 1}", "{/a: 1}", "3:15: /s follows from other facts: put it below `overrides`"),
    ("a member that there isn't", "{/c: [pat], /c/pit/m: 1}", "{/a: 1}", "3:32: /c has no member `pit`; did you mean `pat`?"),
    ("a member twice", "{/c: [p, p]}", "{/a: 1}", "3:15: /c has `p` twice"),
    ("a fact of each member", "{}", "{/c/*/m: 1}", "4:17: /c/*/m is of each member: write the name of one in place of `*`"),
    ("a collection with a value", "{/c: p}", "{/a: 1}", "3:15: /c is a collection: list the names of its members, as [ann, ben]"),
    ("members of what isn't a collection", "{/a: [p]}", "{/a: 1}", "3:15: /a is no collection that is answered"),
    ("a due value of another type", "{}", "{/s: x}", "4:13: `x` is no answer to /s, which is a whole number of at most 15 digits, as `1200`"),
    ("members that aren't listed", "{}", "{/big: p}", "4:15: /big has members: list their names, as [ann, ben]"),
    ("a value behind a state that has none", "{}", "{/s: incomplete 1}", "4:13: behind `incomplete` stands no value"),
    ("a fault that there isn't", "{}", "{/s: fault 1}", "4:13: `1` is no fault: overflow or zero-divide"),
)


@pytest.mark.parametrize("given, due, wrong", [row[1:] for row in WRONG], ids=[row[0] for row in WRONG])
def test_cases_that_cannot_be_run(given: str, due: str, wrong: str) -> None:
    """What is wrong is said with its line and column; the next case is run."""
    first, second = Runner(RULES).run([*yaml(given, due), *yaml("{/a: 1}", "{/a: 1}")])
    assert first.error is not None and second.is_as_due
    assert str(first.error) == f"a.yaml:{wrong}"


PLACES = (
    ("YAML that is none", "a.yaml", b"cases: [\n  {title: one", 2, "this is no YAML"),
    ("an empty file", "a.yaml", b"", 1, "the file has no cases"),
    ("no cases", "a.yaml", b"given: {}", 1, "the file has no `cases`"),
    ("no title", "a.yaml", b"cases:\n- due: {/a: 1}", 2, "the case has no `title`"),
    ("nothing due", "a.yaml", b"cases:\n- title: one", 2, "the case has no `due`"),
    ("a key that there isn't", "a.yaml", b"cases:\n- title: one\n  dues: {/a: 1}", 3, "`dues` is none of title, given, due, overrides, cites, date; did"),
    ("a path twice", "a.yaml", b"cases:\n- title: one\n  due:\n    /a: 1\n    /a: 2", 5, "`/a` stands twice"),
    ("no list of cases", "a.yaml", b"cases: one", 1, "`cases` is a list: begin each case with `- title:`"),
    ("a day that there isn't", "a.yaml", b"cases:\n- title: one\n  due: {/a: 1}\n  date: 2025-02-30", 4, "`2025-02-30` is no day"),
    ("a fact within a fact", "a.yaml", b"cases:\n- title: one\n  due: {/c: {p: {m: {n: 1}}}}", 3, "here belongs one value, that of /c/p/m"),
    ("no UTF-8", "a.yaml", b"cases:\n- title: \xff", 2, "the file is no UTF-8"),
    ("a column that there isn't", "a.csv", b"title,dew /a\none,1", 1, "`dew /a` is no column: write title, cites, date, /PATH, due /PATH"),
    ("a field too many", "a.csv", b"title,due /a\none,1\ntwo,1,2", 3, "the line has 3 fields, and the first has 2"),
    ("a quote too few", "a.csv", b'title,due /a\n"one,1', 2, "this is no CSV: unexpected end of data"),
    ("an empty table", "a.csv", b"", 1, "the file has no cases"),
)


@pytest.mark.parametrize("name, text, line, message", [row[1:] for row in PLACES], ids=[row[0] for row in PLACES])
def test_files_that_have_no_form(name: str, text: bytes, line: int, message: str) -> None:
    """What has no form is said with its line."""
    with pytest.raises(CaseError) as raised:
        read_cases(name, text)
    assert raised.value.place.line == line
    assert raised.value.message.startswith(message)


def test_a_place_in_a_table() -> None:
    """The column is the number of the field."""
    [outcome] = Runner(RULES).run(read_cases("a.csv", b"title,/e,due /a\none,z,1\n"))
    assert outcome.error is not None and outcome.error.place == ("a.csv", 2, 2)


# ---- the command

SCREENER = str(EXAMPLES / "screener.json")
CASES = """cases:
- {title: as due, due: {/savings: placeholder 0}}
- title: not as due <&> \u0007
  cites: Rule 1
  date: 2025-01-31
  given: {/bill: 10}
  due: {/bill: 11, /help: incomplete, /means: 5}
- {title: not run, given: {/bill: -1}, due: {/help: 1}}
"""


def cases(folder: Path) -> str:
    """A file with a case of each outcome."""
    (folder / "some.cases.yaml").write_text(CASES.replace("\u0007", '\\a').replace("not as due <&> \\a", '"not as due <&> \\a"'))
    return str(folder)


def test_the_command(tmp_path: Path, capsys: pytest.CaptureFixture[str]) -> None:
    """It shows what isn't as it is due, and its status says so."""
    assert command_line(["test", SCREENER, cases(tmp_path), "-k", "DUE"]) == 12
    assert capsys.readouterr().out.replace(f"{tmp_path}/", "") == (
        "NOT AS DUE: not as due <&> \u0007 (some.cases.yaml:3:3, Rule 1, 2025-01-31)\n"
        "  figure  due             found\n"
        "  /bill   complete 11.00  complete 10.00\n"
        "  /means  complete 5.00   incomplete\n"
        "  /means still wants: /savings, /people\n"
        "\n"
        "1 as due, 1 not as due\n"
    )
    assert command_line(["test", SCREENER, cases(tmp_path)]) == 13
    assert capsys.readouterr().out.endswith("1 as due, 1 not as due, 1 not run\n")
    assert command_line(["test", SCREENER, cases(tmp_path), "-k", "as due -k"]) == 2
    assert command_line(["test", SCREENER, str(tmp_path / "none.yaml")]) == 3


def test_coverage_that_is_not_enough(tmp_path: Path, capsys: pytest.CaptureFixture[str]) -> None:
    """The status says that it isn't, and the page is written."""
    page = tmp_path / "page.html"
    assert command_line(["test", SCREENER, "--at-least", "100", "--page", str(page)]) == 0
    assert command_line(["test", SCREENER, "-k", "elder", "--coverage"]) == 0
    assert command_line(["test", SCREENER, "-k", "elder", "--at-least", "99"]) == 12
    assert capsys.readouterr().out.endswith("that is less than 99 percent\n")
    assert "17 cases reach 33 of 33 points of the rules, 100 percent." in page.read_text()


def test_junit(tmp_path: Path) -> None:
    """The file has the form that servers read, and says the same."""
    file = tmp_path / "junit.xml"
    command_line(["test", SCREENER, cases(tmp_path), "--junit", str(file)])
    subprocess.run(["xmllint", "--noout", "--schema", str(Path(__file__).with_name("junit.xsd")), str(file)], check=True, capture_output=True)
    [suite] = ElementTree.parse(file).getroot()
    assert [suite.get(name) for name in ("tests", "failures", "errors", "skipped")] == ["3", "1", "1", "0"]
    assert [[part.tag for part in row] for row in suite] == [[], ["failure"], ["error"]]
    assert suite[1].get("name") == "not as due <&> \ufffd"
    failure = suite[1][0]
    assert failure.get("message") == "2 of 3 figures differ" and "/means  complete 5.00   incomplete" in str(failure.text)
