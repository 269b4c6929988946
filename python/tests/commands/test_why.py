"""Why a figure is what it is, and the rules that come with the library."""

from pathlib import Path

import pytest

from fact_graph.__main__ import main
from fact_graph.status import Status

EXAMPLES = Path(__file__).resolve().parents[3] / "examples"
FACTS = (
    '{"path":"/a","writable":"Int"}',
    '{"path":"/b","derived":"Int","is":["Add",["Dependency","/a"],["Int","1"]]}',
    '{"path":"/c","derived":"Int","is":["Add",["Dependency","/b"],["Dependency","/a"]]}',
    '{"path":"/d","derived":"Int","is":["Add",["Dependency","/c"],["Dependency","/b"]]}',
)
RULES = '{"version":"1","facts":[' + ",".join(FACTS) + "]}"

Shown = pytest.CaptureFixture[str]


@pytest.fixture(name="folder")
def _folder(tmp_path: Path, monkeypatch: pytest.MonkeyPatch) -> Path:
    """The current folder, with rules and with answers."""
    (tmp_path / "d.json").write_text(RULES)
    (tmp_path / "mine").write_text("saved 1\nnext 1\nvalue /a 5\nend\n")
    monkeypatch.chdir(tmp_path)
    return tmp_path


def chain(length: int) -> str:
    """Rules of so many facts, each of which rests on the one before."""
    derived = [f'{{"path":"/f{k}","derived":"Int","is":["Dependency","/f{k - 1}"]}}' for k in range(1, length)]
    return '{"version":"1","facts":[' + ",".join(['{"path":"/f0","writable":"Int"}', *derived]) + "]}"


@pytest.mark.usefixtures("folder")
@pytest.mark.parametrize(
    ("words", "due"),
    [
        (
            ["/d", "--saved", "mine"],
            ["/d final 17", "  /c final 11", "    /b final 6", "      /a final 5", "    /a final 5", "  /b final 6 (above)"],
        ),
        (["/d", "--saved", "mine", "--depth", "1"], ["/d final 17", "  /c final 11 (reads 2)", "  /b final 6 (reads 1)"]),
        (["/d", "--saved", "mine", "--depth", "0"], ["/d final 17 (reads 2)"]),
        (["/a", "--saved", "mine", "--depth", "0"], ["/a final 5"]),
        (["/c"], ["/c incomplete", "  /b incomplete", "    /a incomplete (missing)", "  /a incomplete (missing)"]),
    ],
)
def test_what_a_figure_rests_on(words: list[str], due: list[str], capsys: Shown) -> None:
    assert main(["why", "d.json", *words]) == Status.DONE
    assert capsys.readouterr().out.splitlines() == due


TABLES = """version law-1

enum rank: low, high

table aid: Int to Dollar, otherwise $0
  from 1: $291
  from 2: $535
table rank: Dollar to Enum(rank), otherwise low
  from $500: high
table open: Day to Boolean, otherwise false

/size: Int, placeholder 1
/day: Day
/people: Collection
/people/*/age: Int
/people/*/aid: Dollar = aid for ../age
/first: Item(/people) = first of /people where age > 1
/aid: Dollar = aid for /size
/rank: Enum(rank) = rank for (aid for /size)
/more: Dollar = (aid for 0) + $2 * /size + (aid for (/size + 1))
/firstAid: Dollar = aid for /first/age
/case: Dollar = if /size > 0 then aid for /size otherwise $0
/may: Boolean = open for /day
/asked: Int
/guessed: Dollar = aid for /asked
  placeholder aid for /size
/other: Dollar = aid for /size
  except if /may then $1
"""
ANSWERS = "saved 1\nnext 3\nlist /people #1 #2\nvalue /size 2\nvalue /people/#1/age 1\nvalue /people/#2/age 5\n"
ROWS = (
    ("/aid", ["/aid final 535.00 (table aid, from 2: $535)", "  /size final 2"]),
    ("/rank", ["/rank final high (table rank, from $500: high) (table aid, from 2: $535)", "  /size final 2"]),
    ("/more", ["/more final 539.00 (table aid, otherwise $0)", "  /size final 2"]),
    ("/people/#1/aid", ["/people/#1/aid final 291.00 (table aid, from 1: $291)", "  /people/#1/age final 1"]),
    ("/firstAid", ["/firstAid final 535.00 (table aid, from 2: $535)", "  /first final #2", "    /people final [#1 #2]", "    /people/#1/age final 1",
                   "    /people/#2/age final 5", "  /people/#2/age final 5"]),
    ("/case", ["/case final 535.00", "  /size final 2"]),
    ("/may", ["/may incomplete", "  /day incomplete (missing)"]),
    ("/other", ["/other incomplete", "  /may incomplete", "    /day incomplete (missing)"]),
)  # fmt: skip


@pytest.mark.usefixtures("folder")
@pytest.mark.parametrize(("slot", "due"), ROWS)
def test_which_row_of_a_table_was_read(slot: str, due: list[str], capsys: Shown) -> None:
    """It is told where the rule reads it for a fact, a constant or another row, and reads it for sure."""
    Path("tables.facts").write_text(TABLES, encoding="utf-8")
    Path("answers").write_text(f"{ANSWERS}end\n", encoding="utf-8")
    assert main(["why", "tables.facts", slot, "--saved", "answers"]) == Status.DONE
    assert capsys.readouterr().out.splitlines() == due


@pytest.mark.usefixtures("folder")
def test_what_an_override_or_a_placeholder_stands_for_reads_no_row(capsys: Shown) -> None:
    """A row is told of what the rule itself came to."""
    Path("tables.facts").write_text(TABLES, encoding="utf-8")
    Path("answers").write_text(f"{ANSWERS}override /aid 7.00\nend\n", encoding="utf-8")
    for slot, due in (("/aid", "/aid final 7.00 (override)"), ("/guessed", "/guessed placeholder 535.00")):
        assert main(["why", "tables.facts", slot, "--saved", "answers"]) == Status.DONE
        assert capsys.readouterr().out.splitlines()[0] == due


@pytest.mark.usefixtures("folder")
def test_what_leads_to_a_missing_answer(capsys: Shown) -> None:
    assert main(["missing", "d.json", "/b", "/c", "--tree"]) == Status.DONE
    due = ["/b incomplete", "  /a incomplete (missing)", "/c incomplete", "  /b incomplete", "    /a incomplete (missing)", "  /a incomplete (missing)"]
    assert capsys.readouterr().out.splitlines() == due
    assert main(["missing", "d.json", "/b", "--saved", "mine", "--tree"]) == Status.DONE
    assert capsys.readouterr().out == "/b final 6\n"


def test_a_long_chain_is_shown(folder: Path, capsys: Shown) -> None:
    (folder / "long.json").write_text(chain(2_000))
    assert main(["why", "long.json", "/f1999"]) == Status.DONE
    assert capsys.readouterr().out.splitlines()[-1] == "  " * 1_999 + "/f0 incomplete (missing)"


@pytest.mark.usefixtures("folder")
@pytest.mark.parametrize(
    ("slot", "said"),
    [("/nowhere", "/nowhere: refused 3 UnknownFact: "), ("a", "a: refused 1 BadLine: ")],
)
def test_a_slot_that_there_is_not(slot: str, said: str, capsys: Shown) -> None:
    assert main(["why", "d.json", slot]) == Status.COMMAND_REFUSED
    shown = capsys.readouterr()
    assert (shown.out, shown.err.startswith(f"fact-graph: {said}")) == ("", True)


@pytest.mark.parametrize("words", [["year", "2023"], ["year 2023"]])
def test_the_words_of_a_year_never_name_a_file(words: list[str], folder: Path, capsys: Shown) -> None:
    (folder / "year 2023").write_text(RULES)
    assert main(["run", *words, str(EXAMPLES / "years" / "2023.script")]) == Status.DONE
    assert capsys.readouterr().out == (EXAMPLES / "years" / "2023.replies").read_text()
    assert main(["check", *words]) == Status.DONE
    assert capsys.readouterr().out.startswith("year 2023: accepted, 45 facts, ")
    assert main(["check", "./year 2023"]) == Status.DONE
    assert capsys.readouterr().out == "./year 2023: accepted, 4 facts, 9 nodes\n"


@pytest.mark.usefixtures("folder")
@pytest.mark.parametrize(
    "words",
    [["convert", "year", "2024"], ["graph", "income", "2023", "--text"], ["missing", "income", "2023", "/taxAfterCredits"], ["lint", "year", "2023"]],
)
def test_commands_take_the_rules_of_a_year(words: list[str], capsys: Shown) -> None:
    assert main(words) in (Status.DONE, Status.FINDINGS)
    assert capsys.readouterr().out


@pytest.mark.usefixtures("folder")
def test_a_year_that_there_is_not(capsys: Shown) -> None:
    assert main(["why", "year", "2022", "/married"]) == Status.USAGE
    assert "no rules year 2022 come with fact-graph" in capsys.readouterr().err


@pytest.mark.usefixtures("folder")
def test_answers_of_a_year_are_saved_and_asked_why(folder: Path, capsys: Shown) -> None:
    assert main(["save", "year", "2023", str(EXAMPLES / "years" / "2023.script")]) == Status.DONE
    (folder / "couple").write_text(capsys.readouterr().out)
    assert main(["why", "year", "2023", "/standardDeduction", "--saved", "couple", "--depth", "0"]) == Status.DONE
    assert capsys.readouterr().out.startswith("/standardDeduction final 30700.00 (reads ")
