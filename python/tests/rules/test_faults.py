"""What is said of a text that isn't one of rules, and where the faults of a dictionary stand in its text."""

from __future__ import annotations

from pathlib import Path

import pytest

from fact_graph import DictionaryRefused, Session
from fact_graph.expressions import fact_tree
from fact_graph.faults import Examined
from fact_graph.rules import NotRules, parse

PLACED = {
    "/s: Int = 1 +": "14: a value belongs here, and nothing follows",
    "/s: Int = /a == 2": "14: an operator, `except`, `placeholder` or the end of the rule belongs here, and `==` stands here; "
    "write `is` where two are compared",
    "/s: Int = max(1, 2)": "14: an operator, `except`, `placeholder` or the end of the rule belongs here, and `(` stands here; "
    "write `greater of (.., ..)`",
    "/s Int": "4: `:` belongs here, and `Int` stands here",
    "/s: Money": "5: Money is no type: the types are Boolean, Int, Dollar, Rational, Day, Text, Enum(..), Collection, Collection(/..) and Item(/..)",
    "/s: Dollar = $1.5": "14: a value belongs here, and `$1` stands here; an amount is written as `$2.50`, and a fraction as `1/2` or `10%`",
    '/s: Text = "abc': '12: a value belongs here, and `"abc` stands here; a quote is missing: this text has no end on its line',
    "/s: Int = (1 + 2": "17: `)` belongs here, and nothing follows",
    "/s: Int = 1 < 2 < 3": "17: an operator, `except`, `placeholder` or the end of the rule belongs here, and `<` stands here; "
    "part two comparisons by `and`, or use brackets",
    "rent: Int": "1: `version`, `enum`, `table` or the path of a fact belongs at the left edge; what goes on with a fact is indented",
    "/s: Int = rents": "11: `rents` is neither a path nor an option that is known here: "
    "a path begins with / or ../, and an option is written with its list, as `tenure.rents`",
    "/rents: Int\n/s: Int = rents": "11: `rents` is neither a path nor an option that is known here: write `/rents`",
    "/s: Enum": "5: the name of a list of options belongs behind Enum, as `Enum(tenure)`",
    "/s: Item(people)": "5: a collection is named by its path: `Item(/people)`",
    "/s: Item(/people)": "5: what has the type Item(/people) follows from a rule: `= /people where ..` belongs behind it",
    "/s: Collection = /a": "5: a choice of members names their collection, as `Collection(/people)`",
    "enum a: b, b": "12: the option `b` stands twice in the list",
    "/a: Int\nenum a: b": "1: the lists of options stand before the facts",
    "version 1": "1: the version stands once, before all else",
    "/a: Text, at most 5": "20: `bytes` belongs here, and nothing follows",
    "/x: Dollar, from 5": "13: a limit of /x is written as an amount, as `$5` or `$1,500.00`",
    "/x: Int, from 1 = 2": "10: this belongs to a fact that a person answers, and `=` makes one that follows",
    "/x: Int, placeholder 1 = 2": "10: this belongs to a fact that a person answers, and `=` makes one that follows: write it behind the rule, without a comma",
    "/x: Int, placeholder 1, placeholder 2": "25: a fact has one placeholder",
    '/x: Text, limit Least "1"': "11: the limits are Min, Max, MaxLength and Check",
    "/x: Boolean = /a + /b is complete": "15: only a fact is complete or not: a path belongs before `is complete`",
    '/x: Text = "a\\qb"': "12: a backslash stands before what it can't stand before here: write \\\\ for one backslash",
    "/x: Day = /a + 3 months": "11: `.. + .. months` belongs to version law-1",
    "/x: Int = 1 + (age of /a on /b)": "16: `age of .. on ..` belongs to version law-1",
    "table t: Int to Int, otherwise 0": "1: a table belongs to version law-1",
    "/x: Int = t for /a": "11: `.. for ..` belongs to version law-1",
    "/x: Boolean = " + "not " * 120 + "/a": "15: more than 120 operations stand in each other here: give a part a fact of its own",
}
"""By a line behind `version 2`, what is said of it, and at which column."""


OF_LAW = {
    "/x: Int = age of /a to /b": "21: `on` belongs here, and `to` stands here",
    "/x: Int = age(/a)": "14: an operator, `except`, `placeholder` or the end of the rule belongs here, and `(` stands here; "
    "write `age of /born on /day`",
    "/x: Int = days from /a": "23: `to` belongs here, and nothing follows",
    "/x: Dollar = round up /a * 2 to $1": "26: `to` belongs here, and `*` stands here; what is more than one value stands in brackets",
    "/x: Int = mostAid for": "22: a value belongs here, and nothing follows",
    "/x: Int = mostAid(/a)": "18: an operator, `except`, `placeholder` or the end of the rule belongs here, and `(` stands here; "
    "nothing is called `mostAid`: a table is read as `mostAid for ..`",
    "table t: Int to Int": "20: a comma belongs here, and nothing follows",
    "table t: Int to Int, else 0": "22: `otherwise` belongs here, and `else` stands here; write `otherwise`, and `if` for each further case",
    "table t: Int, otherwise 0": "13: `to` belongs here, and `,` stands here",
    "table t: Int to Int, otherwise 0\n  1: 2": "3: `from`, a text in quotes or the end of the rule belongs here, and `1` stands here",
    "table t: Int to Int, otherwise 0\n  from 1 2": "10: `:` belongs here, and `2` stands here",
    "table t: Int to Int, otherwise 0\n  from 1:": "10: a value belongs here, and nothing follows",
    "table t: Rational to Int, otherwise 0": "10: a table goes by an Int, a Dollar or a Day",
    "table t: Int to Item(/a), otherwise 0": "17: a table has no members to give: its values are Boolean, Int, Dollar, Rational, Day, Text or Enum(..)",
    "table t: Int to Money, otherwise 0": "17: Money is no type: the types are Boolean, Int, Dollar, Rational, Day, Text, Enum(..), Collection, "
    "Collection(/..) and Item(/..)",
    "table t: Int to Dollar, otherwise 0": "35: a value of t is written as an amount, as `$5` or `$1,500.00`",
    "table t: Int to Dollar, otherwise $0\n  from $1: $2": "8: a key of t is written as a whole number, as `5`",
    "table t: Int to Dollar, otherwise $0\n  from 1: 2": "11: a value of t is written as an amount, as `$5` or `$1,500.00`",
    "table t: Day to Boolean, otherwise no": "36: a value of t is written as `true` or `false`",
    "table t: Day to Enum(e), otherwise f.x": "36: a value of t is written as an option of its list",
    "table t: Day to Text, otherwise x": "33: a value of t is written as a text in quotes",
    "/a: Int\ntable t: Int to Int, otherwise 0": "1: the tables stand before the facts",
    "table t: Int to Int, otherwise 0\nenum e: x": "1: the lists of options stand before the tables",
    "/x: Dollar = ceil(/a)": "18: an operator, `except`, `placeholder` or the end of the rule belongs here, and `(` stands here; "
    "write `round up .. to $1`",
}
"""The same behind `version law-1`."""


def short(line: str) -> str:
    """The beginning of a line."""
    return line[:30]


@pytest.mark.parametrize(("version", "line", "told"), [*(("2", *it) for it in PLACED.items()), *(("law-1", *it) for it in OF_LAW.items())], ids=short)
def test_what_is_said(version: str, line: str, told: str) -> None:
    """The place and the words for each slip."""
    with pytest.raises(NotRules) as raised:
        parse(f"version {version}\n{line}\n")
    assert str(raised.value) == f"line {line.count(chr(10)) + 2}, column {told}"


@pytest.mark.parametrize("version", ["0", "3", "law", "law-2"])
def test_there_is_no_other_version(version: str) -> None:
    """A version that isn't known is told as such."""
    with pytest.raises(NotRules, match="line 1, column 9: the versions are 1, 2 and law-1"):
        parse(f"version {version}\n")


def test_each_fact_is_told_for_itself() -> None:
    """A slip in one fact doesn't hide those of others."""
    with pytest.raises(NotRules) as raised:
        parse("version 2\n/a: Int = 1 +\n/b: Int = 2\n/c: Money\n/d: Int = e\n")
    assert [place.line for place, _ in raised.value.faults] == [2, 4, 5]


@pytest.mark.parametrize("text", ["", "# nothing\n", "  version 2\n", "/a: Int\n"])
def test_rules_begin_with_their_version(text: str) -> None:
    """A text without a version at its beginning is none of rules."""
    with pytest.raises(NotRules):
        parse(text)


def placed(text: str) -> tuple[int, int, int]:
    """The number of the engine's fault in rules, and the line and column where it is shown."""
    rules = parse(text)
    with pytest.raises(DictionaryRefused) as raised:
        Session(rules.json)
    examined = Examined(rules.json, rules)
    finding = examined.finding_of(raised.value)
    assert finding
    place = examined.place(finding)
    assert place
    return raised.value.number, *place


TABLES = {
    "  from 2: $6": (3, 5, 8),
    "  from 01: $6": (3, 5, 8),
    "  from 1000000000000000: $6": (3, 5, 8),
    "\n  # too much\n  from 3: $60000000000000": (3, 7, 11),
    "table t: Int to Int, otherwise 1": (3, 5, 7),
    "table u: Int to Enum(f), otherwise x": (3, 5, 17),
    "table u: Int to Enum(e), otherwise z": (3, 5, 36),
    "\n".join(f"  from {key}: $5" for key in range(3, 1003)): (3, 1004, 3),
    "/a: Dollar = $1 + (u for 1)": (3, 5, 20),
    "/a: Int\n/b: Dollar = t for (/a * $1)": (12, 6, 14),
    "/b: Int = t for 3": (12, 5, 11),
}
"""By what follows the first row of a table, the number of the engine's fault, and the line and column where it stands."""


@pytest.mark.parametrize("follows", TABLES, ids=short)
def test_where_faults_of_tables_stand(follows: str, library: Path) -> None:
    """What is wrong with a table, and with what is read from one, is shown at its line."""
    assert library
    assert placed(f"version law-1\nenum e: x, y\ntable t: Int to Dollar, otherwise $0\n  from 2: $5\n{follows}\n") == TABLES[follows]


FAULTS = {
    "/a: Int = /b": (9, 2, 11),
    "/a: Int =\n  1\n  + $2": (12, 3, 3),
    "/a: Int = 1\n/b: Int = (2 + 3) * /c": (9, 3, 21),
    "/a: Dollar = $1\n  except if 1 then $1": (12, 3, 13),
    "/a: Int = 1\n  placeholder $1": (12, 3, 15),
    "/a: Int, from 1 to 5, from 2": (13, 2, 23),
    "/a: Int\n/a: Int": (7, 3, 1),
    "/a: Enum(gone)": (12, 2, 5),
    "/a: Text, letters": (11, 2, 11),
    "/a: Boolean = if /a then true otherwise /nope": (9, 2, 41),
}
"""By facts behind `version 2`, the number of the engine's fault, and the line and column where it stands."""


@pytest.mark.parametrize("facts", FAULTS)
def test_where_faults_stand(facts: str, library: Path) -> None:
    """A fault that the engine names is shown in the text of the rules."""
    assert library
    assert placed(f"version 2\n{facts}\n") == FAULTS[facts]


def test_each_node_has_a_place() -> None:
    """Each node of a fact stands where its text stands."""
    text = "version 2\n/a: Boolean = not (/b is complete) and (if /c then 1 otherwise 2) + 3 < number of /d\n"
    rules = parse(text)
    [fact] = rules.value["facts"]
    line = text.split("\n")[1]
    found = [(node.name, line[rules.place(node.pointer).column - 1 :][:7]) for node in fact_tree(1, fact).nodes()]
    assert found == [
        ("All", "not (/b"), ("Not", "not (/b"), ("IsComplete", "/b is c"), ("LessThan", "(if /c "), ("Add", "(if /c "), ("Switch", "if /c t"),
        ("Dependency", "/c then"), ("Int", "1 other"), ("True", "otherwi"), ("Int", "2) + 3 "), ("Int", "3 < num"), ("CollectionSize", "number "),
    ]  # fmt: skip
