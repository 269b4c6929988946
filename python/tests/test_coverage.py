"""Coverage: that probes change nothing, that what is read is what the engine reads, and which points cases reach."""

from __future__ import annotations

import json
from typing import Any

import pytest
from hypothesis import HealthCheck, given, settings

from fact_graph import Session
from fact_graph.cases import Case, Entry, Names, Place, read_cases
from fact_graph.checks import findings
from fact_graph.coverage import NoRoom, Point, measure
from fact_graph.coverage.measuring import Reading
from fact_graph.coverage.probes import Probes
from fact_graph.rulebook import Rulebook

from .dictionaries import CONSTANTS
from .interviews import Interview, interviews

SLOWLY = settings(max_examples=60, deadline=None, suppress_health_check=list(HealthCheck))
PLACE = Place("cases", 1, 1)


def answered(dictionary: bytes, lines: list[str]) -> Session:
    """A session with these answers."""
    session = Session(dictionary)
    for line in lines:
        session.line(line)
    return session


def slots(session: Session) -> list[str]:
    """All slots of a session."""
    found = []
    for path, fact in session.dictionary.facts.items():
        result = session.get(fact.collection).value if fact.collection else (1,)
        members = result if isinstance(result, tuple) else ()
        found += [path.replace("*", f"#{member}") for member in members]
    return found


@SLOWLY
@given(interviews())
def test_probes_change_no_result(interview: Interview) -> None:
    """Each slot has the same result with the probes beside it, is final as before, and wants the same answers."""
    with answered(interview.dictionary, interview.lines) as plain:
        for text in Probes(Rulebook(interview.dictionary)).texts():
            with answered(text, interview.lines) as probed:
                for slot in slots(plain):
                    for question in ("get", "final", "missing"):
                        assert probed.line(f"{question} {slot}") == plain.line(f"{question} {slot}")


@SLOWLY
@given(interviews())
def test_what_is_read_is_what_the_engine_reads(interview: Interview) -> None:
    """Of the slots that are read, those without an answer are the ones that the engine calls missing."""
    rulebook = Rulebook(interview.dictionary)
    probes = Probes(rulebook)
    sessions = [answered(text, interview.lines) for text in probes.texts()]
    for slot in slots(answered(interview.dictionary, interview.lines)):
        reading = Reading(probes, sessions, Case("", PLACE, (), (Entry(slot, "", PLACE),)), AsTheyAre(sessions[0].dictionary))
        unanswered = {it for it in reading.seen if is_writable(rulebook, it) and it in sessions[0].missing(it)}
        assert unanswered == set(sessions[0].missing(slot))


@SLOWLY
@given(interviews())
def test_what_is_not_reached_does_not_matter(interview: Interview) -> None:
    """A case that isn't taken, a placeholder that doesn't stand in, and a row that isn't read, may be any other: no figure that is due moves."""
    rulebook = Rulebook(interview.dictionary)
    probes = Probes(rulebook)
    sessions = [answered(text, interview.lines) for text in probes.texts()]
    for slot in slots(answered(interview.dictionary, interview.lines)):
        reading = Reading(probes, sessions, Case("", PLACE, (), (Entry(slot, "", PLACE),)), AsTheyAre(sessions[0].dictionary))
        other = json.loads(interview.dictionary)
        for fact in other["facts"]:
            for part, at, point in replaceable(fact, rulebook):
                if point not in reading.reached:
                    part[at] = ["Switch", ["Case", ["False"], part[at]]]
        for table in other.get("tables", []):
            for part, at, row in entries(table):
                if Point(table["name"], "row", row) not in reading.reached:
                    part[at] = next(text for text in CONSTANTS[table["to"]] if text != part[at])
        with answered(json.dumps(other).encode(), interview.lines) as changed:
            assert changed.get(slot) == sessions[0].get(slot)


def replaceable(fact: dict[str, Any], rulebook: Rulebook) -> list[tuple[Any, Any, Point]]:
    """The parts of a fact that only count where a point is reached: the values of cases, and the placeholder."""
    found: list[tuple[Any, Any, Point]] = []
    for node in rulebook.trees[fact["path"]].nodes():
        part: Any = fact
        for step in node.pointer[2:]:
            part = part[step]
        if node.name == "Switch":
            found += [(case, 2, Point(fact["path"], "case", test.number)) for case, test in zip(part[1:], node.operands[::2])]
        if node is rulebook.trees[fact["path"]].placeholder:
            found.append((fact, "placeholder", Point(fact["path"], "placeholder", node.number)))
    return found


def entries(table: dict[str, Any]) -> list[tuple[Any, Any, int]]:
    """The values of a table, each with the number of its row, which is 0 of what stands below the first."""
    return [(table, "else", 0), *((row, 1, at) for at, row in enumerate(table["rows"], 1))]


class AsTheyAre(Names):
    """Paths that are slots already."""

    def slot(self, path: str, place: Place) -> str:
        return path


def is_writable(rulebook: Rulebook, slot: str) -> bool:
    """Whether the slot is one that a person answers."""
    return rulebook.dictionary.fact_at(slot).is_writable


RULES = """{"version":"2","enums":[{"name":"e","options":["x","y"]}],"facts":[
  {"path":"/a","writable":"Int","placeholder":["Int","1"]},
  {"path":"/b","writable":"Boolean"},
  {"path":"/c","writable":"Collection"},
  {"path":"/c/*/m","writable":"Int"},
  {"path":"/c/*/more","derived":"Item(/c)","is":["Find","/c",["GreaterThan",["Dependency","m"],["Dependency","../m"]]]},
  {"path":"/c/*/gap","derived":"Int","is":["Subtract",["Dependency","../more/m"],["Dependency","../m"]],"placeholder":["Int","0"]},
  {"path":"/big","derived":"Collection(/c)","is":["Filter","/c",["All",["LessThan",["Int","5"],["Dependency","m"]],["Dependency","/b"]]]},
  {"path":"/e","derived":"Enum(e)","is":["Switch",["Case",["Dependency","/b"],["Enum","e","x"]],["Case",["True"],["Enum","e","y"]]]},
  {"path":"/s","derived":"Int","is":["Add",["Dependency","/a"],["Int","1"]],
   "conditional":[["Equal",["Dependency","/e"],["Enum","e","x"]],["Int","0"]]}]}"""

REACHED: tuple[tuple[str, str, str, set[str]], ...] = (
    ("a result, and the placeholder of an answer", "given: {}", "due: {/a: placeholder 1}", {"/a result", "/a placeholder 1"}),
    ("an answer alone", "given: {/a: 2}", "due: {/a: 2}", {"/a result"}),
    ("the case that is taken, and what the others rest on isn't", "given: {/b: true}", "due: {/e: x}", {"/b result", "/e result", "/e case 2"}),
    (
        "the conditional, behind which the main expression isn't read",
        "given: {/b: true}",
        "due: {/s: 0}",
        {"/b result", "/e result", "/e case 2", "/s result", "/s case 4"},
    ),
    (
        "the main expression behind a conditional that is false",
        "given: {/b: false, /a: 4}",
        "due: {/s: 5}",
        {"/b result", "/e result", "/e case 4", "/s result", "/s otherwise", "/a result"},
    ),
    (
        "both sides of what is asked of each member",
        "given: {/b: true, /c: {p: {m: 5}, q: {m: 6}}}",
        "due: {/big: [q]}",
        {"/b result", "/big result", "/c result", "/c/*/m result"}
        | {"/big side 2 True", "/big side 2 False", "/big side 3 True", "/big side 3 False", "/big side 6 True"},
    ),
    (
        "a member that is found behind another",
        "given: {/c: {p: {m: 5}, q: {m: 4}, r: {m: 6}}}",
        "due: {/c/p/more: r}",
        {"/c result", "/c/*/m result", "/c/*/more result", "/c/*/more side 2 True", "/c/*/more side 2 False"},
    ),
    (
        "nobody who is found, so that the placeholder of what rests on them stands in",
        "given: {/c: {p: {m: 5}, q: {m: 4}}}",
        "due: {/c/p/gap: placeholder 0}",
        {"/c result", "/c/*/m result", "/c/*/more side 2 False", "/c/*/gap result", "/c/*/gap placeholder 4"},
    ),
    ("an override, behind which nothing is read", "overrides: {/e: x}", "due: {/e: x}", {"/e result"}),
    ("nothing, where the case can't be run", "given: {/b: 7}", "due: {/e: x}", set()),
)


@pytest.mark.parametrize("said, due, reached", [row[1:] for row in REACHED], ids=[row[0] for row in REACHED])
def test_points_that_a_case_reaches(said: str, due: str, reached: set[str]) -> None:
    """Each row was worked out by hand."""
    text = f"cases: [{{title: one, {said}, {due}}}]"
    coverage = measure(RULES.encode(), read_cases("a.yaml", text.encode()))
    assert {told(point) for point in coverage.reached} == reached


OF_TABLES = """{"version":"law-1","tables":[
  {"name":"t","from":"Int","to":"Int","rows":[["1","10"],["5","50"],["9","90"]],"else":"0"},
  {"name":"d","from":"Day","to":"Boolean","rows":[["2024-01-01","true"]],"else":"false"},
  {"name":"u","from":"Dollar","to":"Text","rows":[["0.01","a"]],"else":"b"}],"facts":[
  {"path":"/n","writable":"Int","limits":[["Min","1"],["Max","8"]],"placeholder":["Int","1"]},
  {"path":"/day","writable":"Day"},
  {"path":"/x","derived":"Int","is":["Lookup","t",["Dependency","/n"]]},
  {"path":"/y","derived":"Int","is":["Lookup","t",["Add",["Dependency","/n"],["Int","1"]]]},
  {"path":"/z","derived":"Boolean","is":["Any",["Lookup","d",["Dependency","/day"]],["Equal",["Dependency","/n"],["Int","1"]]]},
  {"path":"/a","derived":"Text","is":["Lookup","u",["Dollar","0"]]},
  {"path":"/c","writable":"Collection"},
  {"path":"/c/*/m","writable":"Int"},
  {"path":"/c/*/ahead","derived":"Item(/c)","is":["Find","/c",
    ["LessThan",["Int","10"],["Lookup","t",["Subtract",["Dependency","m"],["Dependency","../m"]]]]]},
  {"path":"/large","derived":"Collection(/c)","is":["Filter","/c",["LessThan",["Int","10"],["Lookup","t",["Dependency","m"]]]]},
  {"path":"/huge","derived":"Collection(/c)","is":["Filter","/c",["LessThan",["Int","50"],["Lookup","t",["Add",["Dependency","m"],["Int","1"]]]]]}]}"""

ROWS: tuple[tuple[str, str, str, set[str]], ...] = (
    ("a row that an answer leads to", "given: {/n: 4}", "due: {/x: 10}", {"t #1"}),
    ("a row that a placeholder leads to", "given: {}", "due: {/x: placeholder 10}", {"t #1"}),
    ("no row, where nothing leads to one", "given: {}", "due: {/z: incomplete}", set()),
    ("a row that a sum leads to", "given: {/n: 4}", "due: {/y: 50}", {"t #2"}),
    ("a row by a day, and what stands below the first", "given: {/n: 1, /day: 2023-12-31}", "due: {/z: true}", {"d #0"}),
    ("what stands below the first, by a constant", "given: {}", "due: {/a: b}", {"u #0"}),
    ("a row for each member that is tested", "given: {/c: {p: {m: 0}, q: {m: 1}, r: {m: 9}}}", "due: {/large: [r]}", {"t #0", "t #1", "t #3"}),
    ("a row by a sum for each member", "given: {/c: {p: {m: -1}, q: {m: 8}}}", "due: {/huge: [q]}", {"t #0", "t #3"}),
    ("rows by what lies between two members", "given: {/c: {p: {m: 1}, q: {m: 2}, r: {m: 7}}}", "due: {/c/p/ahead: r}", {"t #0", "t #1", "t #2"}),
    ("nothing for no member", "given: {/c: []}", "due: {/large: []}", set()),
)


@pytest.mark.parametrize("said, due, reached", [row[1:] for row in ROWS], ids=[row[0] for row in ROWS])
def test_rows_that_a_case_reaches(said: str, due: str, reached: set[str]) -> None:
    """Each was worked out by hand."""
    coverage = measure(OF_TABLES.encode(), read_cases("a.yaml", f"cases: [{{title: one, {said}, {due}}}]".encode()))
    assert {told(point) for point in coverage.reached if point.kind == "row"} == reached


def test_rows_that_no_limit_lets_in_are_no_points() -> None:
    """What stands below the first row counts where a key can lead there, and so each row."""
    coverage = measure(OF_TABLES.encode(), [])
    assert {name: [told(point) for point in coverage.points[name]] for name in ("t", "d", "u")} == {
        "t": ["t #0", "t #1", "t #2", "t #3"], "d": ["d #0", "d #1"], "u": ["u #0"],
    }  # fmt: skip


def told(point: Point) -> str:
    """A point in few words: of a row, the table and the number."""
    if point.kind == "row":
        return f"{point.of} #{point.at}"
    return " ".join(str(part) for part in (point.of, point.kind, point.at or None, point.value) if part is not None)


def test_all_points_count() -> None:
    """The percent is of all points of all facts."""
    coverage = measure(RULES.encode(), read_cases("a.yaml", b"cases: [{title: one, given: {/a: 2}, due: {/a: 2}}]"))
    results, placeholders, sides, cases = 9, 2, 8, 4
    assert coverage.counts() == (1, results + placeholders + sides + cases)
    assert coverage.counts("/a") == (1, 2)


def test_a_long_row_of_facts() -> None:
    """Each of which rests on the one before."""
    row = [{"path": f"/a{at}", "derived": "Int", "is": ["Add", ["Dependency", f"/a{at - 1}"], ["Int", "1"]]} for at in range(1, 1900)]
    text = json.dumps({"version": "1", "facts": [{"path": "/a0", "writable": "Int"}, *row]}).encode()
    coverage = measure(text, read_cases("a.csv", b"/a0,due /a1899\n1,1900\n"))
    assert coverage.counts() == (1900, 1900)
    assert [it.check for it in findings(Rulebook(text), ["/a1899"])] == ["overflow"]


def filled(facts: int) -> bytes:
    """Rules of so many facts, of which one has a case that hangs on a condition."""
    stated: list[dict[str, Any]] = [{"path": f"/a{at}", "writable": "Int"} for at in range(facts - 1)]
    test = ["Equal", ["Dependency", "/a0"], ["Int", "1"]]
    stated.append({"path": "/s", "derived": "Int", "is": ["Switch", *[["Case", test, ["Int", "1"]]] * 3]})
    return json.dumps({"version": "1", "facts": stated}).encode()


def test_probes_that_need_several_dictionaries() -> None:
    """Where one dictionary has no room for all probes, several have it."""
    cases = read_cases("a.csv", b"/a0,due /s\n1,1\n2,incomplete\n")
    few, many = measure(filled(10), cases), measure(filled(1999), cases)
    assert len(Probes(Rulebook(filled(1999))).texts()) == 3
    assert few.reached == many.reached
    with pytest.raises(NoRoom):
        measure(filled(2000), cases)
