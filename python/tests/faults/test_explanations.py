"""What is said of each fault: its line is the engine's, and its place, reason and hint are those of the part that is wrong.

In a case the mark ¦ stands before the part that is wrong.
"""
# pylint: disable=line-too-long # a case is a line

import json
import re
from pathlib import Path

import pytest
import write_faults

from fact_graph import DictionaryRefused, Session
from fact_graph.errors import FAULT_NAMES
from fact_graph.expressions import NODES
from fact_graph.faults import Examined
from fact_graph.faults.texts import tables, text_of_fault, text_of_refusal

TOP = Path(__file__).resolve().parents[3]

MEMBERS = '{"path":"/c","writable":"Collection"},{"path":"/c/*/k","writable":"Boolean"},{"path":"/c/*/v","writable":"Int"}'
ENUMS = '"enums":[{"name":"size","options":["small","large"]}],'

TABLE = '"tables":[{"name":"mostAid","from":"Int","to":"Dollar","rows":[["1","291"],["2","535"]],"else":"0"}],'
OF_OPTIONS = '"tables":[{"name":"sizeOf","from":"Int","to":"Enum(size)","rows":[["1","large"]],"else":"small"}],'
ROWS = "".join(f'["{key}","5"],' for key in range(2, 1001))
MANY_TABLES = f'"tables":[{",".join("¦" * (at == 100) + TABLE[10:-2].replace("mostAid", f"t{at}") for at in range(101))}],'


def of(facts: str, enums: str = "", version: str = "1") -> str:
    """The text of a dictionary with these facts."""
    return f'{{"version":"{version}",{enums}"facts":[\n{facts}]}}'


CASES = [
    # the form of what stands outside the facts
    ("¦[]", "3 Shape fact 0", "a dictionary is an object in braces", '{"version"'),
    ('{"version":¦1,"facts":[]}', "3 Shape fact 0", "there is no version 1", 'write "1"'),
    ('{"version":¦"law-2","facts":[]}', "3 Shape fact 0", 'there is no version "law-2"', '"law-1" for ages, months, rounding and tables'),
    ('{"version":"1","facts":[],¦"fact":[]}', "3 Shape fact 0", "a dictionary has no key `fact`", "`version`, `description`, `enums` and `facts`"),
    ('¦{"version":"1"}', "3 Shape fact 0", "needs the key `facts`", ""),
    (of("", '"enums":[{"name":¦"my size","options":["small"]}],'), "3 Shape fact 0", "is a name, and \"my size\" is none", '"my-size" is one'),
    (of("", '"enums":[{"name":"size","options":["small",¦"very large"]}],'), "3 Shape fact 0", "an option is a name", '"very-large" is one'),
    (of("", '"enums":[{"name":"size","options":["a",¦"a"]}],'), "3 Shape fact 0", 'the option "a" stands twice', ""),
    (of("", '"enums":[{"name":"size","options":¦[]}],'), "3 Shape fact 0", "one option at least", ""),
    (of("", '"enums":[{"name":"s","options":["a"]},{"name":¦"s","options":["a"]}],'), "3 Shape fact 0", "an earlier list of options is named `s`", ""),
    # the form of tables
    (of("", TABLE, "2").replace('"tables"', '¦"tables"'), "3 Shape fact 0", "`tables` is of version law-1", 'write "version":"law-1"'),
    (of("", '"tables":¦"mostAid",', "law-1"), "3 Shape fact 0", "the tables are a list, and this is a text", '"tables":[{"name"'),
    (of("", '"tables":[¦["mostAid"]],', "law-1"), "3 Shape fact 0", "a table is an object in braces, and this is a list", '"else":"0"'),
    (of("", TABLE.replace(',"else":"0"', "").replace('{"name"', '¦{"name"'), "law-1"), "3 Shape fact 0", "a table needs the key `else`", ""),
    (of("", TABLE.replace('"else"', '¦"otherwise":"0","else"'), "law-1"), "3 Shape fact 0", "a table has no key `otherwise`", "a table has `name`, `from`"),
    (of("", TABLE.replace('"mostAid"', '¦"most aid"'), "law-1"), "3 Shape fact 0", 'the name of a table is a name, and "most aid" is none', '"most-aid" is one'),
    (of("", TABLE.replace('"Int"', '¦"Rational"'), "law-1"), "3 Shape fact 0", 'keys of the type `Int`, `Dollar` or `Day`, and not "Rational"', ""),
    (of("", TABLE.replace('"Dollar"', '¦"Item(/people)"'), "law-1"), "3 Shape fact 0", 'no values of the type "Item(/people)"', "`Text` and `Enum(..)`"),
    (of("", ENUMS + TABLE.replace('"Dollar"', '¦"Enum(sizes)"'), "law-1"), "3 Shape fact 0", "no list of options is named `sizes`", "`size` is like it"),
    (of("", TABLE.replace('["2","535"]', '¦["2"]'), "law-1"), "3 Shape fact 0", 'a row is a pair of a key and a value, and this is ["2"]', '["1","291"]'),
    (of("", TABLE.replace('"535"', "¦535"), "law-1"), "3 Shape fact 0", "the value of row no. 2 is a text, and this is the number 535", 'write "535"'),
    (of("", TABLE.replace('"2"', '¦"2.5"'), "law-1"), "3 Shape fact 0", "the key of row no. 2 of the table `mostAid` is no Int: an Int is an optional `-`", ""),
    (of("", TABLE.replace('"535"', '¦"535.5"'), "law-1"), "3 Shape fact 0", "the value of row no. 2 of the table `mostAid` is no Dollar", ""),
    (of("", TABLE.replace('"0"', '¦"none"'), "law-1"), "3 Shape fact 0", "what stands below the first row of the table `mostAid` is no Dollar", ""),
    (of("", TABLE.replace('"2"', '¦"01"'), "law-1"), "3 Shape fact 0", "the key 01 of row no. 2 of the table `mostAid` isn't above the one before it, 1", "each key once"),
    (of("", ENUMS + OF_OPTIONS.replace('"large"', '¦"larg"'), "law-1"), "3 Shape fact 0", 'the value of row no. 1 of the table `sizeOf` is "larg"', "`large` is like it"),
    (of("", TABLE.replace("}]", '},{"name":¦"mostAid","from":"Int","to":"Int","rows":[],"else":"1"}]'), "law-1"), "3 Shape fact 0", "an earlier table is named `mostAid`, too", ""),
    (of("", TABLE.replace('["2","535"]', ROWS + '¦["1001","5"]'), "law-1"), "3 Shape fact 0", "the table `mostAid` has 1,001 rows, and there may be 1,000", ""),
    (of("", MANY_TABLES, "law-1"), "3 Shape fact 0", "101 tables, and there may be 100", ""),
    (of('{"path":"/a","derived":"Dollar","is":["Lookup",¦"mostAd",["Int","1"]]}', TABLE, "law-1"), "3 Shape fact 1", 'there is no table "mostAd"', "`mostAid` is like it"),
    (of('{"path":"/a","derived":"Dollar","is":["Lookup",¦"mostAid",["Int","1"]]}', "", "law-1"), "3 Shape fact 1", 'there is no table "mostAid"', '"tables":[ .. ]'),
    (of('{"path":"/a","derived":"Dollar","is":¦["Lookup","mostAid"]}', TABLE, "law-1"), "3 Shape fact 1", "`Lookup` takes a table and one operand, and has 1", ""),
    (of('{"path":"/a","derived":"Dollar","is":[¦"Lookup","mostAid",["Int","1"]]}', "", "2"), "3 Shape fact 1", "`Lookup` is of version law-1", 'write "version":"law-1"'),
    # the form of a fact
    (of('{"path":"/a","writable":¦"Money"}'), "3 Shape fact 1", 'there is no type "Money"', "`Dollar` is like it"),
    (of('{"path":"/a","writable":"Int",¦"placholder":["Int","1"]}'), "3 Shape fact 1", "a writable fact has no key `placholder`", "`placeholder` is like it"),
    (of('¦{"path":"/a"}'), "3 Shape fact 1", "needs the key `writable`, or `derived` and `is`", ""),
    (of('{"path":"/a","writable":"Int","limits":[["Min",¦0]]}'), "3 Shape fact 1", "the bound of a limit is a text, and this is the number 0", 'write "0"'),
    (of('{"path":"/a","writable":"Int","limits":[[¦"Least","0"]]}'), "3 Shape fact 1", 'there is no limit "Least"', "`Min`, `Max`, `MaxLength` and `Check`"),
    (of('{"path":"/a","derived":"Int","is":["Int","1"],¦"conditional":[["True"],["Int","2"]]}'), "3 Shape fact 1", "of version 2", 'write "version":"2"'),
    (of('{"path":"/a","derived":"Int","is":["Add",[¦"MonthOf",["Day","2024-02-29"]]]}', "", "2"), "3 Shape fact 1", "`MonthOf` is of version law-1", 'write "version":"law-1"'),
    (of('{"path":"/a","derived":"Day","is":[¦"AddMonth",["Day","2024-02-29"],["Int","1"]]}', "", "law-1"), "3 Shape fact 1", "there is no node `AddMonth`", "`AddMonths` is like it"),
    (of('{"path":"/a","derived":"Int","is":¦["AgeOn",["Day","2024-02-29"]]}', "", "law-1"), "3 Shape fact 1", "`AgeOn` takes two operands, and has 1", ""),
    (of('{"path":"/a","derived":"Int","is":[¦"Sum",["Int","1"]]}'), "3 Shape fact 1", "there is no node `Sum`", "`Add` is like it"),
    (of('{"path":"/a","derived":"Boolean","is":¦["Not",["True"],["True"]]}'), "3 Shape fact 1", "`Not` takes one operand, and has 2", "an Any or an All"),
    (of('{"path":"/a","derived":"Int","is":["Add",¦5]}'), "3 Shape fact 1", "and this is the number 5", '["Int","5"]'),
    (of('{"path":"/a","derived":"Int","is":¦"/b"}'), "3 Shape fact 1", "and this is a text", '["Dependency","/b"]'),
    (of('{"path":"/a","derived":"Boolean","is":["Not",¦true]}'), "3 Shape fact 1", "and this is `true`", '["True"]'),
    (of('{"path":"/a","derived":"Int","is":["Switch",¦["True"]]}'), "3 Shape fact 1", "in a Switch stand cases", '["Case"'),
    (of('{"path":"/a","derived":"Int","is":["Int",¦7]}'), "3 Shape fact 1", "the text of a constant is a text", 'write "7"'),
    # how much there is
    (of('{"path":"/t","writable":"Text","limits":[' + '["Check","digits"],' * 8 + '¦["Check","digits"]]}'), "4 TooMany what 6", "9 limits of one fact, and there may be 8", ""),
    (of('{"path":"/a","derived":"Boolean","is":' + '["Not",' * 48 + '¦["True"]' + "]" * 48 + "}"), "5 TooDeep fact 1", "more than 48 deep", ""),
    # paths
    (of('{"path":¦"/2nd","writable":"Int"}'), "6 BadPath fact 1", "`/2nd` is no path of a fact", ""),
    (of('{"path":"/a","derived":"Int","is":["Dependency",¦"/a//b"]}'), "6 BadPath fact 1", "`/a//b` is no path", ""),
    (of('{"path":"/a","derived":¦"Item(c)","is":["True"]}'), "6 BadPath fact 1", "`c` is no path of a collection", ""),
    (of('{"path":"/a","writable":"Int"},{"path":¦"/a","writable":"Day"}'), "7 DuplicatePath fact 2", "fact 1 has the path `/a`, too", ""),
    (of('{"path":"/people","writable":"Collection"},{"path":¦"/peple/*/a","writable":"Int"}'), "8 NoCollection fact 2", "there is no `/peple`", "`/people` is a collection like it"),
    (of('{"path":"/c","writable":"Int"},{"path":¦"/c/*/a","writable":"Int"}'), "8 NoCollection fact 2", "`/c` is no writable collection", '"writable":"Collection"'),
    (of('{"path":"/n","writable":"Int"},{"path":"/a","derived":"Int","is":["CollectionSize",¦"/n"]}'), "8 NoCollection fact 2", "`/n` is an Int", ""),
    (of(f'{MEMBERS},{{"path":"/a","derived":"Int","is":["Dependency",¦"/c/v"]}}'), "8 NoCollection fact 4", "read of the member that `/c` names", "`/c/*/v`"),
    (of('{"path":"/wages","writable":"Int"},{"path":"/s","derived":"Int","is":["Dependency",¦"/wagse"]}'), "9 UnknownPath fact 2", "there is no fact `/wagse`", "`/wages` is like it"),
    (of(f'{MEMBERS},{{"path":"/c/*/s","derived":"Int","is":["Dependency",¦"../vv"]}}'), "9 UnknownPath fact 4", "`/c/*/vv`, which `../vv` names here", "`../v` is like it"),
    (of('{"path":"/a","derived":"Int","is":["Dependency",¦"../b"]}'), "10 WrongPlace fact 1", "this fact is of no collection's members", "write `/b`"),
    (of('{"path":"/a","derived":"Int","is":["Dependency",¦"b"]}'), "10 WrongPlace fact 1", "this stands in neither", "write `/b`"),
    (of(f'{MEMBERS},{{"path":"/a","derived":"Int","is":["Dependency",¦"/c/*/v"]}}'), "10 WrongPlace fact 4", "are many results", "a CollectionSum or a Count"),
    (of(f'{MEMBERS},{{"path":"/a","derived":"Int","is":["CollectionSum",¦"/c"]}}'), "10 WrongPlace fact 4", "CollectionSum takes a fact of all members", ""),
    (of(f'{MEMBERS},{{"path":"/a","derived":"Collection(/c)","is":["Filter","/c",["Equal",¦["Count","/c/*/k"],["Int","1"]]]}}'), "10 WrongPlace fact 4", "a Count doesn't stand in the condition", "a fact of its own"),
    (of('{"path":"/c","writable":"Collection"},{"path":"/c/*/d","writable":¦"Collection"}'), "10 WrongPlace fact 2", "no collection of their own", ""),
    (of('{"path":"/t","writable":"Text","limits":[["Check",¦"digit"]]}'), "11 UnknownCheck fact 1", "there is no check `digit`", "`digits` is like it"),
    # types
    (of('{"path":"/a","writable":¦"Enum(siz)"}', ENUMS), "12 IllTyped fact 1 node 0", "no list of options is named `siz`", "`size` is like it"),
    (of('{"path":"/a","derived":"Int","is":¦["Add",["Int","1"],["Dollar","1"]]}'), "12 IllTyped fact 1 node 1", "operand 1 is an Int, operand 2 a Dollar", "make the Int an amount"),
    (of('{"path":"/a","derived":"Int","is":["Add",["Int","1"],["Int",¦"1.0"]]}'), "12 IllTyped fact 1 node 3", "`1.0` is no Int", ""),
    (of('{"path":"/a","derived":"Day","is":["Day",¦"2023-02-29"]}'), "12 IllTyped fact 1 node 1", "there is no day 2023-02-29", ""),
    (of('{"path":"/a","derived":"Enum(size)","is":["Enum","size",¦"smal"]}', ENUMS), "12 IllTyped fact 1 node 1", "has no option `smal`", "`small` is like it"),
    (of('{"path":"/a","derived":"Enum(size)","is":["Enum",¦"sizes","small"]}', ENUMS), "12 IllTyped fact 1 node 1", "no list of options is named `sizes`", "`size` is like it"),
    (of('{"path":"/a","derived":"Int","is":¦["Dollar","1"]}'), "12 IllTyped fact 1 node 1", "the fact says that it is an Int, and its expression is a Dollar", 'write "derived":"Dollar"'),
    (of('{"path":"/a","writable":"Int","placeholder":¦["Dollar","1"]}'), "12 IllTyped fact 1 node 1", "the placeholder is a Dollar", ""),
    (of('{"path":"/a","derived":"Int","is":["Int","1"],"conditional":[¦["Int","1"],["Int","2"]]}', "", "2"), "12 IllTyped fact 1 node 2", "the test of a conditional is a Boolean", ""),
    (of('{"path":"/a","derived":"Int","is":["Switch",["Case",["True"],["Int","1"]],["Case",["True"],¦["Dollar","1"]]]}'), "12 IllTyped fact 1 node 1", "the value of case 2 is a Dollar, and that of case 1 is an Int", ""),
    (of(f'{MEMBERS},{{"path":"/a","derived":"Int","is":¦["Count","/c/*/v"]}}'), "12 IllTyped fact 4 node 1", "Count takes a fact that is a Boolean, and `/c/*/v` is an Int", ""),
    (of(f'{MEMBERS},{{"path":"/a","derived":"Item(/c)","is":¦["Find","/c",["Dependency","v"]]}}'), "12 IllTyped fact 4 node 1", "the condition of a Find is a Boolean, and this is an Int", ""),
    (of('{"path":"/a","derived":"Int","is":¦["AgeOn",["Day","2000-02-29"],["Int","18"]]}', "", "law-1"), "12 IllTyped fact 1 node 1", "AgeOn takes two Days, and operand 1 is a Day, operand 2 an Int", ""),
    (of('{"path":"/a","derived":"Dollar","is":¦["RoundUp",["Dollar","1.50"],["Int","1"]]}', "", "law-1"), "12 IllTyped fact 1 node 1", "a Dollar to whose multiple it is rounded", "make the Int an amount"),
    (of('{"path":"/a","derived":"Dollar","is":¦["Lookup","mostAid",["Dollar","1"]]}', TABLE, "law-1"), "12 IllTyped fact 1 node 1", "the table `mostAid` goes by an Int, and this is a Dollar", ""),
    (of('{"path":"/a","derived":"Int","is":¦["Lookup","mostAid",["Int","1"]]}', TABLE, "law-1"), "12 IllTyped fact 1 node 1", "the fact says that it is an Int, and its expression is a Dollar", ""),
    # limits
    (of('{"path":"/a","writable":"Text","limits":[¦["Min","1"]]}'), "13 BadLimit fact 1", "the fact is Text", ""),
    (of('{"path":"/a","writable":"Int","limits":[["Max",¦"1.5"]]}'), "13 BadLimit fact 1", "`1.5` is no Int", ""),
    (of('{"path":"/a","writable":"Text","limits":[["MaxLength",¦"1001"]]}'), "13 BadLimit fact 1", "from 0 to 1000", ""),
    (of('{"path":"/a","writable":"Int","limits":[["Min","1"],¦["Min","2"]]}'), "13 BadLimit fact 1", "Min stands twice", ""),
    # cycles
    (of('{"path":"/a","derived":"Int","is":["Dependency",¦"/a"]}'), "14 Cycle fact 1", "`/a` rests on itself", ""),
    (of('{"path":"/a","derived":"Int","is":["Dependency",¦"/b"]},{"path":"/b","derived":"Int","is":["Dependency","/a"]}'), "14 Cycle fact 1", "`/a`, `/b`, `/a`", ""),
    # no JSON
    (of("{¦}").replace("¦}", '"path":"/a"¦,}'), "2 NotJson", "a comma too many", ""),
]


@pytest.mark.parametrize(("marked", "line", "reason", "hint"), CASES)
def test_a_fault_is_explained(marked: str, line: str, reason: str, hint: str) -> None:
    at, text = marked.index("¦"), marked.replace("¦", "")
    with pytest.raises(DictionaryRefused) as raised:
        Session(text)
    assert str(raised.value) == f"dictionary refused {line}"
    examined = Examined(text.encode())
    finding = examined.finding_of(raised.value)
    assert finding is not None and finding is examined.findings[0]
    before = text[:at].split("\n")
    assert examined.place(finding) == (len(before), len(before[-1]) + 1)
    assert reason in finding.reason
    assert hint in finding.hint


def test_all_faults_are_found_behind_the_first() -> None:
    text = of('{"path":"/a","writable":"Money"},{"path":"/b","derived":"Int","is":["Add",["Dependency","/a"],["Dependency","/c"]]},{"path":"/t","writable":"Int","limits":[["Min","x"]]}')
    assert [it.line for it in Examined(text.encode()).findings] == ["3 Shape fact 1", "9 UnknownPath fact 2", "13 BadLimit fact 3"]


def test_an_option_of_a_list_without_any_is_found_behind_it() -> None:
    text = of('{"path":"/a","derived":"Enum(size)","is":["Enum","size","small"]}', '"enums":[{"name":"size","options":[]}],')
    assert ("the list `size` has no option `small`", "it has none") in [(it.reason, it.hint) for it in Examined(text.encode()).findings]


def test_a_value_of_a_list_without_options_is_found_behind_it() -> None:
    text = of("", '"enums":[{"name":"size","options":[]}],' + OF_OPTIONS, "law-1")
    assert [it.hint for it in Examined(text.encode()).findings] == ["", "it has none", "it has none"]


def test_a_dictionary_without_a_fault_has_no_finding() -> None:
    for path in sorted([*(TOP / "examples").glob("*.json"), *(TOP / "tests" / "dictionaries").glob("*.json")]):
        examined = Examined(path.read_bytes())
        assert examined.findings == []
        with Session(path.read_bytes()) as session:
            assert examined.facts == len(session.dictionary.facts)


def test_the_nodes_are_those_of_the_schema() -> None:
    schema = json.loads((TOP / "docs" / "dictionary.schema.json").read_text())
    expression = schema["$defs"]["expression"]
    assert set(expression["prefixItems"][0]["enum"]) == set(NODES)
    kinds = {"#/$defs/expression": "operand", "#/$defs/case": "case"}
    seen = set()
    for entry in expression["allOf"]:
        then = entry["then"]
        parts = tuple(kinds[it["$ref"]] if "$ref" in it else "text" for it in then["prefixItems"][1:])
        for name in entry["if"]["prefixItems"][0]["enum"]:
            form = NODES[name]
            assert tuple("text" if it in ("path", "table") else it for it in form.parts) == parts
            assert form.more == (then["items"] is not False)
            assert then["minItems"] == len(parts) + 1
            seen.add(name)
    assert seen == set(NODES)


def test_each_example_of_the_page_has_its_fault() -> None:
    for row in tables()["dictionary"]:
        for example in re.findall(r"^`(\{.*\})`$", row["example"]):
            text = example if example.startswith('{"version"') else of(example)
            with pytest.raises(DictionaryRefused) as raised:
                Session(text)
            due = re.sub(r"\b[FMW]\b", r"\\d+", row["line"])
            assert re.fullmatch(f"dictionary refused {due}", str(raised.value))
            assert text_of_fault(raised.value).says == row["says"]


def test_each_fault_and_refusal_has_its_text() -> None:
    assert [name for name in FAULT_NAMES if not any(f" {name}" in row["line"] for row in tables()["dictionary"])] == []
    for row in tables()["command"]:
        assert text_of_refusal(row["number"]).says == row["says"]


def test_the_page_has_these_texts() -> None:
    assert write_faults.main(["--check"]) == 0
