"""Faults of the form: what has none, what there is too much of, and what stands too deep."""

from __future__ import annotations

import re
from collections.abc import Iterator
from typing import Any, NamedTuple

from ..expressions import LAW, NODES, OF_LAW, VERSIONS, FactTree, Node
from ..located import Pointer
from .finding import Finding, listed, nearest, shown
from .parts import NAME, NAME_RULE, expect_keys, expect_name, expect_text, kind_of, misform
from .tables import SCALARS, misformed_tables, table_types

STATED = re.compile(r"(Enum|Collection|Item)\((.*)\)", re.DOTALL)

TOP_KEYS = ("version", "description", "enums", "tables", "facts")
WRITABLE_KEYS = ("path", "writable", "limits", "placeholder", "description")
DERIVED_KEYS = ("path", "derived", "is", "conditional", "placeholder", "description")
FACT_KEYS = tuple(dict.fromkeys(WRITABLE_KEYS + DERIVED_KEYS))
LIMITS = ("Min", "Max", "MaxLength", "Check")

OTHER_NAMES = {
    "and": "All", "or": "Any", "if": "Switch", "when": "Switch", "plus": "Add", "sum": "Add", "minus": "Subtract", "times": "Multiply",
    "max": "GreaterOf", "maximum": "GreaterOf", "min": "LesserOf", "minimum": "LesserOf", "ref": "Dependency", "year": "YearOf",
    "month": "MonthOf", "age": "AgeOn", "ceil": "RoundUp", "ceiling": "RoundUp", "floor": "RoundDown",
    "size": "CollectionSize", "greater": "GreaterThan", "less": "LessThan", "boolean": "True", "money": "Dollar", "amount": "Dollar",
    "currency": "Dollar", "integer": "Int", "number": "Int", "decimal": "Rational", "float": "Rational", "fraction": "Rational",
    "table": "Lookup", "row": "Lookup", "date": "Day", "string": "Text", "bool": "Boolean", "choice": "Enum", "option": "Enum", "list": "Collection",
}  # fmt: skip
"""Words that makers write for a node or a type, and what stands for them here."""

MOST = {
    1: (2_000, "facts"),
    2: (40_000, "nodes"),
    3: (32, "writable collections"),
    4: (200, "lists of options"),
    5: (100, "options in one list"),
    6: (8, "limits of one fact"),
}
"""By the number that a fault TooMany tells: how many there may be, and of what."""
MOST_DEPTH = 48


class Known(NamedTuple):
    """What of a dictionary its expressions go by: its version, and the names of its tables."""

    version: str
    tables: tuple[str, ...]


def misforms(value: Any) -> Iterator[Finding]:
    """What of a dictionary has no form: first what stands outside the facts, then each fact."""
    if not isinstance(value, dict):
        yield misform((), f"a dictionary is an object in braces, and this is {kind_of(value)}", '{"version":"1","facts":[ .. ]}')._replace(fact=0)
        return
    yield from (it._replace(fact=0) for it in _top(value))
    facts, version = value.get("facts"), value.get("version")
    known = Known(version if isinstance(version, str) else "", tuple(table_types(value)))
    for at, fact in enumerate(facts if isinstance(facts, list) else []):
        yield from (it._replace(fact=at + 1) for it in _fact(fact, ("facts", at), known))


# ---- outside the facts


def _top(value: dict[str, Any]) -> Iterator[Finding]:
    keys = tuple(it for it in TOP_KEYS if it != "tables" or value.get("version") == LAW)
    yield from expect_keys({key: part for key, part in value.items() if key != "tables"}, (), keys, ("version", "facts"), "a dictionary")
    if value.get("version", "1") not in VERSIONS:
        hint = f'write "1", "2" for `conditional`, or "{LAW}" for ages, months, rounding and tables'
        yield misform(("version",), f"there is no version {shown(value['version'])}", hint)
    yield from expect_text(value.get("description", ""), ("description",), "a description")
    if not isinstance(value.get("facts", []), list):
        yield misform(("facts",), f"the facts are a list, and this is {kind_of(value['facts'])}")
    yield from _enums(value.get("enums", []))
    yield from misformed_tables(value)


def _enums(enums: Any) -> Iterator[Finding]:
    if not isinstance(enums, list):
        yield misform(("enums",), f"the lists of options are a list, and this is {kind_of(enums)}", '"enums":[{"name":"size","options":["small","large"]}]')
        return
    named: dict[str, int] = {}
    for at, enum in enumerate(enums):
        yield from _enum(enum, ("enums", at))
        name = enum.get("name") if isinstance(enum, dict) else None
        if isinstance(name, str) and named.setdefault(name, at) != at:
            yield misform(("enums", at, "name"), f"an earlier list of options is named `{name}`, too", related=(("enums", named[name], "name"),))


def _enum(enum: Any, pointer: Pointer) -> Iterator[Finding]:
    if not isinstance(enum, dict):
        yield misform(pointer, f"a list of options is an object in braces, and this is {kind_of(enum)}", '{"name":"size","options":["small","large"]}')
        return
    yield from expect_keys(enum, pointer, ("name", "options"), ("name", "options"), "a list of options")
    if "name" in enum:
        yield from expect_name(enum["name"], (*pointer, "name"), "the name of a list of options")
    options = enum.get("options", [""])
    if not isinstance(options, list):
        yield misform((*pointer, "options"), f"the options are a list of texts, and this is {kind_of(options)}")
        return
    if not options:
        yield misform((*pointer, "options"), "a list of options has one option at least")
    for at, option in enumerate(options if "options" in enum else []):
        yield from expect_name(option, (*pointer, "options", at), "an option")
        if option in options[:at]:
            yield misform((*pointer, "options", at), f"the option {shown(option)} stands twice", related=((*pointer, "options", options.index(option)),))


# ---- a fact


def _fact(fact: Any, pointer: Pointer, known: Known) -> Iterator[Finding]:
    if not isinstance(fact, dict):
        yield misform(pointer, f"a fact is an object in braces, and this is {kind_of(fact)}", '{"path":"/rent","writable":"Dollar"}')
        return
    is_writable = "writable" in fact and ("derived" not in fact or "is" not in fact)
    yield from _keys_of_fact(fact, pointer, is_writable, known)
    for key, what in (("path", "a path"), ("description", "a description")):
        yield from expect_text(fact.get(key, ""), (*pointer, key), what)
    for key in ("writable", "derived"):
        if key in fact and (key == "writable") == is_writable:
            yield from _type(fact[key], (*pointer, key), is_writable)
    if is_writable:
        yield from _limits(fact.get("limits", []), (*pointer, "limits"))
    elif "is" in fact:
        yield from _expression(fact["is"], (*pointer, "is"), known)
    if "conditional" in fact and not is_writable:
        yield from _conditional(fact["conditional"], (*pointer, "conditional"), known)
    if "placeholder" in fact:
        yield from _expression(fact["placeholder"], (*pointer, "placeholder"), known)


def _keys_of_fact(fact: dict[str, Any], pointer: Pointer, is_writable: bool, known: Known) -> Iterator[Finding]:
    if "writable" not in fact and "derived" not in fact:
        like = nearest("writable", fact) or nearest("derived", fact)
        if not like:
            yield misform(pointer, "a fact needs the key `writable`, or `derived` and `is`")
    keys = WRITABLE_KEYS if is_writable else DERIVED_KEYS
    whose = "a writable fact" if is_writable else "a derived fact"
    needed = ("path", "writable") if is_writable else ("path", "derived", "is") if "derived" in fact else ("path",)
    if "writable" in fact and not is_writable:
        yield misform((*pointer, "writable"), "a fact is writable or derived, and not both", "drop `writable`, or `derived` and `is`", is_key=True)
        fact = {key: value for key, value in fact.items() if key != "writable"}
    if "derived" not in fact and "writable" not in fact:
        keys, whose = FACT_KEYS, "a fact"
    yield from expect_keys(fact, pointer, keys, needed, whose)
    if "conditional" in fact and not is_writable and known.version not in VERSIONS[1:]:
        yield misform((*pointer, "conditional"), "`conditional` is of version 2", 'write "version":"2"', is_key=True, related=(("version",),))


def _type(value: Any, pointer: Pointer, is_writable: bool) -> Iterator[Finding]:
    yield from expect_text(value, pointer, "a type")
    if not isinstance(value, str) or value in SCALARS or (is_writable and value == "Collection"):
        return
    stated = STATED.fullmatch(value)
    if stated and stated[1] == "Enum":
        if not NAME.fullmatch(stated[2]):
            yield misform(pointer, f"`{stated[2]}` is no name of a list of options: {NAME_RULE}")
    elif stated and is_writable:
        hint = "write `Collection`, or derive the fact" if stated[1] == "Collection" else "derive the fact by a Find"
        yield misform(pointer, f"a writable fact is no {shown(value)}", hint)
    elif not stated:
        yield misform(pointer, f"there is no type {shown(value)}{'' if is_writable else ' of a derived fact'}", _type_like(value, is_writable))


def _type_like(value: str, is_writable: bool) -> str:
    more = ("Enum(..)", "Collection") if is_writable else ("Enum(..)", "Collection(/..)", "Item(/..)")
    like = OTHER_NAMES.get(value.lower()) or nearest(value.partition("(")[0], (*SCALARS, *(it.partition("(")[0] for it in more)))
    whole = {it.partition("(")[0]: it for it in more}.get(like or "", like)
    return f"`{whole}` is like it" if whole in (*SCALARS, *more) else f"types are {listed((*SCALARS, *more), 'and')}"


def _limits(limits: Any, pointer: Pointer) -> Iterator[Finding]:
    if not isinstance(limits, list):
        yield misform(pointer, f"limits are a list of pairs, and this is {kind_of(limits)}", '[["Min","0"]]')
        return
    for at, limit in enumerate(limits):
        here = (*pointer, at)
        if not isinstance(limit, list) or len(limit) != 2:
            yield misform(here, f"a limit is a pair of a name and a text, and this is {shown(limit)}", '["Min","0"]')
            continue
        if limit[0] not in LIMITS:
            yield misform((*here, 0), f"there is no limit {shown(limit[0])}", f"there are {listed(LIMITS, 'and')}")
        yield from expect_text(limit[1], (*here, 1), "the bound of a limit")


def _conditional(value: Any, pointer: Pointer, known: Known) -> Iterator[Finding]:
    if not isinstance(value, list) or len(value) != 2:
        yield misform(pointer, f"a conditional is a list of a test and a value, and this is {shown(value)}", '[["Dependency","/isExempt"],["Dollar","0"]]')
        return
    for at, part in enumerate(value):
        yield from _expression(part, (*pointer, at), known)


# ---- an expression


def _expression(value: Any, pointer: Pointer, known: Known) -> Iterator[Finding]:
    if not isinstance(value, list):
        yield misform(pointer, f"an expression is a list that begins with the name of a node, and this is {kind_of(value)}", _as_node(value))
        return
    name = value[0] if value else None
    if not isinstance(name, str):
        yield misform(pointer, f"an expression begins with the name of a node, and this with {shown(name) if value else 'nothing'}")
        return
    if name not in NODES:
        yield misform((*pointer, 0), f"there is no node `{name}`", _node_like(name))
        return
    if name in OF_LAW and known.version != LAW:
        yield misform((*pointer, 0), f"`{name}` is of version {LAW}", f'write "version":"{LAW}"', related=(("version",),))
    form = NODES[name]
    parts = value[1:]
    if len(parts) < len(form.parts) or (len(parts) > len(form.parts) and not form.more):
        yield misform(pointer, f"`{name}` takes {form}, and has {len(parts) or 'none'}", _instead(name, len(parts)))
    for at, part in enumerate(parts):
        what = form.part(at)
        here = (*pointer, at + 1)
        if what == "table":
            yield from _table(part, here, known)
        elif what in ("path", "text"):
            called = "the name of a list or an option" if name == "Enum" else "the text of a constant"
            yield from expect_text(part, here, "a path" if what == "path" else called)
        elif what == "case":
            yield from _case(part, here, known)
        elif what == "operand":
            yield from _expression(part, here, known)


def _table(name: Any, pointer: Pointer, known: Known) -> Iterator[Finding]:
    """Expects the name of a table."""
    yield from expect_text(name, pointer, "the name of a table")
    if isinstance(name, str) and name not in known.tables and known.version == LAW:
        like = nearest(name, known.tables)
        there_are = f"there are {listed(known.tables, 'and')}" if known.tables else 'declare it beside the lists of options: "tables":[ .. ]'
        yield misform(pointer, f"there is no table {shown(name)}", f"`{like}` is like it" if like else there_are)


def _as_node(value: Any) -> str:
    """How a maker may have meant a value that is no node."""
    if isinstance(value, bool):
        return f'write ["{value}"]'
    if isinstance(value, int):
        return f'write ["Int","{value}"], or ["Dollar","{value}"]'
    if isinstance(value, str):
        return f'write ["Dependency","{value}"]' if "/" in value else f'write ["Text",{shown(value)}]'
    return ""


def _node_like(name: str) -> str:
    like = OTHER_NAMES.get(name.lower()) or nearest(name, NODES)
    if name == "Case":
        return "a Case stands in a Switch"
    return f"`{like}` is like it" if like in NODES else ""


def _instead(name: str, count: int) -> str:
    if name in ("Multiply",) and count > 2:
        return "multiply two, and the product by the third"
    if name == "Not" and count > 1:
        return "put the operands into an Any or an All"
    return ""


def _case(value: Any, pointer: Pointer, known: Known) -> Iterator[Finding]:
    if not isinstance(value, list) or len(value) != 3 or value[0] != "Case":
        yield misform(pointer, f"in a Switch stand cases of a test and a value, and this is {shown(value)}", '["Case",["True"],["Int","1"]]')
        return
    for side in (1, 2):
        yield from _expression(value[side], (*pointer, side), known)


# ---- how much there is


def excesses(value: dict[str, Any], trees: list[FactTree]) -> Iterator[Finding]:
    """What there is too much of, and the facts with a node that stands too deep. The trees are those of the facts that have a form."""
    enums = value.get("enums", [])
    yield from _excess(1, [tree.pointer for tree in trees])
    yield from _excess(2, [node.pointer for tree in trees for node in tree.nodes()])
    yield from _excess(3, [tree.pointer for tree in trees if tree.is_writable and tree.stated == "Collection"])
    yield from _excess(4, [("enums", at) for at in range(len(enums))])
    for at, enum in enumerate(enums):
        yield from _excess(5, [("enums", at, "options", option) for option in range(len(enum["options"]))])
    for tree in trees:
        yield from _excess(6, [(*tree.pointer, "limits", at) for at in range(len(tree.limits))])
    for tree in trees:
        deep = next((node for root in tree.roots for node in _below(root, MOST_DEPTH)), None)
        if deep:
            yield Finding("TooDeep", deep.pointer, f"this node stands more than {MOST_DEPTH} deep", fact=tree.number)


def _excess(what: int, pointers: list[Pointer]) -> Iterator[Finding]:
    most, of_what = MOST[what]
    if len(pointers) > most:
        yield Finding("TooMany", pointers[most], f"{len(pointers):,} {of_what}, and there may be {most:,}: here is the first too many", what=what)


def _below(node: Node, levels: int) -> Iterator[Node]:
    """The nodes right below so many levels of nodes."""
    if levels == 0:
        yield node
        return
    for operand in node.operands:
        yield from _below(operand, levels - 1)
