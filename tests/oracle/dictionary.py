"""Dictionaries that are accepted, as they are written: each expression is the list that the JSON has."""

from __future__ import annotations

import json
import re
from collections.abc import Iterator
from datetime import date
from fractions import Fraction
from typing import Any, NamedTuple

from .values import Value, read

# An expression, as ["Add", ["Int", "1"], ["Dependency", "/a"]].
Expression = list[Any]

PATH = re.compile(r"/([A-Za-z][A-Za-z0-9_-]{0,63})(?:/#([1-9][0-9]{0,6})/([A-Za-z][A-Za-z0-9_-]{0,63}))?")
MOST_MEMBERS_NUMBERED = 1_000_000


class Slot(NamedTuple):
    """A fact that stands once, where the member is 0, or a fact of a member."""

    path: str
    member: int = 0

    def __str__(self) -> str:
        return self.path.replace("*", f"#{self.member}")


class Mention(NamedTuple):
    """A use of a fact in another; whether it is of the same member alone."""

    path: str
    is_same: bool


class Fact(NamedTuple):
    """A fact, with the word of its type and what that is of: the path of a collection, or the name of a list of options."""

    path: str
    kind: str
    of: str
    is_writable: bool
    body: Expression | None
    placeholder: Expression | None
    limits: list[list[str]]

    @property
    def collection(self) -> str | None:
        """The collection whose members have it; None where it stands once."""
        return self.path.partition("/*/")[0] if "*" in self.path else None

    @property
    def is_list(self) -> bool:
        """Whether it is a collection that has members of its own."""
        return self.is_writable and self.kind == "Collection"


class Table(NamedTuple):
    """A table: its rows, each with what its key is ordered by and its value, and the value below them all."""

    rows: list[tuple[Fraction | date, Value]]
    otherwise: Value


class Dictionary:
    """The facts of an accepted dictionary by their paths, in its order, its lists of options, and its tables."""

    def __init__(self, text: str | bytes) -> None:
        stated = json.loads(text)
        self.options: dict[str, list[str]] = {enum["name"]: enum["options"] for enum in stated.get("enums", [])}
        self.tables: dict[str, Table] = {table["name"]: self.table_of(table) for table in stated.get("tables", [])}
        self.facts: dict[str, Fact] = {fact["path"]: fact_of(fact) for fact in stated["facts"]}

    def table_of(self, stated: dict[str, Any]) -> Table:
        """A table of its object."""
        kind, _, of = stated["to"].partition("(")
        options = self.options[of[:-1]] if kind == "Enum" else []
        rows = [(sure(stated["from"], [], key).order, sure(kind, options, value)) for key, value in stated["rows"]]
        return Table(rows, sure(kind, options, stated["else"]))

    def options_of(self, fact: Fact) -> list[str]:
        """The options of an Enum; none of another type."""
        return self.options[fact.of] if fact.kind == "Enum" else []

    def mentions(self, fact: Fact) -> Iterator[Mention]:
        """The facts that a fact's expressions use."""
        for expression in (fact.body, fact.placeholder):
            if expression:
                yield from self.used(expression, fact.collection or "", "")

    def used(self, expression: Expression, collection: str, base: str) -> Iterator[Mention]:
        """The facts that an expression uses, in a fact of the collection, under a condition over the base."""
        name, *operands = expression
        if name in ("Dependency", "IsComplete", "CollectionSize", "CollectionSum", "Count", "Filter", "Find"):
            yield from self.targets(operands[0], collection, base)
        if name in ("Filter", "Find"):
            base = self.facts[operands[0]].of
        for operand in operands:
            if isinstance(operand, list):
                yield from self.used(operand, collection, base)

    def targets(self, path: str, collection: str, base: str) -> Iterator[Mention]:
        """The facts that the path of a use names."""
        if path.startswith("../"):
            first, _, field = path[3:].partition("/")
            item = Mention(f"{collection}/*/{first}", True)
        elif path.startswith("/"):
            first, _, field = path[1:].replace("/*/", "/").partition("/")
            item = Mention(f"/{first}", False)
        else:
            item, field = Mention(f"{base}/*/{path}", False), ""
        yield item
        if field:
            yield Mention(f"{self.facts[item.path].of}/*/{field}", False)

    def is_steady(self, path: str) -> bool:
        """Whether neither the body of a fact, nor that of any that it reaches by bodies, asks whether there is an answer."""
        seen, ahead = set(), [path]
        while ahead:
            fact = self.facts[ahead.pop()]
            if fact.path not in seen and fact.body:
                seen.add(fact.path)
                if any(name == "IsComplete" for name in names_in(fact.body)):
                    return False
                ahead += [mention.path for mention in self.used(fact.body, fact.collection or "", "")]
        return True

    def slot_of(self, text: str) -> Slot | None:
        """The slot that a path spells, whether it stands or not; None where it spells none."""
        found = PATH.fullmatch(text)
        if not found:
            return None
        name, member, field = found.groups()
        if not member:
            return Slot(f"/{name}")
        return Slot(f"/{name}/*/{field}", int(member)) if int(member) <= MOST_MEMBERS_NUMBERED else None


def sure(kind: str, options: list[str], text: str) -> Value:
    """The value that a text of the dictionary spells."""
    value = read(kind, options, text)
    assert value, f"no {kind} {text}"
    return value


def names_in(expression: Expression) -> Iterator[str]:
    """The names of the nodes of an expression, and of the cases of its Switches."""
    yield expression[0]
    for operand in expression[1:]:
        if isinstance(operand, list):
            yield from names_in(operand)


def fact_of(stated: dict[str, Any]) -> Fact:
    """A fact of its object. What is conditional is the Switch that it is read as."""
    path = stated["path"]
    is_writable = "writable" in stated
    kind, _, of = stated["writable" if is_writable else "derived"].partition("(")
    body = stated.get("is")
    if "conditional" in stated:
        test, value = stated["conditional"]
        body = ["Switch", ["Case", test, value], ["Case", ["True"], body]]
    of = path if is_writable and kind == "Collection" else of[:-1]
    return Fact(path, kind, of, is_writable, body, stated.get("placeholder"), stated.get("limits", []))
