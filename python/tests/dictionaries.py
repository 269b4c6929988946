"""Random dictionaries that are accepted, of all types and nodes, and texts of values for their slots.

A fact's expressions use facts that were made before it, so no fact rests on itself; in the end the facts are put in any order.
"""

from __future__ import annotations

import json
from collections.abc import Callable, Iterator
from typing import Any, NamedTuple

from hypothesis import strategies as st

from fact_graph.expressions import LAW, OF_LAW

Expression = list[Any]

OPTIONS = {"color": ["red", "green", "blue"], "size": ["small", "large"]}
COLLECTIONS = ("/c", "/d")
ORDERED = ("Int", "Dollar", "Rational", "Day")
PLAIN = ("Boolean", *ORDERED, "Text", "Enum(color)", "Enum(size)")
DEEPEST = 3

# By a type, texts of its values, with those at the ends of its range.
VALUES = {
    "Boolean": ("true", "false"),
    "Int": ("0", "1", "-1", "2", "12", "007", "-0", "999999999999999", "-999999999999999"),
    "Dollar": ("0", "1.00", "-1.00", "0.01", "2.5", "0.33", "12.34", "9999999999999.99", "-9999999999999.99"),
    "Rational": ("0", "1/2", "-2/3", "4/6", "3", "1000000000000/7", "1/1000000000000", "0/5", "1/0"),
    "Day": ("2024-02-29", "2025-01-01", "1800-01-01", "2199-12-31", "2023-02-29", "2024-1-01"),
    "Text": ("", "a", "a b", " a", "ü", "123", "123456789", "a" * 1001),
    "Enum(color)": ("red", "green", "blue"),
    "Enum(size)": ("small", "large"),
}
# Those that may stand in a dictionary, where a text has to be a value.
CONSTANTS = {
    kind: [text for text in texts if text not in ("1/0", "2023-02-29", "2024-1-01", "2.5", "a" * 1001)] for kind, texts in VALUES.items()
}
LIMITS = {
    **{kind: [["Min", CONSTANTS[kind][1]], ["Max", CONSTANTS[kind][4 % len(CONSTANTS[kind])]]] for kind in ORDERED},
    "Text": [["MaxLength", "3"], ["Check", "digits"], ["Check", "nine-digits"], ["Check", "printable-ascii"], ["Check", "trimmed"]],
}
# By the type that is wanted, pairs of the types of two operands.
PRODUCTS = {
    "Int": [("Int", "Int")],
    "Dollar": [("Dollar", "Int"), ("Int", "Dollar"), ("Dollar", "Rational"), ("Rational", "Dollar")],
    "Rational": [("Rational", "Rational"), ("Int", "Rational"), ("Rational", "Int")],
}
QUOTIENTS = {
    "Dollar": [("Dollar", "Int"), ("Dollar", "Rational")],
    "Rational": [("Int", "Int"), ("Rational", "Rational"), ("Dollar", "Dollar")],
}
TO_MULTIPLES = ("RoundUp", "RoundDown", "RoundNearest")
MULTIPLES = [("Dollar", "Dollar"), ("Rational", "Dollar")]
PARTS = ("YearOf", "MonthOf", "DayOf")
BETWEEN = ("DaysBetween", "AgeOn")
DAYS = [("Day", "Day")]
LATER = ("AddDays", "AddMonths", "AddYears")
# By a type by which a table goes, keys that rise.
KEYS = {
    "Int": ("-999999999999999", "-1", "-0", "1", "2", "012", "999999999999999"),
    "Dollar": ("-9999999999999.99", "-1.00", "0", "0.01", "1", "12.34", "9999999999999.99"),
    "Day": ("1800-01-01", "2024-02-29", "2024-03-01", "2025-01-01", "2199-12-31"),
}


class Made(NamedTuple):
    """A fact that was made: its path, and its type, which of a writable collection is said as that of a derived one."""

    path: str
    type: str

    @property
    def owner(self) -> str:
        """The collection whose members have it, or an empty text."""
        front, star, _ = self.path.partition("/*/")
        return front if star else ""

    @property
    def name(self) -> str:
        """The last name of its path."""
        return self.path.rpartition("/")[2]

    def base(self, word: str) -> str:
        """The collection that its type, of this word, is of; an empty text where it is of another word."""
        return self.type.removeprefix(word)[1:-1] if self.type.startswith(f"{word}(") else ""


class Tabled(NamedTuple):
    """A table that was made: its name, the type of its keys, and that of its values."""

    name: str
    keys: str
    values: str


class Scope(NamedTuple):
    """What an expression may use: the facts made before, its own fact's collection, and that whose members are tested."""

    made: list[Made]
    owner: str
    tested: str = ""

    def uses(self) -> Iterator[Made]:
        """The paths of uses, each with the type that it gives."""
        for fact in self.made:
            if not fact.owner:
                yield Made(f"/{fact.name}", fact.type)
                yield from self.through(f"/{fact.name}", fact)
            if fact.owner and fact.owner == self.owner:
                yield Made(f"../{fact.name}", fact.type)
                yield from self.through(f"../{fact.name}", fact)
            if fact.owner and fact.owner == self.tested:
                yield Made(fact.name, fact.type)

    def through(self, path: str, item: Made) -> Iterator[Made]:
        """The paths by way of an Item."""
        for fact in self.made:
            if fact.owner and fact.owner == item.base("Item"):
                yield Made(f"{path}/{fact.name}", fact.type)

    def lists(self) -> Iterator[tuple[str, str]]:
        """The collections and the choices of their members, by path and base."""
        for fact in self.made:
            if not fact.owner and fact.base("Collection"):
                yield fact.path, fact.base("Collection")

    def fields(self, *types: str) -> list[str]:
        """The paths of all members' facts of one of these types."""
        return [f"{path}/*/{fact.name}" for path, base in self.lists() for fact in self.made if fact.owner == base and fact.type in types]


class Maker:
    """Makes expressions, with choices that are drawn."""

    def __init__(self, draw: Callable[..., Any]) -> None:
        self.draw = draw
        self.tables: list[Tabled] = []

    def one_of(self, them: Any) -> Any:
        """Any of these."""
        return self.draw(st.sampled_from(list(them)))

    def table(self, number: int) -> dict[str, Any]:
        """A table of a few rows, which expressions may use from then on."""
        made = Tabled(f"t{number}", self.one_of(KEYS), self.one_of(PLAIN))
        keys = self.draw(st.lists(st.sampled_from(KEYS[made.keys]), unique=True, max_size=len(KEYS[made.keys])))
        rows = [[key, self.one_of(CONSTANTS[made.values])] for key in sorted(keys, key=KEYS[made.keys].index)]
        self.tables.append(made)
        return {"name": made.name, "from": made.keys, "to": made.values, "rows": rows, "else": self.one_of(CONSTANTS[made.values])}

    def expression(self, wanted: str, scope: Scope, depth: int = 0) -> Expression | None:
        """An expression of a type; None where there is none in the scope."""
        makers = [*self.leaves(wanted, scope), *([] if depth == DEEPEST else self.nodes(wanted, scope, depth + 1))]
        while makers:
            maker = self.one_of(makers)
            made: Expression | None = maker()
            if made:
                return made
            makers.remove(maker)
        return None

    def sure(self, wanted: str, scope: Scope, depth: int) -> Expression:
        """An expression of a type that has constants."""
        made = self.expression(wanted, scope, depth)
        assert made
        return made

    def leaves(self, wanted: str, scope: Scope) -> list[Callable[[], Expression | None]]:
        """What makes an expression without operands."""
        uses = list(scope.uses())
        paths = [use.path for use in uses if use.type == wanted]
        makers: list[Callable[[], Expression | None]] = []
        if wanted in CONSTANTS:
            makers.append(lambda: self.constant(wanted))
        if paths:
            makers += [lambda: ["Dependency", self.one_of(paths)]] * 6
        if wanted == "Boolean" and uses:
            makers.append(lambda: ["IsComplete", self.one_of(uses).path])
        if wanted == "Int" and list(scope.lists()):
            makers.append(lambda: ["CollectionSize", self.one_of(scope.lists())[0]])
        if not scope.tested:
            makers += self.over_members(wanted, scope)
        return makers

    def over_members(self, wanted: str, scope: Scope) -> list[Callable[[], Expression | None]]:
        """What sums and counts over members."""
        makers: list[Callable[[], Expression | None]] = []
        if wanted in ("Int", "Dollar") and scope.fields(wanted):
            makers.append(lambda: ["CollectionSum", self.one_of(scope.fields(wanted))])
        if wanted == "Int" and scope.fields("Boolean"):
            makers.append(lambda: ["Count", self.one_of(scope.fields("Boolean"))])
        return makers

    def constant(self, wanted: str) -> Expression:
        """A constant."""
        text = self.one_of(CONSTANTS[wanted])
        if wanted == "Boolean":
            return ["True" if text == "true" else "False"]
        if wanted.startswith("Enum"):
            return ["Enum", wanted[5:-1], text]
        return [wanted, text]

    def nodes(self, wanted: str, scope: Scope, depth: int) -> list[Callable[[], Expression | None]]:
        """What makes an expression with operands."""
        makers: list[Callable[[], Expression | None]] = [lambda: self.switch(wanted, scope, depth)]
        tables = [table for table in self.tables if table.values == wanted]
        if tables:
            makers += [lambda: self.lookup(self.one_of(tables), scope, depth)] * 2
        word, _, base = wanted.partition("(")
        if word in ("Collection", "Item") and not scope.tested:
            makers.append(lambda: self.picked("Filter" if word == "Collection" else "Find", base[:-1], scope, depth))
        if wanted == "Boolean":
            makers += [lambda: self.junction(scope, depth), lambda: ["Not", self.sure("Boolean", scope, depth)], lambda: self.compared(scope, depth)]
        if wanted in ("Int", "Dollar", "Rational"):
            makers += [lambda: self.sum(wanted, scope, depth), lambda: self.pair("Multiply", PRODUCTS[wanted], scope, depth)]
        if wanted in QUOTIENTS:
            makers.append(lambda: self.pair("Divide", QUOTIENTS[wanted], scope, depth))
        if wanted in ORDERED:
            makers.append(lambda: [self.one_of(("GreaterOf", "LesserOf")), *self.several(wanted, scope, depth, 1)])
        if wanted == "Dollar":
            makers += [lambda: ["Round", self.sure("Dollar", scope, depth)], lambda: self.pair(self.one_of(TO_MULTIPLES), MULTIPLES, scope, depth)]
        if wanted == "Int":
            makers += [lambda: [self.one_of(PARTS), self.sure("Day", scope, depth)], lambda: self.pair(self.one_of(BETWEEN), DAYS, scope, depth)]
        if wanted == "Day":
            makers.append(lambda: self.pair(self.one_of(LATER), [("Day", "Int")], scope, depth))
        return makers

    def lookup(self, table: Tabled, scope: Scope, depth: int) -> Expression:
        """A row of a table."""
        return ["Lookup", table.name, self.sure(table.keys, scope, depth)]

    def several(self, wanted: str, scope: Scope, depth: int, least: int) -> list[Expression]:
        """Some operands of a type."""
        return [self.sure(wanted, scope, depth) for _ in range(self.draw(st.integers(least, 3)))]

    def junction(self, scope: Scope, depth: int) -> Expression:
        """An All or an Any."""
        return [self.one_of(("All", "Any")), *self.several("Boolean", scope, depth, 1)]

    def compared(self, scope: Scope, depth: int) -> Expression:
        """A comparison."""
        wanted = self.one_of(PLAIN)
        orders = ("LessThan", "LessThanOrEqual", "GreaterThan", "GreaterThanOrEqual") if wanted in ORDERED else ()
        return [self.one_of(("Equal", "NotEqual", *orders)), self.sure(wanted, scope, depth), self.sure(wanted, scope, depth)]

    def sum(self, wanted: str, scope: Scope, depth: int) -> Expression:
        """An Add or a Subtract; of ratios it has two operands."""
        name = self.one_of(("Add", "Subtract"))
        if wanted == "Rational":
            return self.pair(name, [(wanted, wanted)], scope, depth)
        return [name, *self.several(wanted, scope, depth, 1 if name == "Add" else 2)]

    def pair(self, name: str, types: list[tuple[str, str]], scope: Scope, depth: int) -> Expression:
        """A node of two operands."""
        return [name, *(self.sure(wanted, scope, depth) for wanted in self.one_of(types))]

    def switch(self, wanted: str, scope: Scope, depth: int) -> Expression | None:
        """A Switch of one or two cases."""
        cases = []
        for _ in range(self.draw(st.integers(1, 2))):
            outcome = self.expression(wanted, scope, depth)
            if not outcome:
                return None
            cases.append(["Case", self.sure("Boolean", scope, depth), outcome])
        return ["Switch", *cases]

    def picked(self, name: str, base: str, scope: Scope, depth: int) -> Expression | None:
        """A Filter or a Find over a list of the base's members."""
        paths = [path for path, of in scope.lists() if of == base]
        if not paths:
            return None
        return [name, self.one_of(paths), self.sure("Boolean", scope._replace(tested=base), depth)]

    def fact(self, number: int, made: list[Made]) -> tuple[Made, dict[str, Any]] | None:
        """A fact over those that were made; None where its type has no expression."""
        is_writable = self.one_of((True, True, False) if number < 5 else (True, False, False, False))
        lists = [fact.path for fact in made if fact.path in COLLECTIONS]
        owner = self.one_of(("", *lists))
        word = self.one_of(PLAIN if is_writable or not lists else (*PLAIN, "Collection", "Item"))
        if word == "Collection":
            owner = ""
        kind = f"{word}({self.one_of(lists)})" if word in ("Collection", "Item") else word
        path, scope = f"{owner}/*/f{number}" if owner else f"/f{number}", Scope(list(made), owner)
        stated: dict[str, Any] = {"path": path, "writable" if is_writable else "derived": kind}
        if is_writable:
            stated["limits"] = self.draw(st.lists(st.sampled_from(LIMITS[kind]), max_size=2, unique_by=str)) if kind in LIMITS else []
        else:
            body = self.expression(kind, scope)
            if not body:
                return None
            stated["is"] = body
            value = self.expression(kind, scope) if self.draw(st.integers(0, 3)) == 0 else None
            if value:
                stated["conditional"] = [self.sure("Boolean", scope, DEEPEST - 1), value]
        placeholder = self.expression(kind, scope) if self.draw(st.integers(0, 2)) == 0 else None
        if placeholder:
            stated["placeholder"] = placeholder
        return Made(path, kind), stated


@st.composite
def dictionaries(draw: Callable[..., Any]) -> str:
    """The text of a dictionary that is accepted."""
    maker = Maker(draw)
    tables = [maker.table(number) for number in range(draw(st.integers(0, 3)))]
    stated: list[dict[str, Any]] = [{"path": path, "writable": "Collection"} for path in COLLECTIONS[: draw(st.integers(0, 2))]]
    made = [Made(fact["path"], f"Collection({fact['path']})") for fact in stated]
    for number in range(draw(st.integers(2, 14))):
        added = maker.fact(number, made)
        if added:
            made.append(added[0])
            stated.append(added[1])
    enums = [{"name": name, "options": options} for name, options in OPTIONS.items()]
    facts = draw(st.permutations(stated))
    is_of_law = tables or any(f'"{name}"' in json.dumps(facts) for name in OF_LAW)
    return json.dumps({"version": LAW if is_of_law else "2", "enums": enums, **({"tables": tables} if tables else {}), "facts": facts})
