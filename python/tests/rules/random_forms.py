"""Random dictionaries that have the form of one: all else may be wrong with them."""

from __future__ import annotations

from collections.abc import Callable
from random import Random
from typing import Any

from fact_graph.expressions import LAW, OF_LAW, VERSIONS

Node = list[Any]

ENUMS = {"tenure": ["rents", "owns", "none"], "outcome": ["full", "none", "away", "complete"], "if": ["then", "table", "Int", "Enum", "true", "from"]}
FACTS = {
    "/a": "Int", "/b": "Dollar", "/tenure": "Enum(tenure)", "/outcome": "Enum(outcome)", "/people": "Collection", "/people/*/born": "Day",
    "/people/*/away": "Boolean", "/people/*/status": "Enum(outcome)", "/people/*/where": "Enum(tenure)", "/people/*/age": "Int",
}  # fmt: skip
"""Facts that most paths name."""
PATHS = [
    *FACTS, "/adults", "/eldest", "../born", "../status", "../partner/status", "/eldest/status", "/adults/*/wages", "born", "status", "away", "full",
    "none", "where", "if", "complete", "age", "months", "on", "Int", "/1", "//", "", "/a/b/c", "../a/*/b", "a b", "..", "/people/*",
    "`", "#", "\u202e", '"', "\\", "\n",
]  # fmt: skip
KEYS = {"Int": ["-5", "-0", "1", "007", "18000"], "Dollar": ["-1234567.89", "0", "1.50", "007", "18000.00"], "Day": ["1800-01-01", "2024-02-29"]}
"""By a type by which a table goes, keys that rise."""
ENTRIES = {
    "Boolean": ["true", "false"], **KEYS, "Rational": ["1/2", "2", "12/100", "007/100", "-3/4", "-0"],
    "Text": ["", "a b", '"', "\\n", "#", "`", "\u202e", "\U0001f600", "from 1: 2"], **{f"Enum({name})": options for name, options in ENUMS.items()},
}  # fmt: skip
"""By the type of a table's values, some of them."""
TABLES = ["mostAid", "for", "if", "Int", "first", "away", "Lookup", "table", "to"]
TYPES = ["Boolean", "Int", "Dollar", "Rational", "Day", "Text", "Enum(tenure)", "Enum(outcome)", "Enum(if)", "Enum(gone)"]
WRITABLE = [*TYPES, "Collection"]
DERIVED = [*TYPES, "Collection(/people)", "Item(/people)", "Item(people)", "Collection()", "Item(a) (b)"]
TEXTS = [
    "0", "1", "-5", "007", "1.50", "-0", "18000", "-1234567.89", "2024-02-29", "1/2", "12/100", "007/100", "-3/4", "2", "5.5", "", "+1", "a b", "#",
    '"', "\\n", "\n", "\t", "é", "\u202e", "\U0001f600", "\x00", "from", "to", "on", "limit", "placeholder", "nine-digits", "digits",
]  # fmt: skip
CONSTANTS = ["Int", "Dollar", "Rational", "Day", "Text"]
OVER = ["Dependency", "Dependency", "Dependency", "IsComplete", "CollectionSize", "CollectionSum", "Count"]
COMPARISONS = ["Equal", "NotEqual", "LessThan", "LessThanOrEqual", "GreaterThan", "GreaterThanOrEqual"]
LATER = ["AddDays", "AddMonths", "AddYears"]
PHRASES = ["DaysBetween", "AgeOn", "RoundUp", "RoundDown", "RoundNearest"]
MOST_NODES = 24


class Forms:
    """Makes dictionaries by random choices."""

    def __init__(self, random: Random) -> None:
        self.random = random
        self.left = 0
        self.version = "1"
        self.tables: list[str] = []

    def dictionary(self) -> dict[str, Any]:
        """A dictionary of a few facts, mostly behind those that paths name."""
        self.version = self.random.choice(VERSIONS)
        self.tables = self.random.sample(TABLES, self.random.randint(0, 4)) if self.version == LAW else []
        dictionary: dict[str, Any] = {"version": self.version}
        if self.random.random() < 0.5:
            dictionary["description"] = self.random.choice(TEXTS)
        if self.random.random() < 0.7:
            dictionary["enums"] = [{"name": name, "options": options} for name, options in ENUMS.items()]
        if self.version == LAW and (self.tables or self.random.random() < 0.5):
            dictionary["tables"] = [self.table(name, "enums" in dictionary) for name in self.tables]
        named = [{"path": path, "writable": stated} for path, stated in FACTS.items()] if self.random.random() < 0.7 else []
        dictionary["facts"] = [*named, *(self.fact() for _ in range(self.random.randint(0, 3)))]
        self.random.shuffle(dictionary["facts"])
        return dictionary

    def table(self, name: str, has_enums: bool) -> dict[str, Any]:
        """A table of a few rows."""
        keys, values = self.random.choice(list(KEYS)), self.random.choice([it for it in ENTRIES if has_enums or not it.startswith("Enum")])
        among = sorted(self.random.sample(KEYS[keys], self.random.randint(0, len(KEYS[keys]))), key=KEYS[keys].index)
        rows = [[key, self.random.choice(ENTRIES[values])] for key in among]
        table = {"name": name, "from": keys, "to": values, "rows": rows, "else": self.random.choice(ENTRIES[values])}
        return table | ({"description": self.random.choice(TEXTS)} if self.random.random() < 0.3 else {})

    def fact(self) -> dict[str, Any]:
        """A fact, which a person answers or which follows."""
        fact: dict[str, Any] = {"path": self.random.choice(PATHS)}
        if self.random.random() < 0.3:
            fact["writable"] = self.random.choice(WRITABLE)
            if self.random.random() < 0.7:
                kinds = self.random.choices(["Min", "Max", "MaxLength", "Check"], k=self.random.randint(1, 4))
                fact["limits"] = [[kind, self.random.choice(TEXTS)] for kind in kinds]
        else:
            fact |= {"derived": self.random.choice(DERIVED), "is": self.expression()}
            if self.version != "1" and self.random.random() < 0.4:
                fact["conditional"] = [self.expression(), self.expression()]
        if self.random.random() < 0.3:
            fact["placeholder"] = self.expression()
        if self.random.random() < 0.3:
            fact["description"] = self.random.choice(TEXTS)
        return fact

    def expression(self) -> Node:
        """An expression of at most a few nodes."""
        self.left = self.random.choice([1, 3, 8, MOST_NODES])
        return self.node()

    def node(self) -> Node:
        """A node, and those below it; a leaf once there are enough."""
        self.left -= 1
        if self.left <= 0 or self.random.random() < 0.2:
            return self.leaf()
        makers = [self.many, self.many, self.switch, self.one, self.two, self.compared, self.pick, *([self.lookup] if self.tables else [])]
        make: Callable[[], Node] = self.random.choice(makers)
        return make()

    def leaf(self) -> Node:
        """A constant, or what reads facts."""
        match self.random.randrange(4):
            case 0:
                return [self.random.choice(CONSTANTS), self.random.choice(TEXTS)]
            case 1:
                name = self.random.choice(list(ENUMS))
                return ["Enum", name, self.random.choice([*ENUMS[name], "gone", "a b"])]
            case 2:
                return [self.random.choice(["True", "False"])]
        return [self.random.choice(OVER), self.random.choice(PATHS)]

    def many(self) -> Node:
        """A node of one operand or more."""
        name = self.random.choice(["All", "Any", "Add", "Subtract", "GreaterOf", "LesserOf"])
        return [name, *(self.node() for _ in range(self.random.randint(2 if name == "Subtract" else 1, 4)))]

    def switch(self) -> Node:
        """A Switch, whose last test is often true."""
        cases = [["Case", self.node(), self.node()] for _ in range(self.random.randint(1, 3))]
        if self.random.random() < 0.5:
            cases[-1][1] = ["True"]
        return ["Switch", *cases]

    def one(self) -> Node:
        """A node of one operand."""
        return [self.random.choice(self.known(["Not", "Round", "YearOf", "MonthOf", "DayOf"])), self.node()]

    def two(self) -> Node:
        """A node of two operands."""
        name = self.random.choice(self.known(["Multiply", "Divide", *COMPARISONS, *LATER, *PHRASES]))
        return [name, self.node(), ["Int", "1"] if name in LATER and self.random.random() < 0.3 else self.node()]

    def known(self, names: list[str]) -> list[str]:
        """Those of these nodes that the version has."""
        return [name for name in names if self.version == LAW or name not in OF_LAW]

    def compared(self) -> Node:
        """A fact that is compared with a leaf, often with an option of its list."""
        return [self.random.choice(["Equal", "NotEqual"]), ["Dependency", self.random.choice(PATHS)], self.leaf()]

    def lookup(self) -> Node:
        """A row of a table."""
        return ["Lookup", self.random.choice(self.tables), self.node()]

    def pick(self) -> Node:
        """A choice of members."""
        return [self.random.choice(["Filter", "Find"]), self.random.choice(PATHS), self.node()]
