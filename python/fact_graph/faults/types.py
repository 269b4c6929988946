"""Faults of types: operands that don't go together, texts that are no values, lists of options that aren't there."""

from __future__ import annotations

from collections.abc import Callable, Iterator, Mapping

from ..constants import misspelt
from ..expressions import FactTree, Node
from ..located import Pointer
from ..uses import OVER_FIELDS, Used, Uses, collection_of, item_of, type_of
from .finding import Finding, listed, nearest
from .tables import TableType

ORDERED = ("Int", "Dollar", "Rational", "Day")
COMPARED = ("LessThan", "LessThanOrEqual", "GreaterThan", "GreaterThanOrEqual")
LATER = ("AddDays", "AddMonths", "AddYears")
BETWEEN = ("DaysBetween", "AgeOn")
TO_MULTIPLES = ("RoundUp", "RoundDown", "RoundNearest")

TAKES = {
    "All": "takes Booleans", "Any": "takes Booleans", "Not": "takes a Boolean",
    "Add": "takes Ints, Dollars or two Rationals, all of one type",
    "Subtract": "takes Ints, Dollars or two Rationals, all of one type",
    "Multiply": "takes numbers, and no two Dollars",
    "Divide": "takes a Dollar by a number, or two Ints, two Rationals or two Dollars",
    "GreaterOf": "takes Ints, Dollars, Rationals or Days, all of one type",
    "LesserOf": "takes Ints, Dollars, Rationals or Days, all of one type",
    "Equal": "takes two of one type, but no Collection and no Item",
    "NotEqual": "takes two of one type, but no Collection and no Item",
    **{name: "takes two Ints, Dollars, Rationals or Days, both of one type" for name in COMPARED},
    "Round": "takes a Dollar", "YearOf": "takes a Day", "MonthOf": "takes a Day", "DayOf": "takes a Day",
    **{name: "takes a Day and an Int" for name in LATER},
    **{name: "takes two Days" for name in BETWEEN},
    **{name: "takes a Dollar or a Rational, and a Dollar to whose multiple it is rounded" for name in TO_MULTIPLES},
    "CollectionSum": "takes a fact that is an Int or a Dollar", "Count": "takes a fact that is a Boolean",
    "Filter": "takes a condition that is a Boolean", "Find": "takes a condition that is a Boolean",
    "Switch": "takes tests that are Booleans, and values all of one type",
}  # fmt: skip
"""What the nodes that have operands take."""

LEAVES = ("True", "False", "Int", "Dollar", "Rational", "Day", "Text", "Enum")

Options = Mapping[str, tuple[str, ...]]
Tables = Mapping[str, TableType]
Result = Callable[[list[str]], str | None]


def type_faults(trees: list[FactTree], uses: Uses, options: Options, tables: Tables) -> Iterator[Finding]:
    """What is wrong with the types of all facts and nodes. A node over what has no known type is passed over."""
    for tree in trees:
        typing = _Typing(tree, {used.node.number: used for used in uses.in_fact(tree)}, options, tables)
        yield from typing.faults()


class _Typing:
    """Finds the types of a fact's nodes."""

    def __init__(self, tree: FactTree, used: dict[int, Used], options: Options, tables: Tables) -> None:
        self.tree = tree
        self.used = used
        self.options = options
        self.tables = tables
        self.found: list[Finding] = []

    def faults(self) -> list[Finding]:
        """What is wrong with the fact."""
        tree, stated = self.tree, type_of(self.tree)
        key: Pointer = (*tree.pointer, "writable" if tree.is_writable else "derived")
        if not self.is_declared(stated):
            name = stated[5:-1]
            self.found.append(Finding("IllTyped", key, f"no list of options is named `{name}`", self.list_like(name), fact=tree.number, node=0))
        roots = ((tree.main, stated, ""), (tree.test, "Boolean", "the test"), (tree.value, stated, "the value"), (tree.placeholder, stated, "the placeholder"))
        for root, wanted, what in roots:
            if root:
                self.root(root, wanted, key, what)
        return self.found

    def root(self, root: Node, wanted: str, key: Pointer, what: str) -> None:
        """Expects an expression to have a type."""
        came = self.type(root)
        if came is None or came == wanted or not self.is_declared(wanted):
            return
        if what == "the test":
            reason, hint = f"the test of a conditional is a Boolean, and this is {_a(came)}", ""
        else:
            reason = f"the fact says that it is {_a(wanted)}, and {what or 'its expression'} is {_a(came)}"
            hint = f'write "{key[-1]}":"{came}", or another expression' if what == "" else ""
        self.note(root, reason, hint, (key, *self.sources(root)))

    def note(  # pylint: disable=too-many-arguments # what a finding has
        self, node: Node, reason: str, hint: str = "", related: tuple[Pointer, ...] = (), pointer: Pointer = ()
    ) -> None:
        """Notes a fault of a node."""
        self.found.append(Finding("IllTyped", pointer or node.pointer, reason, hint, self.tree.number, node.number, related=related))

    def is_declared(self, stated: str) -> bool:
        """Whether the type is there: an Enum is where its list of options is."""
        return not stated.startswith("Enum(") or stated[5:-1] in self.options

    def list_like(self, name: str) -> str:
        """Which list of options may have been meant."""
        like = nearest(name, self.options)
        return f"`{like}` is like it" if like else f'declare it: "enums":[{{"name":"{name}","options":["one","other"]}}]'

    def sources(self, node: Node) -> tuple[Pointer, ...]:
        """Where the types of the facts are stated that a node or its operands name."""
        keys: list[Pointer] = []
        for it in (node, *node.operands):
            used = self.used.get(it.number)
            for target in used.targets if used else ():
                keys += [(*target.pointer, "writable" if target.is_writable else "derived"), (*target.pointer, "path")]
        return tuple(keys)

    # ---- the type of a node, or None where it has none or it isn't known

    def type(self, node: Node) -> str | None:
        """The type of a node; what is wrong with it and below it is noted."""
        if node.name in LEAVES:
            return self.leaf(node)
        if node.number in self.used:
            return self.of_use(node, self.used[node.number])
        types = [self.type(operand) for operand in node.operands]
        known = [it for it in types if it]
        if len(known) < len(types):
            return None
        if node.name == "Switch":
            return self.switch(node, known)
        if node.name == "Lookup":
            return self.lookup(node, known[0])
        came = result_type(node.name, known)
        if came is None:
            self.note(node, self.mismatch(node, known), self.instead(node, known), self.sources(node))
        return came

    def leaf(self, node: Node) -> str | None:
        """The type of a node without operands and paths."""
        if node.name in ("True", "False"):
            return "Boolean"
        return self.option(node) if node.name == "Enum" else self.constant(node)

    def constant(self, node: Node) -> str | None:
        """The type of a constant."""
        wrong = misspelt(node.name, node.texts[0])
        if wrong:
            shown = node.texts[0] if len(node.texts[0]) <= 40 else node.texts[0][:38] + " …"
            self.note(node, f"`{shown}` is no {node.name}: {wrong}", pointer=(*node.pointer, 1))
            return None
        return node.name

    def option(self, node: Node) -> str | None:
        """The type of an option of a list."""
        name, option = node.texts
        if name not in self.options:
            self.note(node, f"no list of options is named `{name}`", self.list_like(name), (("enums",),), (*node.pointer, 1))
            return None
        if option not in self.options[name]:
            like = nearest(option, self.options[name])
            hint = f"`{like}` is like it" if like else f"it has {listed(self.options[name], 'and') if self.options[name] else 'none'}"
            self.note(node, f"the list `{name}` has no option `{option}`", hint, (("enums", list(self.options).index(name)),), (*node.pointer, 2))
            return None
        return f"Enum({name})"

    def of_use(self, node: Node, used: Used) -> str | None:
        """The type of a node with a path."""
        tests = [self.type(operand) for operand in node.operands]
        last = used.second if used.paths[1] else used.first
        if node.name == "IsComplete":
            return "Boolean"
        if last is None or not last.is_read:
            return None
        if node.name == "Dependency":
            return self.dependency(node, last)
        if node.name in OVER_FIELDS:
            return self.over_fields(node, used, last)
        return self.over_collection(node, collection_of(type_of(last)), tests)

    def dependency(self, node: Node, fact: FactTree) -> str | None:
        """The type of a Dependency on a fact."""
        stated = type_of(fact)
        if self.is_declared(stated):
            return stated
        self.note(node, f"`{fact.path}` is {_a(stated)}, and no list of options has that name", related=self.sources(node))
        return None

    def over_fields(self, node: Node, used: Used, fact: FactTree) -> str | None:
        """The type of a CollectionSum or a Count over a fact of all members."""
        stated = type_of(fact)
        wanted = ("Boolean",) if node.name == "Count" else ("Int", "Dollar")
        if used.use and used.use.form == "each" and stated not in wanted:
            self.note(node, f"{node.name} {TAKES[node.name]}, and `{fact.path}` is {_a(stated)}", related=self.sources(node))
            return None
        return "Int" if node.name == "Count" else stated

    def over_collection(self, node: Node, base: str | None, tests: list[str | None]) -> str | None:
        """The type of a CollectionSize, a Filter or a Find."""
        if base is None:
            return None
        return self.picking(node, base, tests[0]) if tests else "Int"

    def picking(self, node: Node, base: str, test: str | None) -> str | None:
        """The type of a Filter or a Find."""
        if test is None:
            return None
        if test != "Boolean":
            self.note(node, f"the condition of a {node.name} is a Boolean, and this is {_a(test)}", related=self.sources(node))
            return None
        return f"Collection({base})" if node.name == "Filter" else f"Item({base})"

    def switch(self, node: Node, types: list[str]) -> str | None:
        """The type of a Switch, whose operands are tests and values in turn."""
        tests, values = types[::2], types[1::2]
        wrong = next((at for at, test in enumerate(tests) if test != "Boolean"), None)
        if wrong is not None:
            reason = f"the test of case {wrong + 1} is {_a(tests[wrong])}, and tests are Booleans"
            self.note(node, reason, "", self.sources(node), node.operands[2 * wrong].pointer)
            return None
        other = next((at for at, value in enumerate(values) if value != values[0]), None)
        if other is not None:
            reason = f"the value of case {other + 1} is {_a(values[other])}, and that of case 1 is {_a(values[0])}"
            self.note(node, reason, "the values of a Switch are of one type", self.sources(node), node.operands[2 * other + 1].pointer)
            return None
        return values[0]

    def lookup(self, node: Node, key: str) -> str | None:
        """The type of a Lookup, whose operand is of the type of the table's keys."""
        table = self.tables[node.texts[0]]
        if table.keys and key != table.keys:
            reason = f"the table `{node.texts[0]}` goes by {_a(table.keys)}, and this is {_a(key)}"
            self.note(node, reason, "", (("tables", list(self.tables).index(node.texts[0]), "from"), *self.sources(node)))
            return None
        return table.values or None

    def mismatch(self, node: Node, types: list[str]) -> str:
        """Why operands of these types don't go together."""
        counts = ", ".join(f"operand {at} {_a(it)}" for at, it in enumerate(types, 1)) if len(types) > 1 else f"this is {_a(types[0])}"
        if len(types) > 8:
            first = next((at for at, it in enumerate(types) if it != types[0]), 0)
            counts = f"operand 1 is {_a(types[0])}, operand {first + 1} {_a(types[first])}"
        elif len(types) > 1:
            counts = counts.replace("operand 1 ", "operand 1 is ", 1)
        return f"{node.name} {TAKES[node.name]}, and {counts}"

    @staticmethod
    def instead(node: Node, types: list[str]) -> str:
        """What would be right in place of operands that don't go together."""
        if node.name in ("Add", "Subtract") and set(types) == {"Rational"} and len(types) > 2:
            return "add two, and the third to their sum"
        if set(types) == {"Int", "Dollar"} and node.name not in (*LATER, *BETWEEN, "All", "Any"):
            return "make the Int an amount: `[\"Multiply\",[\"Dollar\",\"1\"],..]` of it, or `[\"Dollar\",..]` in place of a constant"
        if node.name == "Divide" and types == ["Int", "Dollar"]:
            return "the Dollar stands first"
        return ""


def _a(stated: str) -> str:
    return f"{'an' if stated[0] in 'IE' else 'a'} {stated}"


def result_type(name: str, types: list[str]) -> str | None:
    """The type of an operation over operands of these types, or None where they don't go together.

    >>> result_type("Multiply", ["Dollar", "Int"])
    'Dollar'
    """
    return RESULTS[name](types)


def _logic(types: list[str]) -> str | None:
    return "Boolean" if set(types) == {"Boolean"} else None


def _sum(types: list[str]) -> str | None:
    is_sum = len(set(types)) == 1 and (types[0] in ("Int", "Dollar") or types == ["Rational", "Rational"])
    return types[0] if is_sum else None


def _product(types: list[str]) -> str | None:
    if set(types) <= {"Int", "Rational"}:
        return "Rational" if "Rational" in types else "Int"
    return "Dollar" if sorted(types) in (["Dollar", "Int"], ["Dollar", "Rational"]) else None


def _quotient(types: list[str]) -> str | None:
    if types in (["Dollar", "Int"], ["Dollar", "Rational"]):
        return "Dollar"
    return "Rational" if len(set(types)) == 1 and types[0] in ("Int", "Rational", "Dollar") else None


def _extreme(types: list[str]) -> str | None:
    return types[0] if len(set(types)) == 1 and types[0] in ORDERED else None


def _order(types: list[str]) -> str | None:
    return "Boolean" if _extreme(types) else None


def _equality(types: list[str]) -> str | None:
    is_plain = collection_of(types[0]) is None and item_of(types[0]) is None
    return "Boolean" if len(set(types)) == 1 and is_plain else None


def _multiple(types: list[str]) -> str | None:
    return "Dollar" if types in (["Dollar", "Dollar"], ["Rational", "Dollar"]) else None


def _fixed(given: list[str], gives: str) -> Result:
    return lambda types: gives if types == given else None


RESULTS: dict[str, Result] = {
    **dict.fromkeys(("All", "Any", "Not"), _logic),
    **dict.fromkeys(("Add", "Subtract"), _sum),
    "Multiply": _product,
    "Divide": _quotient,
    **dict.fromkeys(("GreaterOf", "LesserOf"), _extreme),
    **dict.fromkeys(("Equal", "NotEqual"), _equality),
    **dict.fromkeys(COMPARED, _order),
    "Round": _fixed(["Dollar"], "Dollar"),
    **dict.fromkeys(("YearOf", "MonthOf", "DayOf"), _fixed(["Day"], "Int")),
    **dict.fromkeys(LATER, _fixed(["Day", "Int"], "Day")),
    **dict.fromkeys(BETWEEN, _fixed(["Day", "Day"], "Int")),
    **dict.fromkeys(TO_MULTIPLES, _multiple),
}
"""By the name of an operation the type of its result, of the types of its operands."""
