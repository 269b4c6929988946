"""The expressions of a dictionary as people read them."""

from __future__ import annotations

from collections.abc import Callable
from typing import Any, NamedTuple

from ..located import Pointer
from ..uses import Scope
from .comments import Notes
from .declared import Declared
from .layout import EDGE, HARD, SPACE, Doc, Remark, group, nest, row
from .literals import CONSTANTS, NAME, PATH, RESERVED, quoted, written
from .phrases import KEY, LATER, LOOKUP, OF_ONE, OF_TWO
from .units import CHAINS, LISTS, VALUE_SIDES

Node = list[Any]

COMPARISONS = {"Equal": "is", "NotEqual": "is not", "LessThan": "<", "LessThanOrEqual": "<=", "GreaterThan": ">", "GreaterThanOrEqual": ">="}
PRODUCTS = {"Multiply": "*", "Divide": "/"}
OVER = {"CollectionSum": "sum of", "CollectionSize": "number of", "Count": "count of"}

# how closely a node binds
LOOSE, EITHER, BOTH, NEGATION, COMPARISON, PHRASE, SUM, PRODUCT, CLOSED = range(9)
LEVELS = {
    "Switch": LOOSE, "Filter": LOOSE, "Find": LOOSE, "Any": EITHER, "All": BOTH, "Not": NEGATION,
    **dict.fromkeys(COMPARISONS, COMPARISON), "IsComplete": COMPARISON, **dict.fromkeys((*OF_TWO, LOOKUP), PHRASE),
    "Add": SUM, "Subtract": SUM, **dict.fromkeys(LATER, SUM), **dict.fromkeys(PRODUCTS, PRODUCT),
}  # fmt: skip
SUMS = frozenset(("Add", "Subtract", *LATER))


def level(node: Node) -> int:
    """How closely a node binds as it is written."""
    if node[0] in CHAINS and len(node) == 2:
        return CLOSED
    if node[0] == "Not" and node[1][0] == "IsComplete":
        return COMPARISON
    return LEVELS.get(node[0], CLOSED)


class Spot(NamedTuple):
    """Where a node stands: by which pointer, in which scope, and of which list the options are that belong there."""

    pointer: Pointer
    scope: Scope
    enum: str | None = None

    def part(self, *steps: int, enum: str | None = None) -> Spot:
        """The spot of a part below."""
        return Spot((*self.pointer, *steps), self.scope, enum)


class Printer:
    """Prints expressions over what the facts declare, with their comments."""

    def __init__(self, declared: Declared, notes: Notes) -> None:
        self.declared = declared
        self.notes = notes
        self._writers: dict[str, Callable[[Node, Spot], Doc]] = {
            **dict.fromkeys(CHAINS, self._chain), **dict.fromkeys(LISTS, self._list), **dict.fromkeys(COMPARISONS, self._comparison),
            **dict.fromkeys(PRODUCTS, self._product), **dict.fromkeys(LATER, self._later_day), **dict.fromkeys(OF_ONE, self._of_one),
            **dict.fromkeys(OF_TWO, self._of_two), "Switch": self._switch, "Filter": self._choice, "Find": self._choice, "Not": self._not,
            "Round": self._round, LOOKUP: self._lookup,
        }  # fmt: skip

    def root(self, node: Node, pointer: Pointer, scope: Scope, enum: str | None) -> Doc:
        """A whole expression; enum is the list of options of which its value is."""
        return self._node(node, Spot(pointer, scope, enum))

    def side(self, node: Node, pointer: Pointer, scope: Scope, enum: str | None = None) -> Doc:
        """A test or a value of a case."""
        return self._inside(node, Spot(pointer, scope, enum), EITHER)

    def leading(self, pointer: Pointer) -> Doc:
        """The comments on lines of their own before a part."""
        return row(*(row(text, HARD) for text in self.notes.leading.get(pointer, [])))

    def trailing(self, pointer: Pointer) -> Doc:
        """The comments behind a part."""
        return row(*map(Remark, self.notes.trailing.get(pointer, [])))

    def _node(self, node: Node, spot: Spot) -> Doc:
        writer = self._writers.get(node[0])
        return writer(node, spot) if writer else self._leaf(node, spot)

    def _inside(self, node: Node, spot: Spot, least: int) -> Doc:
        """A node as a part of another, in brackets where it binds less closely than that."""
        doc = self._node(node, spot)
        if level(node) >= least:
            return doc
        # what stands first in brackets has no line of its own above them
        first = self.leading((*spot.pointer, 1)) if node[0] in CHAINS or node[0] == "Switch" else row()
        return group("(", nest(EDGE, first, doc), EDGE, ")")

    def _chain(self, node: Node, spot: Spot) -> Doc:
        if len(node) == 2:
            return self._list(node, spot)
        parts: list[Doc] = [self._addend(node, 1, spot), self.trailing((*spot.pointer, 1))]
        for at in range(2, len(node)):
            here = (*spot.pointer, at)
            parts += [SPACE, self.leading(here), f"{CHAINS[node[0]]} ", self._addend(node, at, spot), self.trailing(here)]
        return group(*parts)

    def _addend(self, node: Node, at: int, spot: Spot) -> Doc:
        """An operand of a chain. The first may be another sum: what is added or subtracted goes from the left."""
        if node[0] not in SUMS:
            return self._inside(node[at], spot.part(at), NEGATION)
        is_sum = at == 1 and node[1][0] in SUMS and (node[1][0] != node[0] or node[0] in LATER)
        return self._inside(node[at], spot.part(at), SUM if is_sum else PRODUCT)

    def _list(self, node: Node, spot: Spot) -> Doc:
        parts: list[Doc] = []
        for at in range(1, len(node)):
            here = (*spot.pointer, at)
            parts += [",", self.trailing((*spot.pointer, at - 1)), SPACE] if parts else [EDGE]
            parts += [self.leading(here), self._inside(node[at], spot.part(at), EITHER)]
        last = self.trailing((*spot.pointer, len(node) - 1))
        words = f"{LISTS[node[0]]} (" if node[0] in LISTS else f"{node[0]}("
        return group(words, nest(*parts), last, EDGE, ")")

    def _switch(self, node: Node, spot: Spot) -> Doc:
        cases = node[1:]
        has_last = len(cases) > 1 and cases[-1][1] == ["True"]
        between = HARD if len(cases) - has_last > 1 else SPACE
        parts: list[Doc] = []
        for at, (_, test, value) in enumerate(cases, 1):
            here = (*spot.pointer, at)
            value_doc = nest(self._inside(value, spot.part(at, 2, enum=spot.enum), EITHER))
            if has_last and at == len(cases):
                case: Doc = row("otherwise ", value_doc)
            else:
                case = group("if ", nest(self._inside(test, spot.part(at, 1), EITHER)), nest(SPACE, "then ", value_doc))
            parts += [between, self.leading(here)] if parts else []
            parts += [case, self.trailing(here)]
        return group(*parts)

    def _comparison(self, node: Node, spot: Spot) -> Doc:
        name, left, right = node
        enum = self.declared.enum_of(left[1], spot.scope) if name in VALUE_SIDES and left[0] == "Dependency" else None
        right_doc = self._inside(right, spot.part(2, enum=enum), PHRASE)
        return group(self._inside(left, spot.part(1), PHRASE), nest(SPACE, f"{COMPARISONS[name]} ", right_doc))

    def _product(self, node: Node, spot: Spot) -> Doc:
        left, right = self._inside(node[1], spot.part(1), PRODUCT), self._inside(node[2], spot.part(2), CLOSED)
        return group(left, nest(SPACE, f"{PRODUCTS[node[0]]} ", right))

    def _later_day(self, node: Node, spot: Spot) -> Doc:
        unit = LATER[node[0]] if node[2] == ["Int", "1"] else f"{LATER[node[0]]}s"
        return group(self._addend(node, 1, spot), nest(SPACE, "+ ", self._inside(node[2], spot.part(2), CLOSED), f" {unit}"))

    def _choice(self, node: Node, spot: Spot) -> Doc:
        name, path, test = node
        inner = Spot((*spot.pointer, 2), self.declared.inside(path, spot.scope))
        return group("first of " if name == "Find" else "", path_text(path), nest(SPACE, "where ", nest(self._inside(test, inner, EITHER))))

    def _not(self, node: Node, spot: Spot) -> Doc:
        operand = node[1]
        if operand[0] == "IsComplete":
            return row(self._use(operand[1], spot.part(1, 1)), " is not complete")
        return row("not ", self._inside(operand, spot.part(1), CLOSED))

    def _round(self, node: Node, spot: Spot) -> Doc:
        return group("round(", nest(EDGE, self._node(node[1], spot.part(1))), EDGE, ")")

    def _of_one(self, node: Node, spot: Spot) -> Doc:
        return row(f"{OF_ONE[node[0]]} ", self._inside(node[1], spot.part(1), CLOSED))

    def _of_two(self, node: Node, spot: Spot) -> Doc:
        first, second = OF_TWO[node[0]]
        second_doc = nest(SPACE, f"{second} ", self._inside(node[2], spot.part(2), CLOSED))
        return group(f"{first} ", self._inside(node[1], spot.part(1), CLOSED), second_doc)

    def _lookup(self, node: Node, spot: Spot) -> Doc:
        name = node[1] if NAME.fullmatch(node[1]) and node[1] not in RESERVED else f"{LOOKUP} {quoted(node[1])}"
        return group(name, nest(SPACE, f"{KEY} ", self._inside(node[2], spot.part(2), CLOSED)))

    def _leaf(self, node: Node, spot: Spot) -> str:
        name, *texts = node
        if name in ("True", "False"):
            return str(name.lower())
        if name == "Dependency":
            return self._use(texts[0], spot)
        if name == "IsComplete":
            return f"{self._use(texts[0], spot.part(1))} is complete"
        if name in OVER:
            return f"{OVER[name]} {path_text(texts[0])}"
        return self._option(texts[0], texts[1], spot) if name == "Enum" else constant_text(name, texts[0])

    def _use(self, path: str, spot: Spot) -> str:
        """A path; one of a member that is tested is a name alone, where that is no option that belongs there."""
        is_known = spot.scope.is_condition and not self.declared.has_option(spot.enum, path)
        return path if is_known and NAME.fullmatch(path) and path not in RESERVED else path_text(path)

    def _option(self, enum: str, option: str, spot: Spot) -> str:
        """An option; by its name alone where its list belongs there, and the name is no fact of a member."""
        if not (NAME.fullmatch(enum) and NAME.fullmatch(option)):
            return f"Enum {quoted(enum)} {quoted(option)}"
        is_known = spot.enum == enum and (not spot.scope.is_condition or self.declared.has_option(enum, option))
        return option if is_known and option not in RESERVED else f"{enum}.{option}"


def constant_text(kind: str, text: str) -> str:
    """A constant as it stands in rules.

    >>> constant_text("Dollar", "1500"), constant_text("Dollar", "007"), constant_text("Text", "x")
    ('$1,500', 'Dollar "007"', '"x"')
    """
    if kind == "Text":
        return quoted(text)
    return written(kind, text) or f"{kind} {quoted(text)}"


def entry_text(kind: str, text: str) -> str:
    """A key or a value of a table, whose type the table says.

    >>> entry_text("Dollar", "291"), entry_text("Rational", "3"), entry_text("Enum(tenure)", "rents"), entry_text("Text", "a b")
    ('$291', '3', 'rents', '"a b"')
    """
    if kind.startswith("Enum("):
        return f"{kind[5:-1]}.{text}" if text in CONSTANTS else text
    if kind == "Boolean":
        return text
    return (written("Int", text) if kind == "Rational" else None) or constant_text(kind, text)


def path_text(path: str) -> str:
    """A path as it stands in rules.

    >>> path_text("/people/*/born"), path_text("born")
    ('/people/*/born', '`born`')
    """
    return path if PATH.fullmatch(path) else quoted(path, "`")
