"""What each expression of a dictionary can come to, by the types and limits of the answers and by what is known where it stands.

Overrides are left out of account, and so is a saved text whose answers break limits.
"""

from __future__ import annotations

import json
from collections.abc import Iterable
from graphlib import TopologicalSorter

from ..constants import number_of
from ..dictionary import FactType
from ..expressions import FactTree, Node
from ..rulebook import Rulebook, Table, cases_of
from ..uses import WITH_CONDITION, WITH_PATH
from .arithmetic import Outcome, arithmetic, total
from .ranges import (
    EITHER,
    FALSE,
    NOTHING,
    TRUE,
    WHOLE,
    Anything,
    Options,
    Range,
    Span,
    common,
    equality,
    negated,
    order,
    union,
    values_of,
    without,
)

Key = tuple[str, int]
"""The path of a fact, and the number of a node of it."""

DEEPEST = 8
"""How deep a condition may be of whose parts something is concluded; of a deeper one it is known only that it holds."""

OPPOSITE = {"LessThan": "GreaterThanOrEqual", "GreaterThanOrEqual": "LessThan", "GreaterThan": "LessThanOrEqual", "LessThanOrEqual": "GreaterThan"}

TELLING = ("Not", "All", "Any", "Equal", "NotEqual", *OPPOSITE)
"""The conditions whose value tells something of their operands."""


class Known:
    """What is known of expressions at a place, by their JSON: an expression has one result there. `ranges` are those found so far."""

    def __init__(self, told: dict[str, Range]) -> None:
        self.told = told
        self.ranges: dict[Key, Range] = {}

    def also(self, parts: Iterable[tuple[str, Range]]) -> Known | None:
        """What is known besides; None where both can't be."""
        told = dict(self.told)
        for key, found in parts:
            told[key] = common(told.get(key, found), found)
            if told[key] == NOTHING:
                return None
        return Known(told)


NOT_KNOWN: dict[str, Range] = {}


class Reasoning:  # pylint: disable=too-many-instance-attributes # what is seen on the way
    """The ranges of the facts and expressions of a dictionary, and what is seen on the way to them.

    `ranges` has each expression that can be evaluated at all. `taken` are the tests by which a case can be taken, `left` the
    Switches of which all tests can be false, `rows` the numbers of the rows of tables that can be reached, 0 where that is what
    stands below the first, and `faults` what an operation can be at fault by.
    """

    def __init__(self, rulebook: Rulebook) -> None:
        self.rulebook = rulebook
        self.ranges: dict[Key, Range] = {}
        self.taken: set[Key] = set()
        self.left: set[Key] = set()
        self.rows: dict[str, set[int]] = {}
        self.faults: dict[Key, set[str]] = {}
        self._facts: dict[str, Range] = {}
        self._keys: dict[Key, str] = {}
        for path in TopologicalSorter({path: rulebook.mentions(tree, *tree.roots) for path, tree in rulebook.trees.items()}).static_order():
            self._facts[path] = self._of_fact(rulebook.trees[path])

    # ---- facts

    def fact(self, path: str) -> Range:
        """What the result of a fact can be, its placeholder among it. Of a collection it is how many members."""
        return self._facts[path]

    def _of_fact(self, tree: FactTree) -> Range:
        ranges = [self.answer(tree) if tree.is_writable else self._body(tree)]
        if tree.placeholder:
            ranges.append(self._range(tree, tree.placeholder, Known(NOT_KNOWN)))
        return union(ranges)

    def answer(self, tree: FactTree) -> Range:
        """What an answer can be that `set` takes."""
        whole = self._of_type(tree.stated)
        for name, text in tree.limits:
            if isinstance(whole, Span) and whole.low <= whole.high:
                bound = number_of(whole.unit, text)
                low, high = (bound, max(bound, whole.high)) if name == "Min" else (min(bound, whole.low), bound)
                whole = common(whole, Span(whole.unit, low, high))
        return whole

    def _of_type(self, stated: str) -> Range:
        name, _, of = stated.partition("(")
        if name == "Boolean":
            return EITHER
        if name == "Enum":
            return Options(frozenset(self.rulebook.dictionary.options[of[:-1]]))
        unit = "Members" if name == "Collection" else name
        return WHOLE[unit] if unit in WHOLE else Anything()

    def _body(self, tree: FactTree) -> Range:
        known = Known(NOT_KNOWN)
        assert tree.main
        if not (tree.test and tree.value):
            return self._range(tree, tree.main, known)
        ranges, left = self._cases(tree, [(tree.test, tree.value)], known)
        if left is not None:
            ranges.append(self._range(tree, tree.main, left))
        return union(ranges)

    # ---- expressions

    def _range(self, tree: FactTree, node: Node, known: Known) -> Range:
        """What an expression can come to where this is known."""
        place = (tree.path, node.number)
        if place not in known.ranges:
            found = self._result(tree, node, known)
            key = self._key(tree, node)
            found = common(found, known.told[key]) if key in known.told else found
            known.ranges[place] = found
            self.ranges[place] = union((self.ranges.get(place, NOTHING), found))
        return known.ranges[place]

    def _result(self, tree: FactTree, node: Node, known: Known) -> Range:
        if node.name == "Switch":
            return self._switch(tree, node, known)
        if node.name in ("All", "Any"):
            return self._condition(tree, node, known)
        if node.name in WITH_PATH:
            return self._use(tree, node, known)
        if not node.operands:
            return constant(node)
        operands = [self._range(tree, operand, known) for operand in node.operands]
        return NOTHING if NOTHING in operands else self._operation(tree, node, operands)

    def _operation(self, tree: FactTree, node: Node, operands: list[Range]) -> Range:
        if node.name == "Not":
            return negated(operands[0])
        if node.name == "Lookup":
            return self._lookup(self.rulebook.dictionary.tables[node.texts[0]], operands[0])
        if node.name in ("Equal", "NotEqual"):
            return equality(*operands) if node.name == "Equal" else negated(equality(*operands))
        spans = [operand for operand in operands if isinstance(operand, Span)]
        return order(node.name, *spans) if node.name in OPPOSITE else self._told(tree, node, arithmetic(node.name, spans))

    def _lookup(self, table: Table, asked: Range) -> Range:
        """What stands in the rows that can be reached."""
        assert isinstance(asked, Span)
        found = reached(table, asked)
        self.rows.setdefault(table.name, set()).update(found)
        texts = [table.rows[row - 1][1] if row else table.otherwise for row in found]
        return union(value_range(table.values, text) for text in texts)

    def _told(self, tree: FactTree, node: Node, outcome: Outcome) -> Range:
        """The range of an outcome, whose faults are kept."""
        self.faults.setdefault((tree.path, node.number), set()).update(outcome.faults)
        return outcome.range

    def _use(self, tree: FactTree, node: Node, known: Known) -> Range:
        """What a node with a path comes to."""
        if node.name in WITH_CONDITION:
            return self._choice(tree, node, known)
        if node.name == "Dependency":
            return self.fact(self.rulebook.targets(tree, node)[-1])
        return EITHER if node.name == "IsComplete" else self._over_members(tree, node)

    def _cases(self, tree: FactTree, cases: Iterable[tuple[Node, Node]], known: Known) -> tuple[list[Range], Known | None]:
        """The ranges of the values of the cases that can be taken, and what is known where none is; None where one always is."""
        ranges: list[Range] = []
        left: Known | None = known
        for test, value in cases:
            if left is None:
                break
            self._range(tree, test, left)
            taken = self._assume(tree, test, True, left)
            if taken is not None:
                self.taken.add((tree.path, test.number))
                ranges.append(self._range(tree, value, taken))
            left = self._assume(tree, test, False, left)
        return ranges, left

    def _switch(self, tree: FactTree, node: Node, known: Known) -> Range:
        ranges, left = self._cases(tree, cases_of(node), known)
        if left is not None and all(self._can_be_false(tree, test, left) for test, _ in cases_of(node)):
            self.left.add((tree.path, node.number))
        return union(ranges)

    def _can_be_false(self, tree: FactTree, test: Node, known: Known) -> bool:
        """Whether a test can be false with what is known by now, which may be more than when it was assumed."""
        return _depth(test) > DEEPEST or False in values_of(self._result(tree, test, known))

    def _choice(self, tree: FactTree, node: Node, known: Known) -> Range:
        source = self.fact(self.rulebook.targets(tree, node)[0])
        test = self._range(tree, node.operands[0], known)
        if node.name == "Find" or not isinstance(source, Span):
            return Anything() if node.name == "Find" else NOTHING
        return Span("Members", source.low if test == TRUE else 0, source.high if True in values_of(test) else 0)

    def _over_members(self, tree: FactTree, node: Node) -> Range:
        source, *fields = self.rulebook.targets(tree, node)
        size = self.fact(source)
        if not isinstance(size, Span):
            return NOTHING
        if node.name == "CollectionSize":
            return Span("Int", size.low, size.high)
        field = self.fact(fields[0])
        if node.name == "Count":
            return Span("Int", size.low if field == TRUE else 0, size.high if True in values_of(field) else 0)
        if not isinstance(field, Span):
            return Span(self.rulebook.trees[fields[0]].stated, 0, 0)
        return self._told(tree, node, total(size, field))

    def _condition(self, tree: FactTree, node: Node, known: Known) -> Range:
        """All, or Any. An operand that is false makes an All false, whatever the others come to."""
        decisive = node.name == "Any"
        operands = [values_of(self._range(tree, operand, known)) for operand in node.operands]
        values = {decisive} if any(decisive in operand for operand in operands) else set()
        if all((not decisive) in operand for operand in operands) and self._can_all_be(tree, node, not decisive, known):
            values.add(not decisive)
        return Options(frozenset(values))

    def _can_all_be(self, tree: FactTree, node: Node, value: bool, known: Known) -> bool:
        if _depth(node) > DEEPEST:
            return True
        left: Known | None = known
        for operand in node.operands:
            left = self._assume(tree, operand, value, left) if left is not None else None
        return left is not None

    # ---- what is known where a condition has a value

    def _assume(self, tree: FactTree, node: Node, value: bool, known: Known) -> Known | None:
        """What is known where a condition has this value besides; None where it can't have it."""
        if value not in values_of(self._range(tree, node, known)):
            return None
        told = known.also([(self._key(tree, node), TRUE if value else FALSE)])
        if told is None or node.name not in TELLING or _depth(node) > DEEPEST:
            return told
        if node.name == "Not":
            return self._assume(tree, node.operands[0], not value, told)
        if node.name in ("All", "Any"):
            return self._assume_sides(tree, node, value, told)
        if node.name in OPPOSITE:
            return self._assume_order(tree, node, node.name if value else OPPOSITE[node.name], told)
        return self._assume_equality(tree, node, value == (node.name == "Equal"), told)

    def _assume_sides(self, tree: FactTree, node: Node, value: bool, known: Known) -> Known | None:
        """An All that is true has true operands alone. One that is false has a false one, and so the only one that can be."""
        operands = list(node.operands)
        if value == (node.name == "Any"):
            operands = [operand for operand in operands if value in values_of(self._range(tree, operand, known))]
            if len(operands) > 1:
                return known
        told: Known | None = known
        for operand in operands:
            told = self._assume(tree, operand, value, told) if told is not None else None
        return told

    def _assume_order(self, tree: FactTree, node: Node, name: str, known: Known) -> Known | None:
        less, more = node.operands if name in ("LessThan", "LessThanOrEqual") else reversed(node.operands)
        low, high = self._range(tree, less, known), self._range(tree, more, known)
        if not isinstance(low, Span) or not isinstance(high, Span):
            return known
        # a whole number that is less is less by one
        step = 1 if name in ("LessThan", "GreaterThan") and low.unit != "Rational" else 0
        below, above = low._replace(high=min(low.high, high.high - step)), high._replace(low=max(high.low, low.low + step))
        return None if below.low > below.high or above.low > above.high else self._also(tree, known, ((less, below), (more, above)))

    def _assume_equality(self, tree: FactTree, node: Node, is_equal: bool, known: Known) -> Known | None:
        left, right = node.operands
        before, behind = self._range(tree, left, known), self._range(tree, right, known)
        if is_equal:
            return self._also(tree, known, ((left, common(before, behind)), (right, common(before, behind))))
        return self._also(tree, known, ((left, without(before, behind)), (right, without(behind, before))))

    def _also(self, tree: FactTree, known: Known, parts: Iterable[tuple[Node, Range]]) -> Known | None:
        return known.also((self._key(tree, node), found) for node, found in parts if not isinstance(found, Anything))

    def _key(self, tree: FactTree, node: Node) -> str:
        place = (tree.path, node.number)
        if place not in self._keys:
            self._keys[place] = json.dumps(self.rulebook.written(node))
        return self._keys[place]


def constant(node: Node) -> Range:
    """What a constant comes to: its value."""
    if node.name in ("True", "False"):
        return TRUE if node.name == "True" else FALSE
    return value_range(FactType(node.name), node.texts[-1])


def value_range(kind: FactType, text: str) -> Range:
    """The one value that a text spells."""
    if kind.name == "Boolean":
        return TRUE if text == "true" else FALSE
    if kind.name == "Enum":
        return Options(frozenset({text}))
    if kind.name == "Text":
        return Anything()
    value = number_of(kind.name, text)
    return Span(kind.name, value, value)


def reached(table: Table, asked: Span) -> list[int]:
    """The numbers of the rows that what is asked for can reach, and 0 where it can be below the first.

    >>> reached(Table("t", FactType("Int"), FactType("Int"), (("1", "5"), ("3", "6"), ("4", "7")), "0", ""), Span("Int", 0, 3))
    [0, 1, 2]
    """
    keys = [number_of(table.keys.name, key) for key, _ in table.rows]
    starts, ends = [asked.low, *keys], [*keys, asked.high + 1]
    return [row for row, (start, end) in enumerate(zip(starts, ends)) if max(start, asked.low) < min(end, asked.high + 1)]


def _depth(node: Node) -> int:
    return 1 + max((_depth(operand) for operand in node.operands), default=0)
