"""The results of slots, by the rules of nodes, each evaluated from the answers."""

from __future__ import annotations

from collections.abc import Callable, Iterator, Mapping, Sequence
from functools import partial
from typing import NamedTuple

from .dictionary import Dictionary, Expression, Fact, Slot, sure
from .values import FALSE, STRICT, TRUE, Faulty, Value, add, boolean


class Answers(NamedTuple):
    """What was answered: the members of each collection that is open, values, overrides, and the number of the next member."""

    lists: Mapping[str, tuple[int, ...]]
    values: Mapping[Slot, Value]
    overrides: Mapping[Slot, Value]
    next_member: int


class Result(NamedTuple):
    """What a slot comes to: its kind, as `get` names it, with a value, or with the word of a fault."""

    kind: str
    value: Value | None = None
    fault: str = ""

    def __str__(self) -> str:
        return f"{self.kind} {self.fault or self.value}" if self.fault or self.value else self.kind

    @property
    def is_known(self) -> bool:
        """Whether there is a value."""
        return self.value is not None


INCOMPLETE = Result("incomplete")


def complete(value: Value) -> Result:
    """That rests on answers alone."""
    return Result("complete", value)


def down(result: Result) -> Result:
    """The same, resting on a placeholder where it has a value."""
    return Result("placeholder", result.value) if result.is_known else result


def known(value: Value, operands: Sequence[Result]) -> Result:
    """Complete where all of these are."""
    return complete(value) if all(operand.kind == "complete" for operand in operands) else Result("placeholder", value)


def unknown_of(operands: Sequence[Result]) -> Result | None:
    """What an operation comes to that waits for these, where one has no value: an incomplete one comes before a fault."""
    wanting = [operand for operand in operands if not operand.is_known]
    return next((operand for operand in wanting if operand.kind == "incomplete"), wanting[0] if wanting else None)


class Evaluation:
    """The results over some answers."""

    def __init__(self, dictionary: Dictionary, answers: Answers) -> None:
        self.dictionary = dictionary
        self.answers = answers
        self._done: dict[Slot, tuple[Result, list[Slot]]] = {}

    def slots(self) -> Iterator[Slot]:
        """The slots that stand, in order."""
        for fact in self.dictionary.facts.values():
            yield from self.slots_of(fact)

    def slots_of(self, fact: Fact) -> list[Slot]:
        """The slots of a fact that stand."""
        if fact.collection is None:
            return [Slot(fact.path)]
        return [Slot(fact.path, member) for member in self.answers.lists.get(fact.collection, ())]

    def result(self, slot: Slot) -> Result:
        """The result of a slot."""
        return self.evaluated(slot)[0]

    def evaluated(self, slot: Slot) -> tuple[Result, list[Slot]]:
        """The result of a slot, and the slots that its evaluation reads, each as often as it does."""
        if slot not in self._done:
            place = Place(self, slot)
            self._done[slot] = place.result(), place.reads
        return self._done[slot]

    def reads(self, slot: Slot) -> list[Slot]:
        """The slots that the evaluation of a slot itself reads and that stand, each once, in the order in which it first reads them."""
        standing = set(self.slots())
        return [it for it in dict.fromkeys(self.evaluated(slot)[1]) if it in standing]

    def is_answered(self, slot: Slot) -> bool:
        """Whether a writable slot has an answer."""
        return slot.path in self.answers.lists or slot in self.answers.values

    def missing(self, slot: Slot) -> list[Slot]:
        """Of all that the evaluation of a slot reads, by way of others too, the writable slots without an answer."""
        seen: set[Slot] = set()
        ahead = [slot]
        while ahead:
            here = ahead.pop()
            if here not in seen:
                seen.add(here)
                ahead += self.evaluated(here)[1]
        return [it for it in self.slots() if it in seen and self.dictionary.facts[it.path].is_writable and not self.is_answered(it)]


class Place:
    """Where expressions are evaluated: a slot, and while a condition is, the member that is tested."""

    def __init__(self, evaluation: Evaluation, slot: Slot) -> None:
        self.evaluation = evaluation
        self.facts = evaluation.dictionary.facts
        self.slot = slot
        self.fact = self.facts[slot.path]
        self.tested = Slot("")
        self.reads: list[Slot] = []

    def result(self) -> Result:
        """The result of the slot."""
        override = self.evaluation.answers.overrides.get(self.slot)
        if override:
            return complete(override)
        main = self.answer() if self.fact.body is None else self.of(self.fact.body)
        if main == INCOMPLETE and self.fact.placeholder:
            return down(self.of(self.fact.placeholder))
        return main

    def answer(self) -> Result:
        """The answer to a writable slot."""
        answers = self.evaluation.answers
        if self.fact.is_list and self.slot.path in answers.lists:
            return complete(Value("Collection", answers.lists[self.slot.path]))
        value = answers.values.get(self.slot)
        return complete(value) if value else INCOMPLETE

    def read(self, slot: Slot) -> Result:
        """The result of another slot, which is noted as read."""
        self.reads.append(slot)
        return self.evaluation.result(slot)

    def of(self, expression: Expression) -> Result:
        """The result of an expression."""
        name, *operands = expression
        if name in STRICT:
            return self.strict(name, operands)
        if name in NODES:
            return NODES[name](self, *operands)
        return complete(self.constant(name, operands))

    def constant(self, name: str, texts: list[str]) -> Value:
        """The value of a constant."""
        if name in ("True", "False"):
            return boolean(name == "True")
        options = self.evaluation.dictionary.options[texts[0]] if name == "Enum" else []
        return sure(name, options, texts[-1])

    def strict(self, name: str, operands: list[Expression]) -> Result:
        """Of an operation that waits for all its operands."""
        results = [self.of(operand) for operand in operands]
        unknown = unknown_of(results)
        if unknown:
            return unknown
        try:
            return known(STRICT[name]([result.value for result in results if result.value]), results)
        except Faulty as faulty:
            return Result("fault", None, str(faulty))

    def lookup(self, name: str, operand: Expression) -> Result:
        """Of the last row of a table whose key is at most the operand; below them all it is the table's else."""
        result = self.of(operand)
        if not result.value:
            return result
        table, asked = self.evaluation.dictionary.tables[name], result.value.order
        value = table.otherwise
        for key, own in table.rows:
            if key <= asked:  # type: ignore[operator]  # both of one type
                value = own
        return known(value, [result])

    def junction(self, *operands: Expression, deciding: Value) -> Result:
        """Of All, which a false decides, or of Any, which a true does."""
        results = [self.of(operand) for operand in operands]
        if complete(deciding) in results:
            return complete(deciding)
        unknown = unknown_of(results)
        if unknown:
            return unknown
        other = boolean(deciding == FALSE)
        return known(deciding if Result("placeholder", deciding) in results else other, results)

    def switch(self, *cases: Expression) -> Result:
        """Of the first case whose test is true; each placeholder on the way makes it one."""
        is_sure = True
        for _, test, outcome in cases:
            tested = self.of(test)
            if not tested.value:
                return tested
            is_sure = is_sure and tested.kind == "complete"
            if tested.value == TRUE:
                return self.of(outcome) if is_sure else down(self.of(outcome))
        return INCOMPLETE

    def dependency(self, path: str) -> Result:
        """Of the slot that a path reads."""
        if path.startswith("../"):
            first, _, field = path[3:].partition("/")
            item = Slot(f"{self.fact.collection}/*/{first}", self.slot.member)
        elif path.startswith("/"):
            first, _, field = path[1:].partition("/")
            item = Slot(f"/{first}")
        else:
            item, field = Slot(f"{self.tested.path}/*/{path}", self.tested.member), ""
        result = self.read(item)
        if not field or not result.value:
            return result
        assert isinstance(result.value.content, int)
        there = self.read(Slot(f"{self.facts[item.path].of}/*/{field}", result.value.content))
        return there if result.kind == "complete" else down(there)

    def size(self, path: str) -> Result:
        """How many members a collection has."""
        source = self.read(Slot(path))
        return known(Value("Int", len(source.value.members)), [source]) if source.value else source

    def is_complete(self, path: str) -> Result:
        """Whether the slot that a path reads is complete."""
        return complete(boolean(self.dependency(path).kind == "complete"))

    def over_members(self, path: str, *, is_count: bool) -> Result:
        """Of a sum or a count over the members of a collection."""
        listed, _, field = path.partition("/*/")
        source = self.read(Slot(listed))
        if not source.value:
            return source
        fact = self.facts[f"{self.facts[listed].of}/*/{field}"]
        fields = [self.read(Slot(fact.path, member)) for member in source.value.members]
        unknown = unknown_of(fields)
        if unknown:
            return unknown
        values = [result.value for result in fields if result.value]
        try:
            if is_count:
                value = Value("Int", sum(value == TRUE for value in values))
            else:
                value = add(values) if values else Value(fact.kind, 0)
            return known(value, [source, *fields])
        except Faulty as faulty:
            return Result("fault", None, str(faulty))

    def tests(self, path: str, condition: Expression, members: Sequence[int]) -> Iterator[tuple[int, Result]]:
        """For each member in order the result of the condition, which is evaluated as it is asked for."""
        outer = self.tested
        for member in members:
            self.tested = Slot(self.facts[path].of, member)
            tested = self.of(condition)
            self.tested = outer
            yield member, tested

    def filtered(self, path: str, condition: Expression) -> Result:
        """Of the members for whom the condition is true."""
        source = self.read(Slot(path))
        if not source.value:
            return source
        tested = list(self.tests(path, condition, source.value.members))
        results = [result for _, result in tested]
        unknown = unknown_of(results)
        if unknown:
            return unknown
        return known(Value("Collection", tuple(member for member, result in tested if result.value == TRUE)), [source, *results])

    def found(self, path: str, condition: Expression) -> Result:
        """Of the first member for whom the condition is true."""
        source = self.read(Slot(path))
        if not source.value:
            return source
        is_sure = source.kind == "complete"
        for member, tested in self.tests(path, condition, source.value.members):
            if not tested.value:
                return tested
            is_sure = is_sure and tested.kind == "complete"
            if tested.value == TRUE:
                return Result("complete" if is_sure else "placeholder", Value("Item", member))
        return INCOMPLETE


NODES: dict[str, Callable[..., Result]] = {
    "All": partial(Place.junction, deciding=FALSE),
    "Any": partial(Place.junction, deciding=TRUE),
    "Switch": Place.switch,
    "Dependency": Place.dependency,
    "IsComplete": Place.is_complete,
    "CollectionSize": Place.size,
    "CollectionSum": partial(Place.over_members, is_count=False),
    "Count": partial(Place.over_members, is_count=True),
    "Lookup": Place.lookup,
    "Filter": Place.filtered,
    "Find": Place.found,
}
"""By the name of a node, what evaluates it, of those that are neither constants nor wait for all their operands."""
