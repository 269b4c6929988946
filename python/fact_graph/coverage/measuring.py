"""Which points the cases reach: what the evaluation of their due figures reads, as the engine says what each condition comes to, and for
what a table is read."""

from __future__ import annotations

from collections.abc import Iterable
from contextlib import ExitStack
from typing import NamedTuple

from ..cases import Case, CaseError, Names
from ..cases.running import Answered
from ..errors import DictionaryRefused
from ..rulebook import FactTree, Node, Rulebook, cases_of
from ..session import Session
from ..uses import OVER_FIELDS, WITH_CONDITION, WITH_PATH
from ..values import Result
from .points import CONDITIONS, CONSTANTS, Point, points, sides
from .probes import NoRoom, Pair, Probe, Probes

HAS_VALUE = ("complete", "placeholder")


class Coverage(NamedTuple):
    """The points of each table and fact, and how many cases reach each of them."""

    rulebook: Rulebook
    points: dict[str, list[Point]]
    reached: dict[Point, int]

    def counts(self, path: str | None = None) -> tuple[int, int]:
        """How many points of a fact or a table are reached, and how many it has; of all where none is named."""
        of = self.points[path] if path else [point for found in self.points.values() for point in found]
        return sum(point in self.reached for point in of), len(of)

    @property
    def percent(self) -> float:
        """How many of a hundred points are reached."""
        reached, of = self.counts()
        return 100 * reached / of if of else 100.0


def measure(text: bytes, cases: Iterable[Case]) -> Coverage:
    """The coverage of the cases over a dictionary. A case that can't be run reaches nothing."""
    rulebook = Rulebook(text)
    probes = Probes(rulebook)
    try:
        sessions = [Session(probed) for probed in probes.texts()]
    except DictionaryRefused as wrong:
        raise NoRoom(f"the rules leave no room for what is added to them to measure coverage: {wrong}") from wrong
    coverage = Coverage(rulebook, points(rulebook), {})
    for case in cases:
        try:
            with ExitStack() as answered:
                names = [answered.enter_context(Answered(session, case)) for session in sessions][0]
                reached = Reading(probes, sessions, case, names).reached
        except CaseError:
            continue
        for point in reached:
            coverage.reached[point] = coverage.reached.get(point, 0) + 1
    return coverage


class At(NamedTuple):
    """Where an expression is evaluated: for a member of the collection of its fact, and for one that is tested."""

    home: str | None = None
    tested: str | None = None


class Reading:
    """What the evaluation of the due figures of a case reads: the slots that are `seen`, and the points that are `reached`."""

    def __init__(self, probes: Probes, sessions: list[Session], case: Case, names: Names) -> None:
        self.rulebook, self.probes, self.sessions = probes.rulebook, probes, sessions
        self.reached: set[Point] = set()
        self.seen: set[str] = set()
        self.overridden = {names.slot(entry.path, entry.place) for entry in case.overrides}
        self._waiting = [names.slot(due.path, due.place) for due in case.due]
        while self._waiting:
            slot = self._waiting.pop()
            if slot not in self.seen:
                self.seen.add(slot)
                self._slot(slot)

    def read(self, slot: str) -> Result:
        """The result of a slot, which is to be visited too."""
        self._waiting.append(slot)
        return self.sessions[0].get(slot)

    def _slot(self, slot: str) -> None:
        path, at = _fact_at(slot)
        tree = self.rulebook.trees[path]
        if self.sessions[0].get(slot).kind in HAS_VALUE:
            self.reached.add(Point(path, "result"))
        if slot in self.overridden:
            return
        self._conditional(tree, at)
        if tree.placeholder and self._stands_in(tree, slot, at):
            self.reached.add(Point(path, "placeholder", tree.placeholder.number))
            self.visit(tree, tree.placeholder, at)

    def _conditional(self, tree: FactTree, at: At) -> None:
        if tree.test and tree.value:
            test, value = tree.test, tree.value
            self.visit(tree, test, at)
            said = self.outcome(tree, test, at).value
            if said is True:
                self.reached.add(Point(tree.path, "case", test.number))
                self.visit(tree, value, at)
            if said is not False:
                return
            self.reached.add(Point(tree.path, "otherwise"))
        if tree.main:
            self.visit(tree, tree.main, at)

    def _stands_in(self, tree: FactTree, slot: str, at: At) -> bool:
        """Whether the placeholder stands in for what is missing."""
        if tree.main is None:
            return slot in self.sessions[0].missing(slot)
        return self._probed(self.probes.bodies[tree.path], at.home).kind == "incomplete"

    def visit(self, tree: FactTree, node: Node, at: At) -> None:
        """Visits a node and what its evaluation reads."""
        if node.name == "Switch":
            self._switch(tree, node, at)
        elif node.name in WITH_CONDITION:
            self._choice(tree, node, at)
        elif node.name in WITH_PATH:
            self._use(tree, node, at)
        for operand in node.operands if node.name not in ("Switch", *WITH_CONDITION) else ():
            self.visit(tree, operand, at)
            if node.name in CONDITIONS:
                self._side(tree, operand, self.outcome(tree, operand, at))
            elif node.name == "Lookup":
                self._row(node.texts[0], self.outcome(tree, operand, at))

    def _switch(self, tree: FactTree, node: Node, at: At) -> None:
        for test, value in cases_of(node):
            self.visit(tree, test, at)
            said = self.outcome(tree, test, at).value
            if said is True:
                self.reached.add(Point(tree.path, "case", test.number))
                self.visit(tree, value, at)
            if said is not False:
                return

    def _choice(self, tree: FactTree, node: Node, at: At) -> None:
        test = node.operands[0]
        members = self._members(tree, node, at)
        for member in members:
            self.visit(tree, test, at._replace(tested=member))
            said = self.outcome(tree, test, at._replace(tested=member))
            self._side(tree, test, said)
            if node.name == "Find" and said.value is not False:
                return

    def _side(self, tree: FactTree, node: Node, said: Result) -> None:
        self.reached.update(point for point in sides(tree, node) if said.kind in HAS_VALUE and said.value == point.value)

    def _row(self, name: str, asked: Result) -> None:
        """The row of a table that is read for this."""
        if asked.kind in HAS_VALUE:
            assert asked.value is not None and not isinstance(asked.value, tuple)  # an Int, an amount or a day
            self.reached.add(Point(name, "row", self.rulebook.dictionary.tables[name].row(asked.value)))

    def _members(self, tree: FactTree, node: Node, at: At) -> list[str]:
        """The members of the collection that a node names."""
        result = self.read(self._slots(tree, node, at)[0])
        return [f"#{number}" for number in result.value] if isinstance(result.value, tuple) else []

    def _use(self, tree: FactTree, node: Node, at: At) -> None:
        if node.name in OVER_FIELDS:
            field = self.rulebook.targets(tree, node)[1]
            for member in self._members(tree, node, at):
                self.read(field.replace("*", member))
        else:
            for slot in self._slots(tree, node, at):
                self.read(slot)

    def _slots(self, tree: FactTree, node: Node, at: At) -> list[str]:
        """The slots that a node's path reads, in their order: those behind an item only where the item is there."""
        first, *rest = self.rulebook.targets(tree, node)
        member = at.tested if not node.texts[0].startswith(("/", "../")) else at.home
        slots = [first.replace("*", member or "")]
        for path in rest if node.name not in OVER_FIELDS else ():
            item = self.sessions[0].get(slots[-1]).value
            if item is not None:
                slots.append(path.replace("*", f"#{item}"))
        return slots

    def outcome(self, tree: FactTree, node: Node, at: At) -> Result:
        """What the engine says of a condition, or of what a table is read for."""
        if node.name in CONSTANTS:
            return Result("complete", node.name == "True")
        if node.name == "Dependency":
            slots = self._slots(tree, node, at)
            is_whole = len(slots) == len(self.rulebook.targets(tree, node))
            return self.sessions[0].get(slots[-1]) if is_whole else Result("incomplete")
        place = (tree.path, node.number)
        if place in self.probes.pairs:
            return self._compared(self.probes.pairs[place], at)
        if place in self.probes.turns:
            return self._in_turn(self.probes.results[place], self.probes.turns[place], at)
        return self._probed(self.probes.results[place], at.tested if self.rulebook.over(tree, node) else at.home)

    def _compared(self, pair: Pair, at: At) -> Result:
        """What a condition that compares two members comes to: it is asked when it is the tested one's turn."""
        for value, probe in ((True, pair.holds), (False, pair.fails)):
            session = self.sessions[probe.dictionary]
            session.set(pair.turn.replace("*", at.tested or ""), True)
            found = session.get(probe.path.replace("*", at.home or "")).value
            session.undo()
            if found is not None:
                return Result("complete", value)
        return Result("incomplete")

    def _in_turn(self, probe: Probe, turn: str, at: At) -> Result:
        """What rests on two members comes to, when it is the tested one's turn."""
        session = self.sessions[probe.dictionary]
        session.set(turn.replace("*", at.tested or ""), True)
        found = self._probed(probe, at.home)
        session.undo()
        return found

    def _probed(self, probe: Probe, member: str | None) -> Result:
        return self.sessions[probe.dictionary].get(probe.path.replace("*", member or ""))


def _fact_at(slot: str) -> tuple[str, At]:
    parts = slot.split("/")
    return (f"/{parts[1]}/*/{parts[3]}", At(parts[2])) if len(parts) == 4 else (slot, At())
