"""Probes: facts that are added to a dictionary, one for each condition in it and for each key for which a table is read, so that the
engine itself says what it comes to."""

from __future__ import annotations

import json
from collections.abc import Callable, Iterator
from typing import Any, NamedTuple

from ..errors import FactGraphError
from ..rulebook import FactTree, Node, Rulebook, cases_of, home_of
from ..uses import WITH_PATH
from .points import CONSTANTS, judged

Written = list[Any]
Place = tuple[str, int]
"""The path of a fact, and the number of a node of it."""

MOST_FACTS = 2000
MOST_NODES = 40000


class NoRoom(FactGraphError):
    """The dictionary is so large that no probe finds room beside it."""


class Probe(NamedTuple):
    """A fact that is added: which of the dictionaries has it, and its path."""

    dictionary: int
    path: str


class Pair(NamedTuple):
    """Two probes of a condition on a tested member and the one whose fact it is in. They name the tested member where the
    condition holds, and where it fails. It is the turn of the member whose fact `turn` is answered."""

    holds: Probe
    fails: Probe
    turn: str


class Probes:
    """A dictionary with its probes; where the bounds of a dictionary don't leave room for all, several of them.

    `bodies` are by facts, whose results without their placeholders they are. `results` are by the place of the node whose result they
    are, and so are the `pairs` of conditions that compare two members. `turns` are by the place of a key that rests on two members:
    its result is that of the one whose fact `turn` is answered.
    """

    def __init__(self, rulebook: Rulebook) -> None:
        self.rulebook = rulebook
        self.bodies: dict[str, Probe] = {}
        self.results: dict[Place, Probe] = {}
        self.pairs: dict[Place, Pair] = {}
        self.turns: dict[Place, str] = {}
        self._name = _unused(rulebook)
        turns = [{"path": self._turn(over), "writable": "Boolean"} for over in self._compared()]
        self._dictionaries = _Dictionaries(rulebook, self._name, turns)
        for tree in rulebook.trees.values():
            self._of_fact(tree)

    def texts(self) -> list[bytes]:
        """The dictionaries, as JSON."""
        return self._dictionaries.texts()

    def _compared(self) -> list[str]:
        """The collections of whose members two are compared."""
        probed = ((tree, node) for tree in self.rulebook.trees.values() for node in (*_tests(tree), *(key for _, key in _keys(tree))))
        return sorted({self.rulebook.over(tree, node) or "" for tree, node in probed if compares_members(self.rulebook, tree, node)})

    def _turn(self, collection: str) -> str:
        return f"{collection}/*/{self._name}"

    def _of_fact(self, tree: FactTree) -> None:
        add, home = self._dictionaries.add, home_of(tree)
        if tree.placeholder and tree.main:
            stated = self.rulebook.stated["facts"][tree.number - 1]
            self.bodies[tree.path] = add(home, {key: stated[key] for key in ("derived", "is", "conditional") if key in stated})
        for test in _tests(tree):
            place = (tree.path, test.number)
            if test.name in (*CONSTANTS, "Dependency") or place in self.results or place in self.pairs:
                continue
            over, written = self.rulebook.over(tree, test), self.rulebook.written(test)
            if over and compares_members(self.rulebook, tree, test):
                self.pairs[place] = self._pair(home, over, written)
            else:
                self.results[place] = add(over or home, {"derived": "Boolean", "is": _of_member(written) if over else written})
        for name, key in _keys(tree):
            if key.name != "Dependency":
                self._key(tree, key, self.rulebook.dictionary.tables[name].keys.name)

    def _key(self, tree: FactTree, key: Node, kind: str) -> None:
        """Adds the probe of a key of this type."""
        place, written = (tree.path, key.number), self.rulebook.written(key)
        home, over = home_of(tree), self.rulebook.over(tree, key)
        if over and compares_members(self.rulebook, tree, key):
            self.turns[place] = self._turn(over)
            found = {"derived": f"Item({over})", "is": ["Find", over, ["IsComplete", self._name]]}
            self.results[place] = self._dictionaries.add_behind(home, found, lambda name: {"derived": kind, "is": _of_member(written, f"../{name}/")})
        else:
            self.results[place] = self._dictionaries.add(over or home, {"derived": kind, "is": _of_member(written) if over else written})

    def _pair(self, home: str | None, over: str, written: Written) -> Pair:
        def found(test: Written) -> Probe:
            return self._dictionaries.add(home, {"derived": f"Item({over})", "is": ["Find", over, ["All", ["IsComplete", self._name], test]]})

        return Pair(found(written), found(["Not", written]), self._turn(over))


class _Dictionaries:
    """The dictionaries, as many as it takes, each with the facts of the rules and some more."""

    def __init__(self, rulebook: Rulebook, name: str, first: list[dict[str, Any]]) -> None:
        self.stated = rulebook.stated
        self.name = name
        self.first = first
        nodes = sum(1 for tree in rulebook.trees.values() for _ in tree.nodes())
        self.room = self.left = (MOST_FACTS - len(rulebook.trees) - len(first), MOST_NODES - nodes)
        self.added = [list(first)]
        self.count = 0

    def add(self, home: str | None, stated: dict[str, Any]) -> Probe:
        """Adds a fact, of each member of `home` where that is given."""
        nodes = sum(_count(expression) for expression in (stated["is"], *stated.get("conditional", [])))
        if self.left[0] < 1 or self.left[1] < nodes:
            self.added.append(list(self.first))
            self.left = self.room
            if self.left[0] < 1 or self.left[1] < nodes:
                raise NoRoom(f"to measure coverage, facts are added to the rules: no room is left below {MOST_FACTS} facts and {MOST_NODES} nodes")
        self.left = (self.left[0] - 1, self.left[1] - nodes)
        self.count += 1
        path = f"{home or ''}/{'*/' if home else ''}{self.name}{self.count}"
        self.added[-1].append({"path": path, **stated})
        return Probe(len(self.added) - 1, path)

    def add_behind(self, home: str | None, first: dict[str, Any], behind: Callable[[str], dict[str, Any]]) -> Probe:
        """Adds two facts to one dictionary, the second by the name of the first."""
        rest = behind("")
        if self.left[0] < 2 or self.left[1] < _count(first["is"]) + _count(rest["is"]):
            self.left = (0, 0)  # so that the next one takes the first
        found = self.add(home, first)
        return self.add(home, behind(found.path.rpartition("/")[2]))

    def texts(self) -> list[bytes]:
        """The dictionaries, as JSON."""
        return [json.dumps({**self.stated, "facts": [*self.stated["facts"], *added]}).encode() for added in self.added]


def compares_members(rulebook: Rulebook, tree: FactTree, node: Node) -> bool:
    """Whether a condition on a tested member also asks for facts of the member whose fact it is in."""
    return rulebook.over(tree, node) is not None and any(it.texts[0].startswith("../") for it in node.nodes() if it.name in WITH_PATH)


def _tests(tree: FactTree) -> Iterator[Node]:
    """The conditions of a fact on which it hangs what is evaluated, or of which both sides are to be reached."""
    if tree.test:
        yield tree.test
    for node in tree.nodes():
        if node.name == "Switch":
            yield from (test for test, _ in cases_of(node))
        yield from judged(node)


def _keys(tree: FactTree) -> Iterator[tuple[str, Node]]:
    """The tables that a fact reads, each with what it is read for."""
    for node in tree.nodes():
        if node.name == "Lookup":
            yield node.texts[0], node.operands[0]


def _count(written: Written) -> int:
    """How many nodes an expression has; a Case is none."""
    return int(written[0] != "Case") + sum(_count(part) for part in written[1:] if isinstance(part, list))


def _of_member(written: Written, way: str = "../") -> Written:
    """An expression on a tested member, as it is written in a fact of that member, or in one from which this way leads to it."""
    if written[0] in ("Dependency", "IsComplete"):
        path = written[1]
        return [written[0], path if path.startswith(("/", "../")) else f"{way}{path}"]
    return [_of_member(part, way) if isinstance(part, list) else part for part in written]


def _unused(rulebook: Rulebook) -> str:
    """The beginning of a name that no fact has."""
    name, names = "probe", {part for path in rulebook.trees for part in path.split("/")}
    while any(part.startswith(name) for part in names):
        name += "-"
    return name
