"""Which fact rests on which, as a picture for Graphviz.

A writable fact is a box and a derived one an ellipse; with a placeholder the line is dashed; a collection has two lines around
it. The facts of a collection's members stand in a frame of their own. An arrow leads from a fact to each that rests on it, and
is dotted where only a placeholder does.

    >>> print(drawn(facts(b'{"version":"1","facts":[{"path":"/a","writable":"Int"},'
    ...                   b'{"path":"/s","derived":"Int","is":["Dependency","/a"]}]}')))
    digraph facts {
      rankdir=LR;
      "/a" [shape=box];
      "/s" [shape=ellipse];
      "/a" -> "/s";
    }
"""

from __future__ import annotations

import json
from collections.abc import Iterable, Iterator
from typing import NamedTuple

from .expressions import FactTree, fact_tree
from .uses import Uses, collection_of, home_of, type_of


class Drawn(NamedTuple):
    """A fact to be drawn: the facts on which it rests, each with whether only its placeholder does."""

    tree: FactTree
    rests_on: dict[str, bool]
    description: str


def facts(text: bytes) -> dict[str, Drawn]:
    """The facts of a dictionary that has no fault, by their paths."""
    stated = json.loads(text)["facts"]
    trees = [fact_tree(number, fact) for number, fact in enumerate(stated, 1)]
    uses = Uses(trees)
    return {tree.path: Drawn(tree, _rests_on(tree, uses), fact.get("description", "")) for tree, fact in zip(trees, stated)}


def _rests_on(tree: FactTree, uses: Uses) -> dict[str, bool]:
    first_assumed = tree.placeholder.number if tree.placeholder else None
    found: dict[str, bool] = {}
    for used in uses.in_fact(tree):
        for target in used.targets:
            found.setdefault(target.path, first_assumed is not None and used.node.number >= first_assumed)
    return found


def figures(among: dict[str, Drawn]) -> list[str]:
    """The derived facts on which no other rests."""
    used = {path for drawn in among.values() for path in drawn.rests_on}
    return [path for path, drawn in among.items() if not drawn.tree.is_writable and path not in used]


def below(among: dict[str, Drawn], paths: Iterable[str]) -> dict[str, Drawn]:
    """The facts on which these rest, and they themselves."""
    waiting, found = list(paths), set()
    while waiting:
        path = waiting.pop()
        if path not in found:
            found.add(path)
            waiting += among[path].rests_on
    return {path: drawn for path, drawn in among.items() if path in found}


def drawn(among: dict[str, Drawn]) -> str:
    """The picture, in the language of Graphviz."""
    return "\n".join(_lines(among))


def _lines(among: dict[str, Drawn]) -> Iterator[str]:
    homes: dict[str | None, list[Drawn]] = {}
    for it in among.values():
        homes.setdefault(home_of(it.tree), []).append(it)
    yield "digraph facts {"
    yield "  rankdir=LR;"
    for home, inside in homes.items():
        if home is None:
            yield from (f"  {_node(it)}" for it in inside)
        else:
            yield f"  subgraph {_quoted(f'cluster_{home[1:]}')} {{"
            yield f"    label={_quoted(f'each of {home}')};"
            yield from (f"    {_node(it)}" for it in inside)
            yield "  }"
    for path, it in among.items():
        for other, is_assumed in it.rests_on.items():
            yield f"  {_quoted(other)} -> {_quoted(path)}{' [style=dotted]' if is_assumed else ''};"
    yield "}"


def _node(it: Drawn) -> str:
    words = ["shape=box" if it.tree.is_writable else "shape=ellipse"]
    if it.tree.placeholder:
        words.append("style=dashed")
    if collection_of(type_of(it.tree)):
        words.append("peripheries=2")
    if it.description:
        words.append(f"tooltip={_quoted(it.description)}")
    return f"{_quoted(it.tree.path)} [{', '.join(words)}];"


def _quoted(text: str) -> str:
    return json.dumps(text, ensure_ascii=False)
