"""Facts that rest on themselves."""

from __future__ import annotations

from collections import deque
from collections.abc import Iterator

from ..expressions import FactTree
from ..located import Pointer
from ..uses import Uses
from .finding import Finding

MOST_SHOWN = 12


def cycles(trees: list[FactTree], uses: Uses) -> Iterator[Finding]:
    """The row of facts by which a fact rests on itself: for the lowest such fact, then for the lowest that is in no row yet."""
    follows = {path: _mentions(tree, uses) for path, tree in uses.by_path.items()}
    seen: set[str] = set()
    for tree in trees:
        row = [] if tree.path in seen or tree.path not in follows else _row(tree.path, follows)
        if row:
            seen.update(row)
            yield _finding(tree, row, follows, uses)


def _mentions(tree: FactTree, uses: Uses) -> dict[str, Pointer]:
    """The facts that a fact mentions, and where it first does."""
    found: dict[str, Pointer] = {}
    for used in uses.in_fact(tree):
        for target in used.targets:
            found.setdefault(target.path, (*used.node.pointer, 1))
    return found


def _row(start: str, follows: dict[str, dict[str, Pointer]]) -> list[str]:
    """The shortest row of mentions from a fact to itself, or none."""
    before: dict[str, str] = {}
    waiting = deque([start])
    while waiting:
        path = waiting.popleft()
        for mentioned in follows[path]:
            if mentioned == start:
                row = [path]
                while row[-1] != start:
                    row.append(before[row[-1]])
                return row[::-1]
            if mentioned not in before:
                before[mentioned] = path
                waiting.append(mentioned)
    return []


def _finding(tree: FactTree, row: list[str], follows: dict[str, dict[str, Pointer]], uses: Uses) -> Finding:
    pointers = [follows[path][after] for path, after in zip(row, [*row[1:], row[0]])]
    words = [*row, row[0]] if len(row) <= MOST_SHOWN else [*row[:MOST_SHOWN], "..", row[0]]
    if len(row) == 1:
        return Finding("Cycle", pointers[0], f"`{tree.path}` rests on itself", fact=tree.number)
    reason = "each of these facts rests on the next: " + ", ".join(f"`{path}`" for path in words)
    others = tuple(uses.by_path[path].pointer for path in row)
    return Finding("Cycle", pointers[0], reason, "one of them should be a writable fact, or rest on another", tree.number, related=(*pointers, *others))
