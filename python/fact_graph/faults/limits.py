"""Faults of limits: checks that aren't there, and limits that don't fit their fact."""

from __future__ import annotations

from collections.abc import Iterator

from ..constants import MOST_BYTES, misspelt
from ..expressions import FactTree
from ..located import Pointer
from .finding import Finding, listed, nearest
from .types import ORDERED

CHECKS = ("digits", "nine-digits", "printable-ascii", "trimmed")


def limit_faults(trees: list[FactTree]) -> Iterator[Finding]:
    """What is wrong with the limits of all facts."""
    for tree in trees:
        for at, (name, text) in enumerate(tree.limits):
            pointer = (*tree.pointer, "limits", at)
            if name == "Check" and text not in CHECKS:
                like = nearest(text, CHECKS)
                hint = f"`{like}` is like it" if like else f"there are {listed(CHECKS, 'and')}"
                yield Finding("UnknownCheck", (*pointer, 1), f"there is no check `{text}`", hint, tree.number)
            for finding in _limit(tree, at, name, text):
                yield finding._replace(fact=tree.number)


def _limit(tree: FactTree, at: int, name: str, text: str) -> Iterator[Finding]:
    pointer: Pointer = (*tree.pointer, "limits", at)
    stated = (*tree.pointer, "writable")
    earlier = next((it for it, limit in enumerate(tree.limits[:at]) if limit[0] == name), None)
    if earlier is not None and name != "Check":
        yield Finding("BadLimit", pointer, f"{name} stands twice", "one is enough", related=((*tree.pointer, "limits", earlier),))
    if name in ("Min", "Max"):
        if tree.stated not in ORDERED:
            yield Finding("BadLimit", pointer, f"{name} is a limit of an Int, a Dollar, a Rational or a Day, and the fact is {tree.stated}", related=(stated,))
            return
        wrong = misspelt(tree.stated, text)
        if wrong:
            yield Finding("BadLimit", (*pointer, 1), f"`{text}` is no {tree.stated}: {wrong}", related=(stated,))
    elif tree.stated != "Text":
        yield Finding("BadLimit", pointer, f"{name} is a limit of a Text, and the fact is {tree.stated}", related=(stated,))
    elif name == "MaxLength" and (misspelt("Int", text) or not 0 <= int(text) <= MOST_BYTES):
        yield Finding("BadLimit", (*pointer, 1), f"a MaxLength is from 0 to {MOST_BYTES}, and this is `{text}`")
