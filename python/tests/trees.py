"""What the trees of `why` and `missing` have to be, by the plain session of tests/oracle, and what those of a session are."""

from __future__ import annotations

import functools
from typing import NamedTuple

from oracle.session import Session as Plain

from fact_graph import Explanation, Session


class Branch(NamedTuple):
    """A slot of a tree: its result as it is shown, what is said of it beside that, and what stands below it."""

    slot: str
    said: str
    notes: tuple[str, ...]
    below: list[Branch]


def due(plain: Plain, slot: str, *, is_missing: bool = False) -> Branch:
    """The tree of all that is read, or where that is asked for the part of it that leads to missing answers."""
    standing = {str(it): it for it in plain.now.slots()}
    missing = set(map(str, plain.now.missing(standing[slot])))
    unfolded: set[str] = set()

    @functools.cache
    def leads(path: str) -> bool:
        return not is_missing or path in missing or any(map(leads, plain.reads(path)))

    def branch(path: str) -> Branch:
        below, is_above = [it for it in plain.reads(path) if leads(it)], path in unfolded
        if below:
            unfolded.add(path)
        notes = {"override": standing[path] in plain.now.answers.overrides, "missing": path in missing, "above": is_above}
        final = plain.line(f"final {path}".encode())[:-1]
        said = final if final != "open" else plain.line(f"get {path}".encode())[:-1]
        return Branch(path, said, tuple(note for note, is_so in notes.items() if is_so), [] if is_above else [*map(branch, below)])

    return branch(slot)


def shape(tree: Explanation) -> Branch:
    """The same of a session's tree."""
    notes = {"override": tree.is_overridden, "missing": tree.is_missing, "above": tree.is_above}
    return Branch(tree.slot, tree.said, tuple(note for note, is_so in notes.items() if is_so), [*map(shape, tree.children)])


def agree(session: Session, plain: Plain, slot: str) -> None:
    """Holds the trees of a slot to what they have to be."""
    why, missing = session.why(slot), session.missing(slot)
    assert shape(why) == due(plain, slot)
    assert shape(missing.tree) == due(plain, slot, is_missing=True)
    slots = [*map(str, plain.now.missing(next(it for it in plain.now.slots() if str(it) == slot)))]
    assert [*missing] == slots and bool(missing) == bool(slots)
    assert {it.slot for it in why if it.is_missing} == {it.slot for it in missing.tree if it.is_missing} == set(slots)
    # only what is missing, or stands further above, has nothing below it
    assert all(it.is_missing or it.is_above for it in missing.tree if not it.children) or not slots
    for tree in (why, missing.tree):
        assert all(it.below == tuple(child.slot for child in it.children) for it in tree if it.children)
