"""The state of a session as the store keeps it: a snapshot, and the lines that were accepted behind it.

The history of a session is cut now and then, so that it doesn't grow without end: a snapshot has the answers that stood at the
cut, and what was done before it can't be undone any more.
"""

from __future__ import annotations

import json
from collections.abc import Iterable, Sequence

from fact_graph import Session

CHANGES = ("set", "clear", "open", "add", "remove")
STEPS = ("undo", "redo")
WATCHING = ("watch", "unwatch")
QUESTIONS = ("get", "final", "missing", "stamp", "touched")

REACH = 1_000
"""At least so many lines stay behind a cut, so that `undo` reaches so far back."""


def verb_of(line: str) -> str:
    """The first word of a line."""
    return line.split(" ", 1)[0]


def cut_of(lines: Sequence[str], reach: int = REACH) -> int:
    """How many of the accepted lines a snapshot may stand for, so that at least `reach` lines stay: those that stay do over the
    snapshot what they did behind all the others. 0 where there is no such cut.

    Undo may not reach back over the cut, and redo may bring nothing back that was undone before it.

    >>> cut_of(["set /a 1", "set /a 2", "set /a 3", "undo"], 1)
    2
    >>> cut_of(["set /a 1", "undo", "redo"], 1)
    0
    """
    places, at, undone = [(0, 0)], 0, 0  # after each line: how far one could undo, and how far redo
    for line in lines:
        verb = verb_of(line)
        if verb in CHANGES:
            at, undone = at + 1, 0
        elif verb in STEPS:
            move = 1 if verb == "redo" else -1
            at, undone = at + move, undone - move
        places.append((at, undone))
    lowest, found = at, 0
    for cut in range(len(lines), 0, -1):
        here, undone = places[cut]
        lowest = min(lowest, here)
        if len(lines) - cut >= reach and here == lowest and undone == 0:
            found = cut
            break
    return found


def watches_of(lines: Iterable[str]) -> list[str]:
    """The lines that put the watches which stand behind the lines.

    >>> watches_of(["watch changed /a", "watch lost /b", "set /a 1", "unwatch changed /a"])
    ['watch lost /b']
    """
    standing: dict[str, str] = {}
    for line in lines:
        if verb_of(line) == "watch":
            standing[line.removeprefix("watch ")] = line
        elif verb_of(line) == "unwatch":
            standing.pop(line.removeprefix("unwatch "), None)
    return list(standing.values())


class Snapshot:
    """The answers and the watches that stand at a place of a history."""

    def __init__(self, saved: str | None, watches: Sequence[str] = ()) -> None:
        self.saved, self.watches = saved, list(watches)

    @classmethod
    def of_bytes(cls, text: bytes) -> Snapshot:
        """Of what `to_bytes` gave."""
        return cls(*json.loads(text))

    def to_bytes(self) -> bytes:
        """The snapshot as the store has it before it is sealed."""
        return json.dumps([self.saved, self.watches]).encode()

    def session(self, dictionary: bytes) -> Session:
        """A session that goes on from here."""
        session = Session(dictionary) if self.saved is None else Session.load(dictionary, self.saved)
        for line in self.watches:
            session.line(line)
        return session

    def behind(self, dictionary: bytes, lines: Sequence[str]) -> Snapshot:
        """The snapshot behind some lines more."""
        with self.session(dictionary) as session:
            for line in lines:
                session.line(line)
            return Snapshot(session.save().decode(), watches_of([*self.watches, *lines]))
