"""What the package raises."""

from __future__ import annotations

FAULT_NAMES = (
    "TooLong",
    "NotJson",
    "Shape",
    "TooMany",
    "TooDeep",
    "BadPath",
    "DuplicatePath",
    "NoCollection",
    "UnknownPath",
    "WrongPlace",
    "UnknownCheck",
    "IllTyped",
    "BadLimit",
    "Cycle",
)


class FactGraphError(Exception):
    """The base of all that this package raises on its own.

    >>> from fact_graph import Session
    >>> try:
    ...     Session("no dictionary")
    ... except FactGraphError as wrong:
    ...     print(wrong)
    dictionary refused 2 NotJson
    """


class LibraryMissing(FactGraphError, OSError):
    """The C library isn't where it is looked for, or isn't the one of this package.

    >>> raise LibraryMissing("no library of the Fact Graph at /nowhere/libfact_graph.so")
    Traceback (most recent call last):
    fact_graph.errors.LibraryMissing: no library of the Fact Graph at /nowhere/libfact_graph.so
    """


class OutOfMemory(FactGraphError, MemoryError):
    """There was no memory. The session is as before, and the call can be made again.

    >>> issubclass(OutOfMemory, MemoryError)
    True
    """


class SessionClosed(FactGraphError, ValueError):
    """The session was closed, or a line `quit` ended it.

    >>> from fact_graph import Session
    >>> with Session.open("screener.json") as session:
    ...     pass
    >>> session.undo()
    Traceback (most recent call last):
    fact_graph.errors.SessionClosed: the session is closed
    """


class SessionBusy(FactGraphError, RuntimeError):
    """A session was called while a call of the same thread on it hadn't ended: from a signal's handler, or from a finaliser.

    >>> issubclass(SessionBusy, RuntimeError)
    True
    """


class SessionForked(FactGraphError, RuntimeError):
    """A session was called in a process that was forked after the session was made. It belongs to the parent.

    >>> issubclass(SessionForked, RuntimeError)
    True
    """


class DictionaryRefused(FactGraphError):
    """The dictionary has a fault.

    `number` and `name` say which, as in docs/FAULTS.md, and of a newer library's fault the name is `UnknownFault`; `fact` is the
    number of the fact that has it, from 1; `node` is the node of that fact, and `what` the list that is too long, each where the
    fault has one and else None.

    >>> from fact_graph import Session
    >>> Session('{"version":"1","facts":[{"path":"/age","derived":"Int","is":["Dollar","18"]}]}')
    Traceback (most recent call last):
    fact_graph.errors.DictionaryRefused: dictionary refused 12 IllTyped fact 1 node 1
    """

    def __init__(self, number: int, fact: int | None = None, node: int | None = None, what: int | None = None) -> None:
        self.number = number
        self.name = FAULT_NAMES[number - 1] if number <= len(FAULT_NAMES) else "UnknownFault"
        self.fact = fact
        self.node = node
        self.what = what
        super().__init__(number, fact, node, what)

    def __str__(self) -> str:
        places = (("fact", self.fact), ("node", self.node), ("what", self.what))
        return f"dictionary refused {self.number} {self.name}" + "".join(f" {word} {at}" for word, at in places if at is not None)


class UnknownDictionary(FactGraphError, LookupError):
    """No dictionary of these words comes with the library.

    >>> issubclass(UnknownDictionary, LookupError)
    True
    """


class SavedRefused(FactGraphError):
    """The saved text is none of the dictionary's. `line` is its first wrong line, from 1, or 0 for a text that is too long.

    >>> from fact_graph import Session
    >>> Session.load('{"version":"1","facts":[]}', "saved 1\\nnext 1\\nvalue /rent 800.00\\nend\\n")
    Traceback (most recent call last):
    fact_graph.errors.SavedRefused: saved refused line 3
    """

    def __init__(self, line: int) -> None:
        self.line = line
        super().__init__(line)

    def __str__(self) -> str:
        return f"saved refused line {self.line}"


class Refused(FactGraphError):
    """A command is refused, and nothing is changed.

    `number` and `name` say why, as in docs/FAULTS.md; `place` is that of the limit or check in the fact's list, from 1,
    where the value breaks one, at a desk the number of the change that makes an edit stale, or of the party whose change it is, and
    else None.

    >>> from fact_graph import Session
    >>> try:
    ...     Session.open("screener.json").set("/bill", 6000)
    ... except Refused as refused:
    ...     print(refused.number, refused.name, refused.place)
    7 Limit 2
    """

    def __init__(self, number: int, name: str, place: int | None = None) -> None:
        self.number = number
        self.name = name
        self.place = place
        super().__init__(number, name, place)

    def __str__(self) -> str:
        return f"refused {self.number} {self.name}" + ("" if self.place is None else f" {self.place}")

    @staticmethod
    def of_reply(reply: str) -> Refused:
        """Of a reply of a session.

        >>> Refused.of_reply("refused 7 Limit 2").place
        2
        """
        _, number, name, *place = reply.split()
        kind = UnknownSlot if name in UnknownSlot.NAMES else Refused
        return kind(int(number), name, int(place[0]) if place else None)


class UnknownSlot(Refused, KeyError):
    """A command is refused since no such slot stands: the dictionary has no such fact, or the collection no such member.

    >>> from fact_graph import Session
    >>> try:
    ...     Session.open("screener.json")["/people/#3/born"]
    ... except KeyError as refused:
    ...     print(refused)
    refused 4 NoMember
    """

    NAMES = ("UnknownFact", "NoMember")
