"""Desks: sessions that several parties share, as two spouses, a preparer and a reviewer."""

from __future__ import annotations

import contextlib
import ctypes
import functools
import os
import threading
import weakref
from collections.abc import Callable, Iterator
from pathlib import Path
from typing import Any

from ._answering import answering
from ._held import LeftToParent, as_line, bytes_of, keep_from_children, unsaid
from ._library import OVER, SAID, Fault, last_text, library
from .dictionary import Dictionary, path_of
from .errors import Refused, SessionBusy, SessionClosed, SessionForked
from .session import BUILT_IN_WORDS, KEPT, Session
from .values import KINDS, READERS, Answer, Result, Value, text_of, text_of_int

# A party has one of these numbers.
PARTIES = range(1, 17)


class Desk:  # pylint: disable=too-many-instance-attributes # what its calls are made with is at hand
    """An interview over a dictionary that several parties answer, numbered from 1 to 16.

    >>> desk = Desk.open("screener.json")
    >>> filer, preparer = desk.party(1), desk.party(2)
    >>> filer["/bill"] = 900
    >>> preparer["/bill"] = 950
    Traceback (most recent call last):
    fact_graph.errors.Refused: refused 20 Stale 1
    >>> preparer["/bill"]
    Decimal('900.00')
    >>> preparer["/bill"] = 950

    The parties share the answers, the list of changes and the stamps. What another party changed since a party last looked at it, by
    `get`, `final` or `stamp`, that party can't change, and `undo` and `redo` are for a party's own changes. Watches aren't a desk's.

    A desk is closed, shared by threads, and left to its process as a `Session` is. Raises `DictionaryRefused` where the dictionary has
    a fault.
    """

    def __init__(self, dictionary: bytes | str) -> None:
        text = bytes_of(dictionary)
        self._begin(lambda: Session(text), lambda desk, fault: library().desks.open(text, len(text), desk, fault))

    @classmethod
    def open(cls, source: bytes | str | os.PathLike[str]) -> Desk:
        """A desk without answers, over the dictionary in the file at a path, over one that is given as bytes, or over the one that comes
        with the library under these words.

        >>> Desk.open("screener.json").party(1).missing("/means")
        ('/savings', '/people')
        >>> Desk.open("year 2023").party(1).get("/filingStatus").kind
        'incomplete'
        """
        if isinstance(source, str) and BUILT_IN_WORDS.fullmatch(source):
            return cls.built_in(source)
        return cls(source if isinstance(source, bytes) else Path(source).read_bytes())

    @classmethod
    def built_in(cls, words: str) -> Desk:
        """A desk without answers over a dictionary that comes with the library. Raises `UnknownDictionary` for other words.

        >>> desk = Desk.built_in("year 2023")
        >>> desk.party(1)["/married"] = True
        >>> desk.party(2)["/married"]
        True
        """
        desk, text = cls.__new__(cls), bytes_of(words)
        desk._begin(lambda: Session.built_in(words), lambda at, fault: library().desks.open_built_in(text, len(text), at, fault))
        return desk

    @classmethod
    def load(cls, dictionary: bytes | str, saved: bytes | str) -> Desk:
        """A desk that goes on from what `save` of a desk or of a session gave over the same dictionary. Who gave an answer isn't saved, so
        each party is held to what stands at the start. Raises `SavedRefused` for another text.

        >>> dictionary = '{"version":"1","facts":[{"path":"/rent","writable":"Dollar"}]}'
        >>> Desk.load(dictionary, "saved 1\\nnext 1\\nvalue /rent 800.00\\nend\\n").party(2)["/rent"]
        Decimal('800.00')
        """
        desk, text, kept = cls.__new__(cls), bytes_of(dictionary), bytes_of(saved)
        desk._begin(lambda: Session(text), lambda at, fault: library().desks.load(text, len(text), kept, len(kept), at, fault))
        return desk

    def _begin(self, over_the_same: Callable[[], Session], begin: Callable[..., int]) -> None:
        calls, desk, size, fault = library().desks, ctypes.c_void_p(), ctypes.c_size_t(), Fault()
        self._back, self._size_at = ctypes.addressof(desk), ctypes.addressof(size)
        if begin(self._back, ctypes.addressof(fault)):
            raise fault.error()
        self._desk, self._size = desk, size
        self._end = weakref.finalize(self, calls.close, desk)
        self._end.atexit = False  # a daemon thread may be in a call then, and the system takes the memory back
        self._is_open = True
        self._lock: Any = threading.RLock()
        self._is_busy = False
        self._answer = answering(calls, desk, size)
        self._over_the_same = over_the_same
        keep_from_children(self)

    @functools.cached_property
    def dictionary(self) -> Dictionary:
        """What the dictionary's text says of its facts.

        >>> Desk.open("screener.json").dictionary.facts["/bill"].description
        'The heating bill of a year.'
        """
        with self._over_the_same() as session:
            return session.dictionary

    def party(self, number: int) -> Party:
        """The party of this number, from 1 to 16.

        >>> Desk.open("screener.json").party(3)
        <Party 3 of a Desk>
        """
        if number not in PARTIES:
            raise ValueError(f"a party has a number from 1 to 16, and none is {number}")
        return Party(self, number)

    def line(self, line: str | bytes) -> str:
        """Answers a line of a party, as a script of `interview desk` has it, and returns its reply as the program writes it.

        >>> desk = Desk.open("screener.json")
        >>> desk.line("@1 set /bill 900"), desk.line("@2 clear /bill")
        ('@1 ok\\n', '@2 refused 20 Stale 1\\n')

        A line without a reply, and each one from `quit` of any party on, has an empty text. A refusal is a reply, and isn't raised.
        """
        given = bytes_of(line).removesuffix(b"\n")
        if b"\n" in given:
            raise ValueError("a line of a script has no newline within")
        return self._say(given) or ""

    def save(self) -> bytes:
        """The answers that stand, as a text for `load`, of a desk or of a session.

        >>> desk = Desk.open("screener.json")
        >>> desk.party(1)["/bill"] = 900
        >>> desk.save()
        b'saved 1\\nnext 1\\nvalue /bill 900.00\\nend\\n'
        """
        calls = library().desks
        with self._held():
            how = calls.save(self._desk, self._size_at, self._back)
            if how != SAID:
                raise unsaid(how)
            text = last_text(calls, self._desk, self._size.value)
            if len(text) > KEPT:
                calls.trim(self._desk, self._back)
            return text

    def close(self) -> None:
        """Ends the desk, and frees its memory. All other calls raise `SessionClosed` from then on.

        >>> desk = Desk.open("screener.json")
        >>> desk.close()
        >>> desk.save()
        Traceback (most recent call last):
        fact_graph.errors.SessionClosed: the session is closed
        """
        with self._lock:
            self._keep_out()
            self._is_open = False
            self._end()

    def __enter__(self) -> Desk:
        return self

    def __exit__(self, *raised: object) -> None:
        with contextlib.suppress(SessionForked):
            self.close()

    def __repr__(self) -> str:
        return f"<{type(self).__name__}{'' if self._is_open else ', closed'}>"

    # ---- how a line is said

    @contextlib.contextmanager
    def _held(self) -> Iterator[None]:
        """A call is made on the desk, one at a time."""
        with self._lock:
            self._keep_out()
            if not self._is_open:
                raise SessionClosed("the session is closed")
            self._is_busy = True
            try:
                yield
            finally:
                self._is_busy = False

    def _keep_out(self) -> None:
        """Lets no call begin while one of the same thread hasn't ended."""
        if self._is_busy:
            raise SessionBusy("a call of this thread on the session hasn't ended")

    def _say(self, line: str | bytes) -> str | None:
        """The text of a line, or None where the script is over."""
        with self._held():
            said = self._answer(line)
        if said == OVER:
            return None
        if isinstance(said, int):
            raise unsaid(said)
        return said

    def _leave(self) -> None:
        """Leaves the desk to the process that this one was forked from."""
        self._end.detach()
        self._lock = LeftToParent()


class Party:
    """A party at a desk, with the commands of a session as its calls.

    >>> filer = Desk.open("screener.json").party(1)
    >>> filer["/bill"] = 900
    >>> filer["/bill"]
    Decimal('900.00')
    """

    def __init__(self, desk: Desk, number: int) -> None:
        self.desk = desk
        """The desk."""
        self.number = number
        """The party's number."""
        self._mark = f"@{number} "

    # ---- changes

    def set(self, slot: str, value: Answer) -> None:
        """Answers a writable fact; `party[slot] = value` does the same.

        >>> desk = Desk.open("screener.json")
        >>> desk.party(1).set("/bill", 900)
        >>> desk.party(2).set("/bill", 950)
        Traceback (most recent call last):
        fact_graph.errors.Refused: refused 20 Stale 1
        """
        self._put("set", slot, value)

    def clear(self, slot: str) -> None:
        """Takes an answer away; `del party[slot]` does the same.

        >>> filer = Desk.open("screener.json").party(1)
        >>> filer["/bill"] = 900
        >>> filer.clear("/bill")
        >>> filer["/bill"] is None
        True
        """
        self._ask("clear " + slot)

    def open_list(self, slot: str) -> None:
        """Opens a collection that has no members yet: that there are none is then an answer.

        >>> filer = Desk.open("screener.json").party(1)
        >>> filer.open_list("/people")
        >>> filer["/size"]
        0
        """
        self._ask("open " + slot)

    def add(self, slot: str) -> int:
        """Adds a member to a collection, and returns its number. No change of another party hinders it.

        >>> desk = Desk.open("screener.json")
        >>> desk.party(1).add("/people"), desk.party(2).add("/people")
        (1, 2)
        """
        return int(self._ask("add " + slot)[4:])

    def remove(self, slot: str, member: int) -> None:
        """Takes a member out of a collection, with its answers and overrides, whoever gave them.

        >>> filer = Desk.open("screener.json").party(1)
        >>> filer.remove("/people", filer.add("/people"))
        >>> filer["/people"]
        ()
        """
        self._ask("remove " + slot + " #" + text_of_int(member))

    def override(self, slot: str, value: Answer) -> None:
        """Gives a derived fact this value, whatever follows for it.

        >>> reviewer = Desk.open("screener.json").party(4)
        >>> reviewer.override("/size", 3)
        >>> reviewer["/size"]
        3
        """
        self._put("override", slot, value)

    def release(self, slot: str) -> None:
        """Takes an override away.

        >>> reviewer = Desk.open("screener.json").party(4)
        >>> reviewer.override("/size", 3)
        >>> reviewer.release("/size")
        >>> reviewer["/size"] is None
        True
        """
        self._ask("release " + slot)

    def undo(self) -> None:
        """Goes back to the answers before the last change, where this party made it.

        >>> desk = Desk.open("screener.json")
        >>> desk.party(1)["/bill"] = 900
        >>> desk.party(2).undo()
        Traceback (most recent call last):
        fact_graph.errors.Refused: refused 21 NotYours 1
        >>> desk.party(1).undo()
        """
        self._ask("undo")

    def redo(self) -> None:
        """Goes forth again, where this party made the change.

        >>> filer = Desk.open("screener.json").party(1)
        >>> filer["/bill"] = 900
        >>> filer.undo()
        >>> filer.redo()
        >>> filer["/bill"]
        Decimal('900.00')
        """
        self._ask("redo")

    # ---- questions

    def get(self, slot: str) -> Result:
        """The result of a fact. The party has then looked at it.

        >>> Desk.open("screener.json").party(1).get("/savings")
        Result(kind='placeholder', value=Decimal('0.00'), fault=None)
        """
        word, _, text = self._ask("get " + slot).partition(" ")
        kind = KINDS[word]
        if kind in ("complete", "placeholder"):
            return Result(kind, self._reader(slot)(text))
        return Result(kind, None, text or None)

    def final(self, slot: str) -> Value | None:
        """The value of a fact that no further answer can change; None where one can, or where there is none yet. The party has then looked
        at it.

        >>> desk = Desk.open("screener.json")
        >>> desk.party(1)["/savings"] = 0
        >>> desk.party(2).final("/savings")
        Decimal('0.00')
        """
        word, _, text = self._ask("final " + slot).partition(" ")
        return self._reader(slot)(text) if word == "final" else None

    def missing(self, slot: str) -> tuple[str, ...]:
        """The slots whose answers a result still wants, in the order of the dictionary. It is no look at them.

        >>> Desk.open("screener.json").party(1).missing("/means")
        ('/savings', '/people')
        """
        return tuple(self._ask("missing " + slot).split("\n")[1:])

    def stamp(self, slot: str) -> int:
        """The number of the last change that touched a slot, or 0. The party has then looked at the slot.

        >>> desk = Desk.open("screener.json")
        >>> desk.party(1)["/bill"] = 900
        >>> desk.party(2).stamp("/bill")
        1
        """
        return int(self._ask("stamp " + slot)[6:])

    def touched(self) -> int:
        """How many slots the last change touched, whoever made it, or 0 before the first.

        >>> desk = Desk.open("screener.json")
        >>> desk.party(1)["/caseNumber"] = "123456789"
        >>> desk.party(2).touched()
        2
        """
        return int(self._ask("touched")[8:])

    def __getitem__(self, slot: str) -> Value | None:
        """The value of a fact, complete or a placeholder; None where there is none. The party has then looked at it.

        >>> Desk.open("screener.json").party(1)["/savings"]
        Decimal('0.00')
        """
        return self.get(slot).value

    def __setitem__(self, slot: str, value: Answer) -> None:
        """Answers a writable fact.

        >>> Desk.open("screener.json").party(1)["/tenure"] = "rents"
        """
        self.set(slot, value)

    def __delitem__(self, slot: str) -> None:
        """Takes an answer away.

        >>> filer = Desk.open("screener.json").party(1)
        >>> filer["/tenure"] = "rents"
        >>> del filer["/tenure"]
        """
        self.clear(slot)

    def __repr__(self) -> str:
        return f"<{type(self).__name__} {self.number} of a {type(self.desk).__name__}>"

    # ---- how a line is said

    def _put(self, verb: str, slot: str, value: Answer) -> None:
        # the value is all behind the second blank, so one in the slot would become a part of it
        if " " in slot:
            raise Refused(1, "BadLine")
        self._ask(verb + " " + slot + " " + text_of(value))

    def _ask(self, command: str) -> str:
        """The lines of the reply to a command that isn't refused, without the party's mark."""
        said = self.desk._say(as_line(self._mark + command))  # pylint: disable=protected-access # a party is a part of its desk
        if said is None:
            raise SessionClosed("the session was quit")
        reply = "\n".join(line.removeprefix(self._mark) for line in said[:-1].split("\n"))
        if reply.startswith("refused "):
            raise Refused.of_reply(reply)
        return reply

    def _reader(self, slot: str) -> Callable[[str], Value]:
        facts = self.desk.dictionary.facts
        return READERS[(facts.get(slot) or facts[path_of(slot)]).type.name]
