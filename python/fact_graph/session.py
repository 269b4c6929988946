"""Sessions: answers over a dictionary, and the results that follow from them."""

from __future__ import annotations

import contextlib
import ctypes
import os
import re
import threading
import weakref
from collections.abc import Callable, Iterator
from pathlib import Path
from typing import Any, NamedTuple

from ._answering import answering
from ._held import LeftToParent, as_line, bytes_of, keep_from_children, unsaid
from ._library import OVER, SAID, Fault, last_text, library
from .dictionary import Dictionary, ListedFact, path_of
from .errors import Refused, SessionBusy, SessionClosed, SessionForked, UnknownSlot
from .explanation import Explanation, Missing, Walk
from .values import KINDS, READERS, Answer, Result, Value, text_of, text_of_int

# The library keeps no text of more bytes once it was read.
KEPT = 65_536
# By the verb of a line, how many changes more `undo` can take back where it is answered by ok.
STEPS = dict.fromkeys((b"set", b"clear", b"open", b"add", b"remove", b"override", b"release", b"redo"), 1)
NOTHING_TO_UNDO = "refused 13 NothingToUndo\n"

# The dictionaries that come with the library, by their words, and the words of any that may.
BUILT_IN = tuple(f"{kind} {year}" for kind in ("year", "income") for year in (2023, 2024))
BUILT_IN_WORDS = re.compile(r"(year|income) ([0-9]{4})")


class Watch(NamedTuple):
    """A watch: `changed`, `completed`, `lost` or `raised`, and the slot whose result is watched.

    >>> Watch("completed", "/help")
    Watch(name='completed', slot='/help')
    """

    name: str
    slot: str


class Dropped(NamedTuple):
    """A line of a saved text that isn't kept: `list`, `value` or `override`, and what it names. Of a value that `resume` doesn't
    take, `refused` is what `set` refuses it with.

    >>> Dropped("override", "/people/#2/isAdult")
    Dropped(kind='override', slot='/people/#2/isAdult', refused=None)
    """

    kind: str
    slot: str
    refused: Refused | None = None

    @staticmethod
    def of_line(line: str) -> Dropped:
        """Of a line that a session says.

        >>> print(Dropped.of_line("dropped value /bill refused 7 Limit 2").refused)
        refused 7 Limit 2
        """
        _, kind, slot, *reply = line.split(" ", 3)
        return Dropped(kind, slot, Refused.of_reply(reply[0]) if reply else None)


class Session:  # pylint: disable=too-many-instance-attributes # what its calls are made with is at hand
    """An interview over a dictionary, whose text is given as bytes, or as a str that is encoded as UTF-8.

    >>> session = Session('{"version":"1","facts":[{"path":"/rent","writable":"Dollar"}]}')
    >>> session["/rent"] = 800
    >>> session["/rent"]
    Decimal('800.00')

    A slot is `/rent`, a fact that stands once, or `/people/#2/age`, that of a collection's member. A value is a bool, int,
    Decimal, Fraction, date or str, by the type of its fact, or in any case a str as a script has it: `"2.50"` for an amount.
    What is refused is raised as `Refused`, and changes nothing.

    A session is closed by `close`, at the end of a `with` block, or when nothing refers to it any more. Threads may share
    it: one call is made at a time, and another waits for it. A call from a signal's handler, while one of the same thread hasn't
    ended, raises `SessionBusy`; each call in a forked child raises `SessionForked`. A copy of a session, or one that was pickled,
    is a session of its own, which goes on from the same answers as `load` does.

    With `undo` a session keeps so many changes at most that `undo` can take back, the newest, and forgets those before them; a
    block of `changes` keeps all of its own until it ends. Without it all are kept, 56 bytes and more for each.

    Raises `DictionaryRefused` where the dictionary has a fault.
    """

    source: bytes
    """The dictionary's text as it was given, or as the library says that of one that comes with it."""

    dropped: tuple[Dropped, ...] = ()
    """What `carry` or `resume` didn't keep."""

    fired: tuple[Watch, ...] = ()
    """The watches that fired at the last accepted change that a method other than `line` made, in the order in which they were
    put. Where threads share the session it may be another thread's change."""

    _dictionary: Dictionary | None = None

    def __init__(self, dictionary: bytes | str, *, undo: int | None = None) -> None:
        text = bytes_of(dictionary)
        self._begin(text, lambda graph, _, fault: library().open(text, len(text), graph, fault), undo)

    @classmethod
    def open(cls, source: bytes | str | os.PathLike[str], *, undo: int | None = None) -> Session:
        """A session without answers, over the dictionary in the file at a path, over one that is given as bytes, or over the one
        that comes with the library under these words, as `built_in` has it: a file of such a name is given as a `Path`.

        >>> session = Session.open("screener.json")
        >>> session.missing("/help").slots
        ('/tenure', '/savings', '/people')
        >>> Session.open("year 2023").get("/filingStatus").kind
        'incomplete'
        """
        if isinstance(source, str) and BUILT_IN_WORDS.fullmatch(source):
            return cls.built_in(source, undo=undo)
        return cls(source if isinstance(source, bytes) else Path(source).read_bytes(), undo=undo)

    @classmethod
    def built_in(cls, words: str, *, undo: int | None = None) -> Session:
        """A session without answers over a dictionary that comes with the library, one of `BUILT_IN`.

        Raises `UnknownDictionary` for other words.

        >>> session = Session.built_in("year 2023")
        >>> session["/married"] = session["/fileJointly"] = True
        >>> session["/filingStatus"]
        'marriedFilingJointly'
        """
        session, text = cls.__new__(cls), bytes_of(words)
        session._begin(None, lambda graph, _, fault: library().open_built_in(text, len(text), graph, fault), undo)
        return session

    @classmethod
    def load(cls, dictionary: bytes | str, saved: bytes | str, *, undo: int | None = None) -> Session:
        """A session that goes on from what `save` gave over the same dictionary. Raises `SavedRefused` for another text.

        >>> dictionary = '{"version":"1","facts":[{"path":"/rent","writable":"Dollar"}]}'
        >>> Session.load(dictionary, "saved 1\\nnext 1\\nvalue /rent 800.00\\nend\\n")["/rent"]
        Decimal('800.00')
        """
        session, text, kept = cls.__new__(cls), bytes_of(dictionary), bytes_of(saved)
        session._begin(text, lambda graph, _, fault: library().load(text, len(text), kept, len(kept), graph, fault), undo)
        return session

    @classmethod
    def carry(cls, dictionary: bytes | str, saved: bytes | str, *, undo: int | None = None) -> Session:
        """A session that goes on from what `save` gave over another dictionary, as far as its answers may stand over this
        one; `dropped` has the others. Raises `SavedRefused` for what is no such text.

        >>> dictionary = '{"version":"1","facts":[{"path":"/income","writable":"Dollar"}]}'
        >>> Session.carry(dictionary, "saved 1\\nnext 1\\nvalue /rent 800.00\\nend\\n").dropped
        (Dropped(kind='value', slot='/rent', refused=None),)
        """
        return cls._kept_of(library().carry, dictionary, saved, undo)

    @classmethod
    def resume(cls, dictionary: bytes | str, saved: bytes | str, *, undo: int | None = None) -> Session:
        """A session that goes on from a saved text which came from outside, as from a person's upload: as `carry`, but it takes
        no override, and each value of `dropped` has what `set` refuses it with.

        >>> dictionary = '{"version":"1","facts":[{"path":"/rooms","writable":"Int","limits":[["Max","9"]]}]}'
        >>> [dropped] = Session.resume(dictionary, "saved 1\\nnext 1\\nvalue /rooms 12\\nend\\n").dropped
        >>> print(dropped.slot, dropped.refused)
        /rooms refused 7 Limit 1
        """
        return cls._kept_of(library().resume, dictionary, saved, undo)

    @classmethod
    def _kept_of(cls, call: Callable[..., int], dictionary: bytes | str, saved: bytes | str, undo: int | None) -> Session:
        session, text, kept = cls.__new__(cls), bytes_of(dictionary), bytes_of(saved)
        session._begin(text, lambda graph, size, fault: call(text, len(text), kept, len(kept), graph, size, fault), undo)
        return session

    def further(self, *, undo: int | None = None) -> Session:
        """A further session over the same dictionary, without answers. The two share the dictionary and what was made of it, so it is
        there at once; each has its own answers, and may be closed before the other.

        >>> session = Session.open("screener.json")
        >>> session["/bill"] = 900
        >>> other = session.further()
        >>> other["/bill"] is None, session["/bill"]
        (True, Decimal('900.00'))
        """
        session = type(self).__new__(type(self))
        with self._lock:
            self._hold()
            self._is_busy = True
            try:
                # pylint: disable-next=protected-access # of this class itself
                session._start(lambda graph, _, fault: library().further(self._graph, graph, fault, self._back), undo)
            finally:
                self._is_busy = False
        session.source, session._dictionary = self.source, self._dictionary
        session._facts, session._numbers, session._readers = self._facts, self._numbers, self._readers
        return session

    def _begin(self, dictionary: bytes | None, begin: Callable[..., int], undo: int | None) -> None:
        self._start(begin, undo)
        calls = library()
        self.dropped = tuple(map(Dropped.of_line, self._text().decode().splitlines()))
        self.source = self._say_all(calls.dictionary) if dictionary is None else dictionary
        self._facts = {fact.path: fact for fact in map(ListedFact.of_line, self._say_all(calls.facts).decode().splitlines())}
        self._numbers = {path: number for number, path in enumerate(self._facts, 1)}
        self._readers = {path: READERS[fact.type.name] for path, fact in self._facts.items()}

    def _start(self, begin: Callable[..., int], undo: int | None) -> None:
        if undo is not None and undo < 0:
            raise ValueError(f"undo is how many changes are kept, from 0 on, and no {undo}")
        calls, graph, size, fault = library(), ctypes.c_void_p(), ctypes.c_size_t(), Fault()
        # addresses are passed in less time than references
        self._back, self._size_at = ctypes.addressof(graph), ctypes.addressof(size)
        if begin(self._back, self._size_at, ctypes.addressof(fault)):
            raise fault.error()
        self._graph, self._size = graph, size
        self._end = weakref.finalize(self, calls.close, graph)
        self._end.atexit = False  # a daemon thread may be in a call then, and the system takes the memory back
        self._is_open = True
        # (a thread that holds it may come again, from a signal's handler: it is told so and doesn't wait for itself)
        self._lock: Any = threading.RLock()
        self._is_busy = False
        self._undo = undo  # how many it may at most
        self._depth = 0  # how many changes `undo` can take back
        self._step = 0  # how many more it can where the last line made a change, as long as that isn't counted
        self._floor = -1  # how many it leaves within the block of changes that is open
        self._answer = answering(calls, graph, size)
        keep_from_children(self)

    @property
    def dictionary(self) -> Dictionary:
        """What the dictionary's text says of its facts: placeholders, limits, options and descriptions, too.

        >>> Session.open("screener.json").dictionary.facts["/bill"].description
        'The heating bill of a year.'
        """
        if self._dictionary is None:
            self._dictionary = Dictionary.of_json(self.source)
        return self._dictionary

    # ---- changes

    def set(self, slot: str, value: Answer) -> None:
        """Answers a writable fact; `session[slot] = value` does the same.

        >>> session = Session.open("screener.json")
        >>> session.set("/bill", "1240.50")
        >>> session.set("/bill", 6000)
        Traceback (most recent call last):
        fact_graph.errors.Refused: refused 7 Limit 2
        """
        self._put("set", slot, value)

    def clear(self, slot: str) -> None:
        """Takes an answer away; `del session[slot]` does the same.

        >>> session = Session.open("screener.json")
        >>> session.set("/bill", 900)
        >>> session.clear("/bill")
        >>> session.get("/bill").kind
        'incomplete'
        """
        self._change("clear " + slot)

    def open_list(self, slot: str) -> None:
        """Opens a collection that has no members yet: that there are none is then an answer.

        >>> session = Session.open("screener.json")
        >>> session.open_list("/people")
        >>> session["/size"]
        0
        """
        self._change("open " + slot)

    def add(self, slot: str) -> int:
        """Adds a member to a collection, which is opened where it isn't. Returns the member's number.

        >>> session = Session.open("screener.json")
        >>> session.add("/people"), session.add("/people")
        (1, 2)
        """
        return int(self._change("add " + slot)[4:])

    def remove(self, slot: str, member: int) -> None:
        """Takes a member out of a collection, with its answers and overrides.

        >>> session = Session.open("screener.json")
        >>> session.remove("/people", session.add("/people"))
        >>> session.members("/people")
        ()
        """
        self._change("remove " + slot + " #" + text_of_int(member))

    def override(self, slot: str, value: Answer) -> None:
        """Gives a derived fact this value, whatever follows for it.

        >>> session = Session.open("screener.json")
        >>> session.override("/size", 3)
        >>> session["/size"]
        3
        """
        self._put("override", slot, value)

    def release(self, slot: str) -> None:
        """Takes an override away.

        >>> session = Session.open("screener.json")
        >>> session.override("/size", 3)
        >>> session.release("/size")
        >>> session["/size"] is None
        True
        """
        self._change("release " + slot)

    def undo(self) -> None:
        """Goes back to the answers before the last change; within a block of `changes` not behind its beginning.

        >>> session = Session.open("screener.json")
        >>> session["/bill"] = 900
        >>> session.undo()
        >>> session["/bill"] is None
        True
        """
        self._change("undo", -1)

    def redo(self) -> None:
        """Goes forth again.

        >>> session = Session.open("screener.json")
        >>> session["/bill"] = 900
        >>> session.undo()
        >>> session.redo()
        >>> session["/bill"]
        Decimal('900.00')
        """
        self._change("redo")

    @contextlib.contextmanager
    def changes(self) -> Iterator[None]:
        """A block whose changes stand together: where it ends by an exception, all of them are undone.

        >>> session = Session.open("screener.json")
        >>> with session.changes():
        ...     session["/bill"] = 900
        ...     session["/tenure"] = "leases"
        Traceback (most recent call last):
        fact_graph.errors.Refused: refused 6 BadValue
        >>> session["/bill"] is None
        True

        Blocks may stand in each other. Within one, `undo` goes back to its beginning and no further. Behind it the changes are
        undone one by one as any others, and those that it undid can be made again by `redo`. Calls of other threads wait until
        the block ends, so a block doesn't wait for them. Where the session was closed or quit within, nothing is undone.
        """
        with self._lock:
            self._hold()
            outer, self._floor = self._floor, self._depth
            try:
                yield
            except BaseException:
                with contextlib.suppress(SessionClosed, SessionForked):
                    self._take_back()
                raise
            finally:
                self._floor = outer
                self._forget()

    # ---- questions

    def get(self, slot: str) -> Result:
        """The result of a fact.

        >>> session = Session.open("screener.json")
        >>> session.get("/bill")
        Result(kind='incomplete', value=None, fault=None)
        >>> session.get("/savings")
        Result(kind='placeholder', value=Decimal('0.00'), fault=None)
        """
        word, _, text = self._ask("get " + slot)[:-1].partition(" ")
        kind = KINDS[word]
        if kind == "complete" or kind == "placeholder":  # pylint: disable=consider-using-in # which tells mypy nothing of the kind
            return Result(kind, self._reader(slot)(text))
        return Result(kind, None, text or None)

    def final(self, slot: str) -> Value | None:
        """The value of a fact that no further answer can change; None where one can, or where there is none yet.

        >>> session = Session.open("screener.json")
        >>> session.final("/savings") is None  # 0.00 stands in for an answer
        True
        >>> session["/savings"] = 0
        >>> session.final("/savings")
        Decimal('0.00')
        """
        word, _, text = self._ask("final " + slot)[:-1].partition(" ")
        return self._reader(slot)(text) if word == "final" else None

    def missing(self, slot: str) -> Missing:
        """The slots whose answers a result still wants, in the order of the dictionary, and the tree of what leads to them.

        >>> session = Session.open("screener.json")
        >>> session.missing("/means").slots
        ('/savings', '/people')
        >>> for slot in session.missing("/size"):
        ...     session.open_list(slot)
        >>> bool(session.missing("/size"))
        False
        """
        with self._lock:  # what other threads change waits
            slots = self._missing(slot)
            return Missing(slots, Walk(self, slot, slots).leading())

    def why(self, slot: str, *, depth: int | None = None) -> Explanation:
        """A result with all that it was worked out from, as a tree: down to answers, or so many levels and no further.

        >>> session = Session.open("screener.json")
        >>> session.open_list("/people")
        >>> print(session.why("/means"))
        /means placeholder 0.00
          /wages final 0.00  # Those of children don't count.
            /adults final []
              /people final []  # Who lives in the home.
          /savings placeholder 0.00 (missing)
        >>> print(session.why("/means", depth=1))
        /means placeholder 0.00
          /wages final 0.00 (reads 1)  # Those of children don't count.
          /savings placeholder 0.00 (missing)
        """
        with self._lock:
            return Walk(self, slot, self._missing(slot)).why(depth)

    def _missing(self, slot: str) -> tuple[str, ...]:
        return tuple(self._ask("missing " + slot).splitlines()[1:])

    def reads(self, slot: str) -> list[str]:
        """The slots that a result itself is worked out from, each once, in the order in which they are first read; `why` goes on from
        each of them.

        A slot with an answer of its own, or with an override, reads none; one that has none reads what its placeholder does.

        >>> session = Session.open("screener.json")
        >>> session.reads("/size"), session.reads("/bill")
        (['/people'], [])
        """
        given = as_line(slot)
        said = self._say_all(library().reads, given, len(given)).decode()
        if said.startswith("refused "):
            raise Refused.of_reply(said)
        return said.splitlines()

    def members(self, slot: str) -> tuple[int, ...]:
        """The numbers of a collection's members, or of those that a Filter finds; none while there is no such list.

        >>> session = Session.open("screener.json")
        >>> session.add("/people")
        1
        >>> session.members("/people"), session.members("/adults")
        ((1,), ())
        """
        value = self.get(slot).value
        return value if isinstance(value, tuple) else ()

    def stamp(self, slot: str) -> int:
        """The number of the last change that touched a slot, or 0. Changes, undo and redo among them, are numbered from 1.

        >>> session = Session.open("screener.json")
        >>> session["/bill"] = 900
        >>> session["/savings"] = 50
        >>> session.stamp("/bill"), session.stamp("/means"), session.stamp("/tenure")
        (1, 2, 0)
        """
        return int(self._ask("stamp " + slot)[6:])

    def touched(self) -> int:
        """How many slots the last change touched, or 0 before the first.

        >>> session = Session.open("screener.json")
        >>> session["/caseNumber"] = "123456789"
        >>> session.touched()  # the number, and whether one may file
        2
        """
        return int(self._ask("touched")[8:])

    def watch(self, name: str, slot: str) -> None:
        """Asks for a place in `fired` when the slot's result moves so: `changed`, `completed`, `lost` or `raised`.

        >>> session = Session.open("screener.json")
        >>> session.watch("completed", "/size")
        >>> session.open_list("/people")
        >>> session.fired
        (Watch(name='completed', slot='/size'),)
        """
        self._ask("watch " + name + " " + slot)

    def unwatch(self, name: str, slot: str) -> None:
        """Ends a watch.

        >>> session = Session.open("screener.json")
        >>> session.watch("completed", "/size")
        >>> session.unwatch("completed", "/size")
        >>> session.open_list("/people")
        >>> session.fired
        ()
        """
        self._ask("unwatch " + name + " " + slot)

    # ---- as a container of slots

    def __getitem__(self, slot: str) -> Value | None:
        """The value of a fact, complete or a placeholder; None where there is none, and `get` says why.

        >>> session = Session.open("screener.json")
        >>> session["/savings"]
        Decimal('0.00')
        >>> session["/nowhere"]
        Traceback (most recent call last):
        fact_graph.errors.UnknownSlot: refused 3 UnknownFact
        """
        return self.get(slot).value

    def __setitem__(self, slot: str, value: Answer) -> None:
        """Answers a writable fact.

        >>> session = Session.open("screener.json")
        >>> session["/tenure"] = "rents"
        """
        self.set(slot, value)

    def __delitem__(self, slot: str) -> None:
        """Takes an answer away.

        >>> session = Session.open("screener.json")
        >>> session["/tenure"] = "rents"
        >>> del session["/tenure"]
        """
        self.clear(slot)

    def __contains__(self, slot: object) -> bool:
        """Whether a slot stands: a fact that stands once, or that of a member who is there.

        >>> session = Session.open("screener.json")
        >>> "/bill" in session, "/nowhere" in session, "/people/#1/born" in session
        (True, False, False)
        """
        if not isinstance(slot, str):
            return False
        try:
            self.get(slot)
        except Refused:
            return False
        return True

    def __iter__(self) -> Iterator[str]:
        """The slots that stand now, in the order of the dictionary, and of a fact in the order of its members.

        >>> session = Session.open("screener.json")
        >>> session.add("/people"), session.add("/people")
        (1, 2)
        >>> [slot for slot in session if slot.endswith("born")]
        ['/people/#1/born', '/people/#2/born']
        """
        slots = []
        for path, fact in self._facts.items():
            if fact.collection is None:
                slots.append(path)
            else:
                slots += [path.replace("*", f"#{member}") for member in self.members(fact.collection)]
        return iter(slots)

    def facts(self) -> dict[str, ListedFact]:
        """The facts of the dictionary by their paths, in its order, as the library lists them: of which kind and type each is.

        >>> facts = Session.open("screener.json").facts()
        >>> facts["/tenure"]
        ListedFact(path='/tenure', is_writable=True, type=FactType(name='Enum', of='tenure'))
        >>> [path for path, fact in facts.items() if not fact.is_writable and fact.type.name == "Dollar"]
        ['/wages', '/means', '/most', '/help']
        """
        return dict(self._facts)

    def description(self, slot: str) -> str:
        """What a fact is, in words for people, by its path or by a slot of it; empty where its dictionary doesn't say it.

        >>> session = Session.open("screener.json")
        >>> session.description("/bill"), session.description("/tenure")
        ('The heating bill of a year.', '')
        """
        number = self._numbers.get(slot) or self._numbers.get(path_of(slot))
        if number is None:
            raise UnknownSlot(3, "UnknownFact")
        return self._say_all(library().description, number).decode()

    # ---- the whole

    def save(self) -> bytes:
        """The answers that stand, as a text for `load` and `carry`.

        >>> session = Session.open("screener.json")
        >>> session["/bill"] = 900
        >>> session.save()
        b'saved 1\\nnext 1\\nvalue /bill 900.00\\nend\\n'
        """
        return self._say_all(library().save)

    def line(self, line: str | bytes) -> str:
        """Answers a line of a script, and returns its reply as the program writes it: all lines of it, with their newlines.

        >>> session = Session.open("screener.json")
        >>> session.line("get /savings")
        'placeholder 0.00\\n'

        A line without a reply, and each one from `quit` on, has an empty text. A refusal is a reply, and isn't raised.
        """
        given = bytes_of(line).removesuffix(b"\n")
        if b"\n" in given:
            raise ValueError("a line of a script has no newline within")
        command = given.removesuffix(b"\r")
        step = -1 if command == b"undo" else STEPS.get(command.partition(b" ")[0], 0)
        return self._say(given, step) or ""

    def close(self) -> None:
        """Ends the session, and frees its memory. All other calls raise `SessionClosed` from then on.

        >>> session = Session.open("screener.json")
        >>> session.close()
        >>> session
        <Session over 19 facts, closed>
        """
        with self._lock:
            self._keep_out()
            self._is_open = False
            self._end()

    def __enter__(self) -> Session:
        with self._lock:
            if not self._is_open:
                raise SessionClosed("the session is closed")
        return self

    def __exit__(self, *raised: object) -> None:
        with contextlib.suppress(SessionForked):
            self.close()

    def __reduce__(self) -> tuple[Callable[..., Session], tuple[type[Session], bytes, bytes, int | None]]:
        return _gone_on, (type(self), self.source, self.save(), self._undo)

    def __repr__(self) -> str:
        return f"<{type(self).__name__} over {len(self._facts)} facts{'' if self._is_open else ', closed'}>"

    # ---- how a line is said

    def _put(self, verb: str, slot: str, value: Answer) -> None:
        # the value is all behind the second blank, so one in the slot would become a part of it
        if " " in slot:
            raise Refused(1, "BadLine")
        self._change(verb + " " + slot + " " + text_of(value))

    def _change(self, line: str, step: int = 1) -> str:
        reply, _, fired = self._ask(line, step).partition("\n")
        self.fired = tuple(Watch(*line.split(" ")[1:]) for line in fired.splitlines()) if fired else ()
        return reply

    def _ask(self, line: str, step: int = 0) -> str:
        """The reply to a command that isn't refused."""
        said = self._say(line if line.isascii() and line[-1] != "\r" else as_line(line), step)
        if said is None:
            raise SessionClosed("the session was quit")
        if said.startswith("refused "):
            raise Refused.of_reply(said)
        return said

    def _say(self, line: str | bytes, step: int = 0) -> str | None:
        """The text of a line, or None where the script is over. The step is that of the changes where it makes one."""
        with self._lock:
            if self._is_busy or self._step or not self._is_open:  # which costs less than a call that finds nothing
                self._hold()
            if step:
                if step < 0 and self._depth == self._floor:
                    return NOTHING_TO_UNDO
                self._size.value, self._step = 0, step  # no text stands to be counted until the call says one
            self._is_busy = True
            try:
                said = self._answer(line)
                if step and isinstance(said, str):
                    self._count(said)
                    if self._undo is not None:
                        self._forget()
            finally:
                self._is_busy = False
        if isinstance(said, str):
            return said
        if said == OVER:
            return None
        raise unsaid(said)

    def _say_all(self, call: Callable[..., int], *given: object) -> bytes:
        """The text of a call that changes nothing, of which the library keeps no memory where it is long."""
        with self._lock:
            self._hold()
            self._is_busy = True
            try:
                how = call(self._graph, *given, self._size_at, self._back)
                if how == SAID:
                    text = self._text()
                    if len(text) > KEPT:
                        library().trim(self._graph, self._back)
                    return text
            finally:
                self._is_busy = False
        raise unsaid(how)

    def _text(self) -> bytes:
        """The text of the last call."""
        return last_text(library(), self._graph, self._size.value)

    def _hold(self) -> None:
        """Makes sure, under the lock, that a call may be made."""
        self._keep_out()
        if not self._is_open:
            raise SessionClosed("the session is closed")
        if self._step:  # the exception of a signal's handler came between the last line and its count
            self._count(self._text().decode())

    def _keep_out(self) -> None:
        """Lets no call begin while one of the same thread hasn't ended."""
        if self._is_busy:
            raise SessionBusy("a call of this thread on the session hasn't ended")

    def _count(self, reply: str) -> None:
        """Counts the change of the last line, where it made one."""
        is_made = reply.startswith("ok")
        # (nothing is called in between, so no handler of a signal comes between the two)
        self._depth, self._step = self._depth + self._step * is_made, 0

    def _forget(self) -> None:
        """Forgets the changes that are more than are to be kept, unless a block is open, which may take back all of its own."""
        if self._undo is not None and self._floor < 0 and self._depth > self._undo and self._is_open:
            library().keep_changes(self._graph, self._undo, self._back)
            self._depth = self._undo

    def _take_back(self) -> None:
        """Undoes all changes of the block that is open."""
        with self._lock:
            self._hold()
            while self._depth > self._floor:
                self.undo()

    def _leave(self) -> None:
        """Leaves the session to the process that this one was forked from."""
        self._end.detach()
        self._undo = None
        self._lock = LeftToParent()

    def _reader(self, slot: str) -> Callable[[str], Value]:
        return self._readers.get(slot) or self._readers[path_of(slot)]


def _gone_on(kind: type[Session], dictionary: bytes, saved: bytes, undo: int | None) -> Session:
    """A copy of a session."""
    return kind.load(dictionary, saved, undo=undo)
