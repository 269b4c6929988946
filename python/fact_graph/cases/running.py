"""Cases over the engine: what is given is said to a session, and each due figure is compared with the one that is found."""

from __future__ import annotations

import re
import time
from collections.abc import Iterable, Iterator
from typing import NamedTuple

from ..dictionary import Dictionary, Fact
from ..errors import Refused
from ..session import Session
from ..wording import meant
from .model import Case, CaseError, Entry, Members, Place
from .reading import names_in

STATES = ("complete", "placeholder", "final", "incomplete", "open", "fault")
FAULTS = ("overflow", "zero-divide")
MEMBER = re.compile(r"#[1-9][0-9]*")
FORMS = {
    "Boolean": "`true` or `false`",
    "Int": "a whole number of at most 15 digits, as `1200`",
    "Dollar": "an amount without commas, with two digits of cents or none, as `1240.50`",
    "Rational": "a fraction, as `2/3`",
    "Day": "a day, as `2025-01-31`",
    "Text": "a text of at most 1,000 bytes in one line",
}


class Difference(NamedTuple):
    """A figure that isn't as it is due. `missing` names the answers that it still wants."""

    figure: str
    due: str
    found: str
    place: Place
    missing: tuple[str, ...] = ()


class Outcome(NamedTuple):
    """How a case came out: the figures that differ, or the mistake in the case for which it couldn't be run."""

    case: Case
    differences: tuple[Difference, ...]
    error: CaseError | None
    seconds: float

    @property
    def is_as_due(self) -> bool:
        """Whether the case ran and each of its figures is as it is due."""
        return not self.differences and self.error is None


class Names:
    """The members of a case's collections, by the names that it gives them."""

    def __init__(self, dictionary: Dictionary) -> None:
        self.dictionary = dictionary
        self.numbers: dict[str, dict[str, int]] = {}

    def slot(self, path: str, place: Place) -> str:
        """The slot of a path, as `/people/#1/born` of `/people/ann/born`."""
        fact, name = self.fact(path, place)
        if fact.collection is None:
            return path
        named = self.numbers.get(fact.collection, {})
        if name not in named:
            raise CaseError(place, f"{fact.collection} has no member `{name}`{meant(name, named)}")
        return f"{fact.collection}/#{named[name]}/{path.rsplit('/', 1)[1]}"

    def fact(self, path: str, place: Place) -> tuple[Fact, str]:
        """The fact of a path, and the member's name, which is empty for a fact that stands once."""
        facts = self.dictionary.facts
        parts = path.split("/")
        stated, name = (f"/{parts[1]}/*/{parts[3]}", parts[2]) if len(parts) == 4 else (path, "")
        if stated not in facts or name == "*":
            if stated in facts:
                raise CaseError(place, f"{path} is of each member: write the name of one in place of `*`")
            raise CaseError(place, f"the rules have no fact {stated}{meant(stated, facts)}")
        return facts[stated], name

    def told(self, slot: str) -> str:
        """A slot with its member's name, as `/people/ann/born` of `/people/#1/born`."""
        parts = slot.split("/")
        if len(parts) != 4:
            return slot
        return f"/{parts[1]}/{self.named(f'/{parts[1]}', parts[2])}/{parts[3]}"

    def reply(self, fact: Fact, reply: str) -> str:
        """A reply of the engine in which the members have their names."""
        if fact.type.name not in ("Collection", "Item"):
            return reply
        base = fact.type.of or fact.path
        return MEMBER.sub(lambda found: self.named(base, found[0]), reply)

    def named(self, base: str, member: str) -> str:
        """The name of a member that is given as `#1`."""
        names = (name for name, number in self.numbers.get(base, {}).items() if f"#{number}" == member)
        return next(names, member)


class Runner:
    """Runs cases over a dictionary, in one session, which is taken back to its start behind each case."""

    def __init__(self, text: bytes) -> None:
        self.session = Session(text)
        self.dictionary = self.session.dictionary
        self._written = _Written(text)

    def run(self, cases: Iterable[Case]) -> Iterator[Outcome]:
        """What comes out of each case."""
        return (self.outcome(case) for case in cases)

    def outcome(self, case: Case) -> Outcome:
        """What comes out of a case."""
        begun = time.perf_counter()
        try:
            with self.answered(case) as names:
                found = [self._difference(names, due) for due in case.due]
            differences, error = tuple(it for it in found if it), None
        except CaseError as wrong:
            differences, error = (), wrong
        return Outcome(case, differences, error, time.perf_counter() - begun)

    def answered(self, case: Case) -> Answered:
        """A block in which the session has the answers of the case."""
        return Answered(self.session, case)

    def found(self, names: Names, path: str, place: Place) -> str:
        """The result of a figure, as the engine replies, with the names of members."""
        fact, _ = names.fact(path, place)
        return names.reply(fact, self.session.line(f"get {names.slot(path, place)}")[:-1])

    def _difference(self, names: Names, due: Entry) -> Difference | None:
        slot = names.slot(due.path, due.place)
        fact, _ = names.fact(due.path, due.place)
        state, _, text = due.text.partition(" ") if due.text.split(" ")[0] in STATES else ("complete", "", due.text)
        wanted = f"{state} {self._written.value(fact, text, due.place)}" if state in STATES[:3] else _stateful(state, text, due.place)
        found = self.found(names, due.path, due.place)
        if state in ("final", "open"):
            final = names.reply(fact, self.session.line(f"final {slot}")[:-1])
            if final == wanted:
                return None
            found = final if final != "open" else f"{found}, not final"
        elif found == wanted:
            return None
        missing = tuple(names.told(it) for it in self.session.missing(slot))
        return Difference(due.path, wanted, found, due.place, missing)


class Answered:
    """A block in which a session has the answers of a case, and which undoes them."""

    def __init__(self, session: Session, case: Case) -> None:
        self.session = session
        self.case = case
        self.names = Names(session.dictionary)
        self.changes = 0

    def __enter__(self) -> Names:
        try:
            for said in self.case.given:
                if isinstance(said, Members):
                    self._open(said)
                else:
                    self._say("set", said)
            for said in self.case.overrides:
                self._say("override", said)
        except BaseException:
            self._undo()
            raise
        return self.names

    def __exit__(self, *raised: object) -> None:
        self._undo()

    def _undo(self) -> None:
        for _ in range(self.changes):
            self.session.undo()

    def _open(self, members: Members) -> None:
        fact, _ = self.names.fact(members.path, members.place)
        if fact.type.name != "Collection" or not fact.is_writable:
            raise CaseError(members.place, f"{members.path} is no collection that is answered")
        named = self.names.numbers.setdefault(fact.path, {})
        try:
            if not members.names:
                self.session.open_list(fact.path)
                self.changes += 1
            for name in members.names:
                if name in named:
                    raise CaseError(members.place, f"{members.path} has `{name}` twice")
                named[name] = self.session.add(fact.path)
                self.changes += 1
        except Refused as wrong:
            raise CaseError(members.place, f"{members.path}: {wrong}") from wrong

    def _say(self, verb: str, entry: Entry) -> None:
        fact, _ = self.names.fact(entry.path, entry.place)
        slot = self.names.slot(entry.path, entry.place)
        if verb == "set" and fact.type.name == "Collection" and fact.is_writable:
            raise CaseError(entry.place, f"{entry.path} is a collection: list the names of its members, as [ann, ben]")
        try:
            (self.session.set if verb == "set" else self.session.override)(slot, entry.text)
            self.changes += 1
        except Refused as wrong:
            raise CaseError(entry.place, said_of(wrong, fact, entry, self.session.dictionary)) from wrong


def said_of(wrong: Refused, fact: Fact, entry: Entry, dictionary: Dictionary) -> str:
    """Why the engine refuses an answer of a case, and what would stand there."""
    if wrong.name == "WrongKind":
        belongs = "is answered: put it below `given`" if fact.is_writable else "follows from other facts: put it below `overrides`"
        return f"{entry.path} {belongs}"
    if wrong.name == "BadValue":
        options = dictionary.options.get(fact.type.of or "", ())
        form = f"one of {', '.join(options)}{meant(entry.text, options)}" if options else FORMS[fact.type.name]
        return f"`{entry.text}` is no answer to {entry.path}, which is {form}"
    if wrong.place is not None:
        limit = fact.limits[wrong.place - 1]
        return f"`{entry.text}` is refused for {entry.path}: it breaks {limit.name} {limit.text}"
    return f"{entry.path}: {wrong}"


def _stateful(state: str, text: str, place: Place) -> str:
    """A due state that has no value."""
    if state == "fault":
        if text not in FAULTS:
            raise CaseError(place, f"`{text}` is no fault: {' or '.join(FAULTS)}")
        return f"fault {text}"
    if text:
        raise CaseError(place, f"behind `{state}` stands no value")
    return state


class _Written:
    """Values as the engine prints them: each is answered once in a session of its own, and read again."""

    def __init__(self, text: bytes) -> None:
        self.session = Session(text)
        self.members: dict[str, int] = {}
        self.known: dict[tuple[str, str], str] = {}

    def value(self, fact: Fact, text: str, place: Place) -> str:
        """The value as it is printed."""
        if fact.type.name == "Collection":
            if not text.startswith("[") or not text.endswith("]"):
                raise CaseError(place, f"{fact.path} has members: list their names, as [ann, ben]")
            return f"[{' '.join(names_in(text))}]"
        if fact.type.name == "Item":
            return text
        if (fact.path, text) not in self.known:
            self.known[fact.path, text] = self._read(fact, text, place)
        return self.known[fact.path, text]

    def _read(self, fact: Fact, text: str, place: Place) -> str:
        slot = fact.path
        if fact.collection is not None:
            if fact.collection not in self.members:
                self.members[fact.collection] = self.session.add(fact.collection)
            slot = fact.path.replace("*", f"#{self.members[fact.collection]}")
        try:
            (self.session.set if fact.is_writable else self.session.override)(slot, text)
        except Refused as wrong:
            raise CaseError(place, said_of(wrong, fact, Entry(fact.path, text, place), self.session.dictionary)) from wrong
        return self.session.line(f"get {slot}")[:-1].partition(" ")[2]
