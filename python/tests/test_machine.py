"""Random commands over random dictionaries: a session by lines, one by calls and the plain one of tests/oracle say the same."""

from __future__ import annotations

import pickle

from hypothesis import strategies as st
from hypothesis.stateful import RuleBasedStateMachine, initialize, invariant, precondition, rule
from oracle.dictionary import Slot
from oracle.evaluation import Evaluation
from oracle.session import Session as Plain
from oracle.session import extends

from fact_graph import Refused, Session

from .calls import reply
from .dictionaries import VALUES, dictionaries
from .trees import agree

FULL = "refused 13 NothingToUndo\n"
PATHS = ("/nowhere", "/c", "/c/#1/f0", "/c/#99/f3", "/d/#2/f1", "f1", "/c/*/f1", "/f1 ", "/c/#0/f1", "/c/#1000001/f1")
LINES = (b"", b"# a note", b"get", b"undo ", b"watch changed", b"remove /c #01", b"\xff", b"set /f0", b"x" * 4_097, b"touched\r", b"get /f0\r\r")


def reads(session: Session, slot: str) -> list[str]:
    """The slots that a slot reads, or the refusal."""
    try:
        return session.reads(slot)
    except Refused as refused:
        return [str(refused)]


class Stop(Exception):
    """What ends a block of changes."""


class Sessions(RuleBasedStateMachine):
    """The three of them, each given the same commands."""

    @initialize(text=dictionaries())
    def begin(self, text: str) -> None:
        """Opens them over a dictionary."""
        self.dictionary = text
        self.plain, self.by_lines, self.by_calls = Plain(text), Session(text), Session(text)

    def teardown(self) -> None:
        if hasattr(self, "plain"):
            self.by_lines.close()
            self.by_calls.close()

    # ---- what is said

    def say(self, line: bytes, due: str | None = None) -> None:
        """Gives all of them a line, and holds their replies together."""
        before = self.plain.now
        due = self.plain.line(line) if due is None else due
        assert self.by_lines.line(line) == due
        assert reply(self.by_calls, line) == due
        self.holds(before, self.plain.now)

    def holds(self, old: Evaluation, new: Evaluation) -> None:
        """What is final stays where more is answered, and so does what waits for answers that aren't among them."""
        if old is new or not extends(old.answers, new.answers):
            return
        for slot in old.slots():
            waits = not any(new.is_answered(missing) for missing in old.missing(slot))
            if waits or self.plain.is_final(old, slot):
                assert old.result(slot) == new.result(slot), f"{slot} moved"

    def slot(self, data: st.DataObject, *words: str) -> str:
        """Mostly the path of a slot that stands, of a fact of one of these types where there are such."""
        slots = [slot for slot in self.plain.now.slots() if not words or self.type_of(slot).startswith(words)]
        return data.draw(st.sampled_from([*map(str, slots)] * 4 + [data.draw(st.sampled_from(PATHS))]), "slot")

    def type_of(self, slot: Slot) -> str:
        """Whether a slot is writable, and the word of its type."""
        fact = self.plain.dictionary.facts[slot.path]
        return f"{'writable' if fact.is_writable else 'derived'} {fact.kind}"

    def value(self, data: st.DataObject, path: str) -> str:
        """Mostly the text of a value of the slot."""
        slot = self.plain.dictionary.slot_of(path)
        fact = self.plain.dictionary.facts.get(slot.path) if slot else None
        kind = f"Enum({fact.of})" if fact and fact.kind == "Enum" else fact.kind if fact else "Text"
        return data.draw(st.sampled_from(VALUES.get(kind, ())[:7] * 3 + (*VALUES.get(kind, ()), "x", "a\tb", "#1", "12345")), "text")

    def command(self, data: st.DataObject) -> bytes:
        """A change."""
        verb = data.draw(st.sampled_from(("set", "set", "set", "set", "add", "override", "clear", "open", "remove", "release", "undo", "redo")), "verb")
        if verb in ("undo", "redo"):
            return verb.encode()
        if verb in ("set", "clear"):
            path = self.slot(data, "writable")
        elif verb in ("override", "release"):
            path = self.slot(data, "derived")
        else:
            path = self.slot(data, "writable Collection")
        if verb in ("set", "override"):
            return f"{verb} {path} {self.value(data, path)}".encode()
        if verb == "remove":
            return f"{verb} {path} #{data.draw(st.integers(1, max(1, self.plain.now.answers.next_member - 1)), 'member')}".encode()
        return f"{verb} {path}".encode()

    # ---- rules

    @rule(data=st.data())
    def change(self, data: st.DataObject) -> None:
        """Any change."""
        self.say(self.command(data))

    @rule(data=st.data())
    def answer(self, data: st.DataObject) -> None:
        """An answer that is missing, where one is."""
        open_slots = [slot for slot in self.plain.now.slots() if self.type_of(slot).startswith("writable") and not self.plain.now.is_answered(slot)]
        if open_slots:
            slot = data.draw(st.sampled_from(open_slots), "slot")
            is_list = self.plain.dictionary.facts[slot.path].is_list
            self.say(f"add {slot}".encode() if is_list else f"set {slot} {self.value(data, str(slot))}".encode())

    @rule(data=st.data(), verb=st.sampled_from(("get", "final", "stamp", "missing")))
    def ask(self, data: st.DataObject, verb: str) -> None:
        """A question."""
        self.say(f"{verb} {self.slot(data)}".encode())

    @rule(data=st.data())
    def why(self, data: st.DataObject) -> None:
        """Which slots a slot reads, and the trees of all that is read for it."""
        slot = self.slot(data)
        assert reads(self.by_lines, slot) == reads(self.by_calls, slot) == self.plain.reads(slot)
        if slot in self.by_calls:
            agree(self.by_calls, self.plain, slot)

    @rule(data=st.data(), verb=st.sampled_from(("watch", "watch", "unwatch")), name=st.sampled_from(("changed", "completed", "lost", "raised", "moved", "")))
    def watch(self, data: st.DataObject, verb: str, name: str) -> None:
        """A watch that is put or taken out."""
        self.say(f"{verb} {name} {self.slot(data)}".encode())

    @rule(line=st.sampled_from(LINES))
    def other(self, line: bytes) -> None:
        """A line that is no command, or hardly one."""
        self.say(line)

    @rule(data=st.data(), count=st.integers(0, 4), is_kept=st.booleans())
    def block(self, data: st.DataObject, count: int, is_kept: bool) -> None:
        """A block of changes, which is kept or undone."""
        floor, before = self.plain.place, self.plain.save()
        try:
            with self.by_lines.changes(), self.by_calls.changes():
                for _ in range(count):
                    line = self.command(data)
                    self.say(line, FULL if line == b"undo" and self.plain.place == floor else None)
                if not is_kept:
                    raise Stop
        except Stop:
            while self.plain.place > floor:
                self.plain.line(b"undo")
            assert self.by_lines.save() == before

    @rule()
    def go_on(self) -> None:
        """Sessions that begin from the answers so far have the same results."""
        saved, slots = self.plain.save(), [f"get {slot}" for slot in self.plain.now.slots()]
        assert self.by_lines.save() == self.by_calls.save() == saved
        results = [self.by_lines.line(get) for get in slots]
        carried = Session.carry(self.dictionary, saved)
        assert not carried.dropped
        for other in (Session.load(self.dictionary, saved), carried, pickle.loads(pickle.dumps(self.by_calls))):
            with other:
                assert other.save() == saved and [other.line(get) for get in slots] == results

    @precondition(lambda self: hasattr(self, "plain"))
    @invariant()
    def agree(self) -> None:
        """Each slot has the same result, and was touched by the same change; the same ones stand."""
        slots = [*map(str, self.plain.now.slots())]
        assert list(self.by_calls) == slots
        for line in ["touched", *(f"{verb} {slot}" for slot in slots for verb in ("get", "final", "stamp", "missing"))]:
            assert self.by_lines.line(line) == self.plain.line(line.encode()), line
        for slot in slots:
            assert self.by_lines.reads(slot) == self.plain.reads(slot), slot


TestSessions = Sessions.TestCase
