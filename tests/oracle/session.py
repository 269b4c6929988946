"""A session by lines: each answered as `interview run` does."""

from __future__ import annotations

import re
from collections.abc import Callable, Mapping

from .dictionary import Dictionary, Fact, Slot
from .evaluation import Answers, Evaluation, Result
from .values import Value, read

MOST_BYTES_OF_A_LINE = 4_096
MOST_MEMBERS, MOST_WATCHES = 100, 1_000
LAST_MEMBER = 1_000_000
CHANGES = ("set", "clear", "open", "add", "remove", "override", "release", "undo", "redo")


def is_raised(old: Result, new: Result) -> bool:
    """Whether a complete Int or amount is a greater one now."""
    if not (old.value and new.value and old.kind == new.kind == "complete"):
        return False
    return new.value.kind in ("Int", "Dollar") and old.value.number < new.value.number


CHECKS: dict[str, Callable[[str], bool]] = {
    "digits": lambda text: re.fullmatch("[0-9]+", text) is not None,
    "nine-digits": lambda text: re.fullmatch("[0-9]{9}", text) is not None,
    "printable-ascii": lambda text: re.fullmatch("[ -~]*", text) is not None,
    "trimmed": lambda text: not text.startswith(" ") and not text.endswith(" "),
}
WATCHED: dict[str, Callable[[Result, Result], bool]] = {
    "changed": lambda old, new: old != new,
    "completed": lambda old, new: old.kind != "complete" == new.kind,
    "lost": lambda old, new: old.kind == "complete" != new.kind,
    "raised": is_raised,
}
FORMS = [
    re.compile(r"(?P<verb>set|override) (?P<slot>[^ ]*) (?P<text>.*)", re.DOTALL),
    re.compile(r"(?P<verb>remove) (?P<slot>[^ ]*) #(?P<member>[1-9][0-9]{0,6})"),
    re.compile(r"(?P<verb>watch|unwatch) (?P<name>[A-Za-z][A-Za-z0-9_-]{0,63}) (?P<slot>[^ ]*)"),
    re.compile(r"(?P<verb>clear|open|add|release|get|final|stamp|missing) (?P<slot>[^ ]*)"),
    re.compile(r"(?P<verb>undo|redo|touched)"),
]


class Refusal(Exception):
    """A command isn't carried out: a number and a name, with a place where there is one."""


def without(entries: Mapping[Slot, Value], is_gone: Callable[[Slot], bool]) -> dict[Slot, Value]:
    """The entries of the slots that aren't gone."""
    return {slot: value for slot, value in entries.items() if not is_gone(slot)}


class Session:
    """Answers over a dictionary, all that stood before them, and all that were undone."""

    def __init__(self, text: str | bytes) -> None:
        self.dictionary = Dictionary(text)
        self.now = Evaluation(self.dictionary, Answers({}, {}, {}, 1))
        self.history = [self.now.answers]
        self.place = 0
        self.changes = 0
        self.stamps: dict[Slot, int] = {}
        self.watches: list[tuple[str, Slot]] = []
        self.is_over = False

    # ---- lines

    def line(self, line: bytes) -> str:
        """The reply to a line, with all its newlines; nothing where it has none."""
        if self.is_over:
            return ""
        if len(line) > MOST_BYTES_OF_A_LINE:
            return "refused 2 LongLine\n"
        line = line.removesuffix(b"\r")
        if not line or line.startswith(b"#"):
            return ""
        if line == b"quit":
            self.is_over = True
            return ""
        try:
            return "".join(f"{each}\n" for each in self.command(line))
        except Refusal as refusal:
            return f"refused {refusal}\n"

    def command(self, line: bytes) -> list[str]:
        """The lines of the reply to a command."""
        try:
            text = line.decode()
        except UnicodeDecodeError:
            raise Refusal("1 BadLine") from None
        found = next((match for match in (form.fullmatch(text) for form in FORMS) if match), None)
        if not found:
            raise Refusal("1 BadLine")
        words = found.groupdict()
        verb = words["verb"]
        if verb in ("undo", "redo"):
            return ["ok", *self.move(self.beside(verb))]
        if verb == "touched":
            return [f"touched {sum(self.stamps.get(slot) == self.changes for slot in self.now.slots())}"]
        if int(words.get("member", "0")) > LAST_MEMBER:
            raise Refusal("1 BadLine")
        slot = self.standing(words["slot"])
        fact = self.dictionary.facts[slot.path]
        if verb in ("watch", "unwatch"):
            return self.watch(verb, words["name"], slot)
        if verb in CHANGES:
            reply, answers = self.changed(verb, slot, fact, words)
            self.history[self.place + 1 :] = [answers]
            return [reply, *self.move(self.place + 1)]
        return self.question(verb, slot)

    def standing(self, path: str) -> Slot:
        """The slot that a path spells, which stands."""
        slot = self.dictionary.slot_of(path)
        if not slot:
            raise Refusal("1 BadLine")
        fact = self.dictionary.facts.get(slot.path)
        if not fact:
            raise Refusal("3 UnknownFact")
        if slot not in self.now.slots_of(fact):
            raise Refusal("4 NoMember")
        return slot

    def question(self, verb: str, slot: Slot) -> list[str]:
        """What a slot is asked for."""
        result = self.now.result(slot)
        if verb == "get":
            return [str(result)]
        if verb == "final":
            return [f"final {result.value}" if self.is_final(self.now, slot) else "open"]
        if verb == "stamp":
            return [f"stamp {self.stamps.get(slot, 0)}"]
        slots = self.now.missing(slot)
        return [f"missing {len(slots)}", *map(str, slots)]

    def is_final(self, evaluation: Evaluation, slot: Slot) -> bool:
        """Whether no further answer can change the result of a slot."""
        is_sure = slot in evaluation.answers.overrides or self.dictionary.is_steady(slot.path)
        return is_sure and evaluation.result(slot).kind == "complete"

    def watch(self, verb: str, name: str, slot: Slot) -> list[str]:
        """Puts a watch, or takes it out."""
        if name not in WATCHED:
            raise Refusal("16 UnknownWatch")
        if verb == "watch":
            if (name, slot) in self.watches:
                raise Refusal("17 WatchThere")
            if len(self.watches) == MOST_WATCHES:
                raise Refusal("18 WatchesFull")
            self.watches.append((name, slot))
        elif (name, slot) in self.watches:
            self.watches.remove((name, slot))
        else:
            raise Refusal("19 NotWatched")
        return ["ok"]

    # ---- changes

    def changed(self, verb: str, slot: Slot, fact: Fact, words: Mapping[str, str]) -> tuple[str, Answers]:
        """What a command is answered, and the answers to which it leads."""
        if verb in ("open", "add", "remove"):
            return self.listed(verb, fact, int(words.get("member", "0")))
        answers, is_answer = self.now.answers, verb in ("set", "clear")
        if fact.is_writable != is_answer or fact.kind in ("Collection", "Item"):
            raise Refusal("5 WrongKind")
        entries = dict(answers.values if is_answer else answers.overrides)
        if verb in ("set", "override"):
            entries[slot] = self.value_of(fact, words["text"], is_answer)
        elif slot in entries:
            del entries[slot]
        else:
            raise Refusal("11 NotAnswered" if is_answer else "12 NoOverride")
        return "ok", answers._replace(values=entries) if is_answer else answers._replace(overrides=entries)

    def value_of(self, fact: Fact, text: str, is_answer: bool) -> Value:
        """The value of a text, which no limit and no check of an answer refuses."""
        options = self.dictionary.options_of(fact)
        value = read(fact.kind, options, text)
        if not value:
            raise Refusal("6 BadValue")
        limits = list(enumerate(fact.limits, 1)) if is_answer else []
        for place, (name, bound) in limits:
            if name != "Check" and not is_within(value, name, bound):
                raise Refusal(f"7 Limit {place}")
        for place, (name, bound) in limits:
            if name == "Check" and not CHECKS[bound](text):
                raise Refusal(f"8 Check {place}")
        return value

    def listed(self, verb: str, fact: Fact, member: int) -> tuple[str, Answers]:
        """Opens a collection, adds a member, or takes one out."""
        answers = self.now.answers
        members = answers.lists.get(fact.path)
        if verb == "remove" and fact.is_list and member not in (members or ()):
            raise Refusal("4 NoMember")
        if not fact.is_list:
            raise Refusal("5 WrongKind")
        if verb == "add":
            if len(members or ()) == MOST_MEMBERS or answers.next_member > LAST_MEMBER:
                raise Refusal("9 Full")
            lists = {**answers.lists, fact.path: (*(members or ()), answers.next_member)}
            return f"ok #{answers.next_member}", answers._replace(lists=lists, next_member=answers.next_member + 1)
        if verb == "open":
            if members is not None:
                raise Refusal("10 AlreadyOpen")
            return "ok", answers._replace(lists={**answers.lists, fact.path: ()})
        left = tuple(it for it in members or () if it != member)
        values, overrides = (without(entries, lambda slot: slot.member == member) for entries in (answers.values, answers.overrides))
        return "ok", Answers({**answers.lists, fact.path: left}, values, overrides, answers.next_member)

    def beside(self, verb: str) -> int:
        """The place in the history before this one, or behind it."""
        if verb == "undo":
            if not self.place:
                raise Refusal("13 NothingToUndo")
            return self.place - 1
        if self.place + 1 == len(self.history):
            raise Refusal("14 NothingToRedo")
        return self.place + 1

    def move(self, place: int) -> list[str]:
        """Goes to the answers at a place in the history, and says which watches fire."""
        old, new = self.now, Evaluation(self.dictionary, self.history[place])
        self.now, self.place = new, place
        self.changes += 1
        self.stamps |= {slot: self.changes for slot in new.slots() if self.is_touched(slot, old, new)}
        both = set(old.slots()) & set(new.slots())
        fired = [(name, slot) for name, slot in self.watches if slot in both and WATCHED[name](old.result(slot), new.result(slot))]
        return [f"watch {name} {slot}" for name, slot in fired]

    def is_touched(self, slot: Slot, old: Evaluation, new: Evaluation) -> bool:
        """Whether a change touches a slot that stands after it."""
        fact = self.dictionary.facts[slot.path]
        if slot not in old.slots_of(fact) or entry(old.answers, slot) != entry(new.answers, slot):
            return True
        if extends(old.answers, new.answers) and self.is_final(old, slot):
            return False
        for mention in self.dictionary.mentions(fact):
            named = self.dictionary.facts[mention.path]
            for fed in set(old.slots_of(named)) & set(new.slots_of(named)):
                if (not mention.is_same or fed.member == slot.member) and old.result(fed) != new.result(fed):
                    return True
        return False

    # ---- the whole

    def reads(self, path: str) -> list[str]:
        """What the library says of the slots that a slot reads: their paths, or the refusal that `get` has."""
        said = self.line(f"get {path}".encode())
        slot = self.dictionary.slot_of(path)
        if said.startswith("refused ") or slot is None:
            return said.splitlines()
        return [str(it) for it in self.now.reads(slot)]

    def save(self) -> bytes:
        """The answers that stand, as saved text."""
        answers = self.now.answers
        lines = ["saved 1", f"next {answers.next_member}"]
        for fact in self.dictionary.facts.values():
            if fact.path in answers.lists:
                lines.append(" ".join([f"list {fact.path}", *(f"#{member}" for member in answers.lists[fact.path])]))
        for word, entries in (("value", answers.values), ("override", answers.overrides)):
            lines += [f"{word} {slot} {entries[slot]}" for slot in self.now.slots() if slot in entries]
        return "".join(f"{line}\n" for line in [*lines, "end"]).encode()


def is_within(value: Value, name: str, bound: str) -> bool:
    """Whether a Min, a Max or a MaxLength lets a value be."""
    if name == "MaxLength":
        return len(str(value).encode()) <= int(bound)
    limit = read(value.kind, [], bound)
    assert limit
    low, high = (limit, value) if name == "Min" else (value, limit)
    return low.order <= high.order  # type: ignore[operator]  # both of one type


def entry(answers: Answers, slot: Slot) -> object:
    """What was said of a slot itself."""
    return answers.lists.get(slot.path), answers.values.get(slot), answers.overrides.get(slot)


def extends(old: Answers, new: Answers) -> bool:
    """Whether new answers only answer more: the overrides, what was answered, and the open lists are as before."""
    return (
        old.overrides == new.overrides
        and all(new.values.get(slot) == value for slot, value in old.values.items())
        and all(new.lists.get(path) == members for path, members in old.lists.items())
    )
