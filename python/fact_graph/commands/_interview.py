"""An interview at a terminal: which question is next, how it is put, and what an answer means."""

from __future__ import annotations

from collections.abc import Iterator
from typing import NamedTuple

from ..dictionary import Fact, Limit
from ..errors import Refused
from ..faults.texts import text_of_refusal
from ..page import Page
from ..session import Session
from ._slots import slots, values

KINDS = {
    "Boolean": "yes or no",
    "Int": "a whole number",
    "Dollar": "an amount, as 1240.50",
    "Rational": "a fraction, as 1/3",
    "Day": "a day, as 2024-02-29",
    "Text": "",
    "Collection": "how many",
}
YES = ("yes", "y", "true")
NO = ("no", "n", "false")
LIMITS = {"Min": "at least {}", "Max": "at most {}", "MaxLength": "at most {} long"}
CHECKS = {"digits": "digits alone", "nine-digits": "nine digits", "printable-ascii": "plain letters, digits and signs", "trimmed": "no blank first or last"}
MOST_MEMBERS = 100


def words_of_limit(limit: Limit) -> str:
    """What a limit asks for.

    >>> words_of_limit(Limit("Min", "0"))
    'at least 0'
    """
    return CHECKS[limit.text] if limit.name == "Check" else LIMITS[limit.name].format(limit.text)


class Question(NamedTuple):
    """What is asked for: the slot, the words for it, what they mean, how it is answered, and the answers that there are."""

    slot: str
    label: str
    help: str
    kind: str
    answers: tuple[str, ...]


class Figure(NamedTuple):
    """A figure as it is shown: its words, its value, and how far it holds."""

    slot: str
    label: str
    value: str
    state: str


class Interview:
    """A session whose figures are asked for, question by question."""

    def __init__(self, session: Session, page: Page) -> None:
        self.session = session
        self.page = page
        self.skipped: set[str] = set()
        self.changes: list[int] = []
        """How many changes each answer was, so that it can be taken back."""

    def figures(self) -> Iterator[Figure]:
        """The figures, each with its state."""
        for slot in self.asked():
            yield Figure(slot, self.label(slot), *self.shown(slot))

    def asked(self) -> list[str]:
        """The slots of the figures, in the order of the page."""
        order = {path: place for place, path in enumerate(self.page.figures)}
        asked = [(order[fact.path], slot) for slot, fact in slots(self.session) if fact.path in order]
        return [slot for _, slot in sorted(asked, key=lambda it: it[0])]

    def shown(self, slot: str) -> tuple[str, str]:
        """The value of a slot, and how far it holds."""
        word, _, text = self.session.line(f"get {slot}").rstrip("\n").partition(" ")
        if word == "complete" and self.session.final(slot) is not None:
            return text, "final"
        return text, {"placeholder": "estimate", "incomplete": "open"}.get(word, word)

    def missing(self) -> list[str]:
        """The slots that the figures want which aren't final yet, in the order of the figures and of the rules."""
        return list(dict.fromkeys(it for slot in self.asked() if self.session.final(slot) is None for it in self.session.missing(slot)))

    def next(self) -> Question | None:
        """The question that is next, or None where all that are missing were left out."""
        slot = next((it for it in self.missing() if it not in self.skipped), None)
        return self.question(slot) if slot else None

    def question(self, slot: str) -> Question:
        """The question for a slot."""
        fact = self.session.dictionary.fact_at(slot)
        answers = ("yes", "no") if fact.type.name == "Boolean" else values(self.session, fact.type)
        kinds = [", ".join(answers) if fact.type.name == "Enum" else KINDS[fact.type.name]]
        kinds += [words_of_limit(limit) for limit in fact.limits]
        stands_in = self.shown(slot)
        if stands_in[1] == "estimate":
            kinds.append(f"{stands_in[0]} is taken until you answer")
        return Question(slot, self.label(slot), self.page.help(fact), "; ".join(it for it in kinds if it), answers)

    def label(self, slot: str) -> str:
        """The words for a slot, with the member whose it is."""
        parts = slot.split("/")
        if len(parts) != 4:
            return self.page.label(slot)
        collection, number = f"/{parts[1]}", int(parts[2][1:])
        place = self.session.members(collection).index(number) + 1
        return f"{self.page.member(collection)} {place}: {self.page.label(slot)}"

    def answer(self, slot: str, text: str) -> str | None:
        """Takes an answer. Returns what is wrong with it, or None where nothing is."""
        fact = self.session.dictionary.fact_at(slot)
        try:
            if fact.type == ("Collection", None):
                return self.answer_list(slot, text)
            self.session.set(slot, self.meant(fact, text))
            self.changes.append(1)
        except Refused as refused:
            return self.sentence(refused, fact)
        return None

    def answer_list(self, slot: str, text: str) -> str | None:
        """Takes how many members a collection has."""
        if not text.isdecimal() or int(text) > MOST_MEMBERS:
            return f"Please answer with a number from 0 to {MOST_MEMBERS}."
        if int(text) == 0:
            self.session.open_list(slot)
        for _ in range(int(text)):
            self.session.add(slot)
        self.changes.append(max(int(text), 1))
        return None

    def back(self) -> bool:
        """Takes the last answer back. Says whether there was one."""
        if not self.changes:
            return False
        for _ in range(self.changes.pop()):
            self.session.undo()
        self.skipped.clear()
        return True

    @staticmethod
    def meant(fact: Fact, text: str) -> str:
        """The text of the value that a person means."""
        if fact.type.name == "Boolean":
            return "true" if text.lower() in YES else "false" if text.lower() in NO else text
        return text.replace(",", "").removeprefix("$") if fact.type.name == "Dollar" else text

    def sentence(self, refused: Refused, fact: Fact) -> str:
        """What is said of an answer that is refused."""
        if refused.place is not None:
            return f"Please answer with {words_of_limit(fact.limits[refused.place - 1])}."
        kind = ", ".join(values(self.session, fact.type)) if fact.type.name == "Enum" else KINDS.get(fact.type.name, "")
        return f"Please answer with {kind}." if refused.number == 6 and kind else text_of_refusal(refused.number).says
