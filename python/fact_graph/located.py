"""JSON that is read with the line and column of each value, so that a fault can be shown where it stands.

    >>> document = read(b'{"version": "1",\\n "facts": []}')
    >>> document.value
    {'version': '1', 'facts': []}
    >>> document.place(("facts",))
    Place(line=2, column=11)
    >>> document.key_place(("facts",))
    Place(line=2, column=2)
    >>> read(b'{"facts": [}')
    Traceback (most recent call last):
    fact_graph.located.NotJson: line 1, column 12: a value belongs here, and `}` stands here

What is JSON here is what the engine takes for it: RFC 8259 in UTF-8, at most 127 brackets deep, with finite numbers.
"""

from __future__ import annotations

import re
from bisect import bisect_right
from functools import cached_property
from json.decoder import JSONDecodeError, scanstring  # type: ignore[attr-defined] # json's own, without types
from math import isfinite
from typing import Any, NamedTuple

MOST_NESTING = 127

Pointer = tuple[str | int, ...]
"""The keys and numbers, from 0, that lead to a part of a value."""

SPACE = re.compile(r"[ \t\n\r]*")
NUMBER = re.compile(r"-?(0|[1-9][0-9]*)(\.[0-9]+)?([eE][+-]?[0-9]+)?")
WORDS = {"null": None, "true": True, "false": False}
SURROGATE = re.compile("[\ud800-\udfff]")


class Place(NamedTuple):
    """A place in a text: its line and its column, from 1. A column counts characters."""

    line: int
    column: int

    def __str__(self) -> str:
        return f"line {self.line}, column {self.column}"


class NotJson(ValueError):
    """A text isn't JSON: where it ceases to be, and why."""

    def __init__(self, place: Place, reason: str) -> None:
        super().__init__(place, reason)
        self.place = place
        self.reason = reason

    def __str__(self) -> str:
        return f"{self.place}: {self.reason}"


class Document:
    """A text of JSON with its value. Where an object has a key twice, the last one counts."""

    def __init__(self, text: str) -> None:
        self.text = text
        self.value: Any = None
        self.repeated: list[tuple[Pointer, Place]] = []
        """The keys that stand in their object a second time, and where."""
        self._values: dict[Pointer, int] = {}
        self._keys: dict[Pointer, int] = {}

    def place(self, pointer: Pointer) -> Place:
        """Where a part begins; of a part that isn't there, where the innermost part around it begins."""
        while pointer not in self._values:
            pointer = pointer[:-1]
        return self.place_at(self._values[pointer])

    def key_place(self, pointer: Pointer) -> Place:
        """Where the key begins under which a part stands."""
        return self.place_at(self._keys[pointer]) if pointer in self._keys else self.place(pointer)

    def place_at(self, at: int) -> Place:
        """The place of the character of this number."""
        line = bisect_right(self._lines, at)
        return Place(line, at - self._lines[line - 1] + 1)

    def line(self, number: int) -> str:
        """The line of this number, without its end."""
        end = self._lines[number] if number < len(self._lines) else None
        return self.text[self._lines[number - 1] : end].rstrip("\r\n")

    @cached_property
    def _lines(self) -> list[int]:
        """The numbers of the characters with which lines begin."""
        return [0, *(found.end() for found in re.finditer(r"\r\n|\n|\r", self.text))]

    def note(self, pointer: Pointer, at: int) -> None:
        """Notes where a part begins."""
        self._values[pointer] = at

    def note_key(self, pointer: Pointer, at: int) -> None:
        """Notes where a key begins."""
        if pointer in self._keys:
            self.repeated.append((pointer, self.place_at(at)))
        self._keys[pointer] = at


def read(text: bytes) -> Document:
    """Reads a text. Raises `NotJson` where it isn't one of JSON."""
    try:
        document = Document(text.decode())
    except UnicodeDecodeError as wrong:
        before = text[: wrong.start].decode()
        place = Document(before).place_at(len(before))
        raise NotJson(place, f"the byte {text[wrong.start]:02x} isn't UTF-8: save the file in that encoding") from wrong
    if document.text.startswith("\ufeff"):
        raise NotJson(Place(1, 1), "a byte-order mark stands before the text: save the file as UTF-8 without one")
    reader = _Reader(document)
    document.value = reader.value((), 0)
    reader.end()
    return document


class _Reader:
    """Reads the values of a document, and notes where they stand."""

    def __init__(self, document: Document) -> None:
        self.document = document
        self.text = document.text
        self.at = 0

    def wrong(self, wanted: str, at: int | None = None) -> NotJson:
        """What is raised where something else is wanted."""
        at = self.at if at is None else at
        found = f"`{self.text[at]}` stands here" if at < len(self.text) else "the text ends here"
        return NotJson(self.document.place_at(at), f"{wanted}, and {found}")

    def skip_space(self) -> None:
        """Goes on to what isn't blank."""
        found = SPACE.match(self.text, self.at)
        assert found  # it matches nothing, too
        self.at = found.end()

    def takes(self, mark: str) -> bool:
        """Whether this mark is next; it is taken then."""
        self.skip_space()
        is_next = self.text.startswith(mark, self.at)
        self.at += is_next
        return is_next

    def end(self) -> None:
        """Expects that nothing follows."""
        self.skip_space()
        if self.at < len(self.text):
            raise self.wrong("nothing belongs behind the last bracket")

    def value(self, pointer: Pointer, depth: int) -> Any:
        """The value that is next."""
        self.skip_space()
        self.document.note(pointer, self.at)
        first = self.text[self.at : self.at + 1]
        if first == '"':
            return self.string()
        if first in ("[", "{") and first:
            if depth == MOST_NESTING:
                raise NotJson(self.document.place_at(self.at), f"brackets stand in each other more than {MOST_NESTING} deep here")
            return self.array(pointer, depth + 1) if first == "[" else self.object(pointer, depth + 1)
        return self.number() if first and first in "-0123456789" else self.word()

    def array(self, pointer: Pointer, depth: int) -> list[Any]:
        """The array that is next."""
        items: list[Any] = []
        self.at += 1
        if self.takes("]"):
            return items
        while True:
            items.append(self.value((*pointer, len(items)), depth))
            if self.takes("]"):
                return items
            self.comma("]")

    def object(self, pointer: Pointer, depth: int) -> dict[str, Any]:
        """The object that is next."""
        members: dict[str, Any] = {}
        self.at += 1
        if self.takes("}"):
            return members
        while True:
            self.skip_space()
            start = self.at
            if not self.text.startswith('"', start):
                raise self.wrong("a key in double quotes belongs here")
            key = self.string()
            self.document.note_key((*pointer, key), start)
            if not self.takes(":"):
                raise self.wrong("a colon belongs behind a key")
            members[key] = self.value((*pointer, key), depth)
            if self.takes("}"):
                return members
            self.comma("}")

    def comma(self, close: str) -> None:
        """Expects a comma, and something behind it."""
        if not self.takes(","):
            raise self.wrong(f"a comma or `{close}` belongs here")
        comma = self.at - 1
        self.skip_space()
        if self.text.startswith(close, self.at):
            raise NotJson(self.document.place_at(comma), f"a comma too many: `{close}` follows it")

    def string(self) -> str:
        """The text in quotes that is next."""
        start = self.at
        try:
            found: str
            found, self.at = scanstring(self.text, start + 1, True)
        except JSONDecodeError as wrong:
            raise self.wrong_string(start, wrong) from wrong
        lone = SURROGATE.search(found)
        if lone:
            raise NotJson(self.document.place_at(start), f"this text has `\\u{ord(lone[0]):04x}`, half of a character, without its other half")
        return found

    def wrong_string(self, start: int, wrong: JSONDecodeError) -> NotJson:
        """What is raised where a text isn't one of JSON."""
        if wrong.msg.startswith("Unterminated"):
            return NotJson(self.document.place_at(start), "a quote is missing: this text has no end")
        place = self.document.place_at(wrong.pos)
        if wrong.msg.startswith("Invalid control character"):
            code = ord(self.text[wrong.pos])
            what = {9: "a tab", 10: "the end of a line", 13: "the end of a line"}.get(code, f"the control character {code}")
            return NotJson(place, f"{what} stands within a text: is a quote missing before it? Else write \\n, \\t or \\u{code:04x}")
        return NotJson(place, "a backslash stands before what it can't stand before: write \\\\ for one backslash")

    def number(self) -> float | int:
        """The number that is next."""
        found = NUMBER.match(self.text, self.at)
        if found is None:
            raise NotJson(self.document.place_at(self.at), "`-` without a number")
        follows = self.text[found.end() : found.end() + 1]
        if follows and (follows.isalnum() or follows in "._+"):
            raise self.wrong("a number ends here", found.end())
        if not isfinite(float(found[0])):
            raise NotJson(self.document.place_at(self.at), f"the number {found[0][:20]} is too large")
        self.at = found.end()
        return float(found[0]) if found[2] or found[3] else int(found[0]) if len(found[0]) < 100 else float(found[0])

    def word(self) -> bool | None:
        """One of the three words of JSON."""
        for word, value in WORDS.items():
            if self.text.startswith(word, self.at):
                self.at += len(word)
                return value
        raise self.wrong_value()

    def wrong_value(self) -> NotJson:
        """What is raised where no value is next."""
        rest = self.text[self.at : self.at + 2]
        if rest.startswith(("//", "/*", "#")):
            return NotJson(self.document.place_at(self.at), "a comment stands here: JSON has none, and a fact has its `description`")
        if rest.startswith("'"):
            return NotJson(self.document.place_at(self.at), "a text stands in single quotes: write double ones")
        return self.wrong("a value belongs here")
