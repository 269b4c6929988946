"""A fault at the place where it stands."""

from __future__ import annotations

import difflib
import json
from collections.abc import Iterable
from typing import Any, NamedTuple

from ..errors import FAULT_NAMES
from ..located import Pointer

NUMBERS = {name: number for number, name in enumerate(FAULT_NAMES, 1)}


class Finding(NamedTuple):
    """A fault of a dictionary: which one, as the engine numbers it, and what is wrong where."""

    name: str
    pointer: Pointer
    """The part of the dictionary that is at fault."""
    reason: str
    """What is wrong with it."""
    hint: str = ""
    """What would be right here, where that can be said."""
    fact: int | None = None
    node: int | None = None
    what: int | None = None
    related: tuple[Pointer, ...] = ()
    """Other parts that the fault rests on, as the fact that an operand names."""
    is_key: bool = False
    """Whether it is the key under which the part stands that is at fault."""

    @property
    def number(self) -> int:
        """The number of the fault."""
        return NUMBERS[self.name]

    @property
    def rank(self) -> tuple[int, int, int]:
        """By which the first fault is the least."""
        return self.number, (self.what if self.fact is None else self.fact) or 0, self.node or 0

    @property
    def line(self) -> str:
        """The fault as the program's line has it, as `12 IllTyped fact 3 node 2`."""
        numbers = (("fact", self.fact), ("node", self.node), ("what", self.what))
        return f"{self.number} {self.name}" + "".join(f" {key} {number}" for key, number in numbers if number is not None)


def nearest(word: str, known: Iterable[str]) -> str | None:
    """The known word that is most like one that isn't, where one is like it.

    >>> nearest("placholder", ["path", "placeholder"])
    'placeholder'
    """
    among = list(known)
    by_case = next((it for it in among if it.lower() == word.lower()), None)
    return by_case or next(iter(difflib.get_close_matches(word, among, 1, 0.6)), None)


def listed(words: Iterable[str], last: str = "or") -> str:
    """Words in a row, as `a, b or c`.

    >>> listed(["a", "b", "c"])
    '`a`, `b` or `c`'
    """
    *before, final = (f"`{word}`" for word in words)
    return f"{', '.join(before)} {last} {final}" if before else final


def shown(value: Any, most: int = 60) -> str:
    """A part of a dictionary as it is written, shortened where it is long.

    >>> shown(["Add", ["Int", "1"]])
    '["Add",["Int","1"]]'
    """
    text = json.dumps(value, ensure_ascii=False, separators=(",", ":"))
    return text if len(text) <= most else f"{text[: most - 2]} …"
