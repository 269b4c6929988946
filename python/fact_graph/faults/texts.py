"""What is said of each fault, refusal and saved text that is refused, and how to mend it: from texts.toml beside this file."""

from __future__ import annotations

import functools
from importlib.resources import files
from typing import Any, NamedTuple

import tomllib

from ..errors import DictionaryRefused


class Text(NamedTuple):
    """What is said of a fault or a refusal, and how to mend it; either is as docs/FAULTS.md has it, in Markdown."""

    says: str
    mend: str


@functools.cache
def tables() -> dict[str, list[dict[str, Any]]]:
    """The rows of the three tables: `dictionary`, `command` and `saved`."""
    return tomllib.loads(files(__package__).joinpath("texts.toml").read_text("utf-8"))


def text_of_fault(refused: DictionaryRefused) -> Text:
    """What is said of a dictionary's fault.

    >>> text_of_fault(DictionaryRefused(12, 3, 0)).says
    "The fact's type is an enum that isn't declared."
    """
    rows = [row for row in tables()["dictionary"] if row["number"] == refused.number]
    last = {3: " fact 0", 12: " node 0"}.get(refused.number, "")
    is_zero = 0 in (refused.fact, refused.node)
    row = next(row for row in rows if len(rows) == 1 or row["line"].endswith(last) == is_zero)
    return Text(row["says"], row["mend"])


def text_of_refusal(number: int) -> Text:
    """What is said of a command's refusal.

    >>> text_of_refusal(10)
    Text(says='The collection is open.', mend='`add` its members.')
    """
    row = next(row for row in tables()["command"] if row["number"] == number)
    return Text(row["says"], row["mend"])
