"""A text of rules cut into its items, and its comments.

An item begins at the left edge of a line; what goes on with it is indented. A comment goes from `#` to the end of its line.
"""

from __future__ import annotations

import re
from bisect import bisect_left
from collections.abc import Iterator
from dataclasses import dataclass, field
from typing import NamedTuple

MARKS = re.compile(r'"(?:[^"\\\n]|\\.)*"|`(?:[^`\\\n]|\\.)*`|#[^\r\n]*')
LINE = re.compile(r"[^\n]*\n|[^\n]+")


class Comment(NamedTuple):
    """A comment: where it begins, what it says, and whether its line has nothing else."""

    at: int
    text: str
    is_alone: bool


@dataclass
class Item:
    """An item: where it begins and ends, its comments, and the lines before it, each blank or a comment."""

    start: int
    end: int
    before: list[str]
    comments: list[Comment] = field(default_factory=list)


@dataclass
class Scan:
    """A text with its comments blanked, so that all else stands where it stood, its items, and the lines behind the last."""

    bare: str
    items: list[Item]
    after: list[str]


def scan(text: str) -> Scan:
    r"""Cuts a text into its items.

    >>> found = scan("# a sum\n/s: Int =\n  /a  # the first\n\n/a: Int\n")
    >>> [(found.bare[item.start : item.end], item.before) for item in found.items]
    [('/s: Int =\n  /a             \n', ['# a sum']), ('/a: Int\n', [''])]
    """
    comments = list(_comments(text))
    found = Scan(_without(text, comments), [], [])
    gap: list[re.Match[str]] = []
    for line in LINE.finditer(text):
        content = found.bare[line.start() : line.end()]
        if not content.strip():
            gap.append(line)
            continue
        if content[0] not in " \t\r":
            found.items.append(Item(line.start(), line.end(), _taken(gap, found.items)))
        elif found.items:
            found.items[-1].end = line.end()
        else:
            found.items.append(Item(line.start(), line.end(), _taken(gap, [])))
        gap.clear()
    found.after = _taken(gap, found.items)
    places = [comment.at for comment in comments]
    for item in found.items:
        item.comments = comments[bisect_left(places, item.start) : bisect_left(places, item.end)]
    return found


def _comments(text: str) -> Iterator[Comment]:
    for mark in MARKS.finditer(text):
        if mark[0][0] == "#":
            line = text.rfind("\n", 0, mark.start()) + 1
            yield Comment(mark.start(), mark[0].rstrip(), not text[line : mark.start()].strip())


def _without(text: str, comments: list[Comment]) -> str:
    """The text with blanks where its comments stand."""
    parts, at = [], 0
    for comment in comments:
        parts += [text[at : comment.at], " " * len(comment.text)]
        at = comment.at + len(comment.text)
    return "".join([*parts, text[at:]])


def _taken(gap: list[re.Match[str]], items: list[Item]) -> list[str]:
    """The lines between two items, once the first of them has taken the indented comments that follow it at once."""
    lines = list(gap)
    while items and lines and lines[0][0][0] in " \t" and lines[0][0].strip():
        items[-1].end = lines.pop(0).end()
    return [line[0].strip() for line in lines]
