"""Lays text out in lines: what fits stands on one line, and what doesn't is parted at the places that are marked.

The documents are those of Wadler's pretty printer: texts, lines, groups that stand on one line where they fit, and what is
indented.
"""

from __future__ import annotations

from collections.abc import Iterable
from dataclasses import dataclass
from typing import NamedTuple, Union

WIDTH = 100


class Line(NamedTuple):
    """An end of a line; in a group on one line it is this text. Where that is None it always ends the line."""

    flat: str | None


@dataclass(frozen=True)
class Row:
    """Documents one behind the other."""

    parts: tuple[Doc, ...]
    is_parted: bool


@dataclass(frozen=True)
class Group:
    """A document that stands on one line where it fits."""

    inside: Doc
    is_parted: bool


@dataclass(frozen=True)
class Nest:
    """A document whose lines are indented further."""

    depth: int
    inside: Doc
    is_parted: bool


class Remark(NamedTuple):
    """A text at the end of the line on which it stands; the line ends at the next place where it can."""

    text: str


Doc = Union[str, Line, Remark, Row, Group, Nest]

SPACE, EDGE, HARD = Line(" "), Line(""), Line(None)


def _is_parted(doc: Doc) -> bool:
    """Whether a document can't stand on one line."""
    if isinstance(doc, (Row, Group, Nest)):
        return doc.is_parted
    return isinstance(doc, Remark) or doc == HARD


def row(*parts: Doc) -> Row:
    """Documents one behind the other."""
    return Row(parts, any(_is_parted(part) for part in parts))


def group(*parts: Doc) -> Group:
    """Documents on one line where they fit."""
    inside = row(*parts)
    return Group(inside, inside.is_parted)


def nest(*parts: Doc, depth: int = 2) -> Nest:
    """Documents whose lines are indented further."""
    inside = row(*parts)
    return Nest(depth, inside, inside.is_parted)


def laid(doc: Doc, width: int = WIDTH) -> str:
    r"""The text of a document.

    >>> laid(group("= ", nest("a", SPACE, "and b")), 6)
    '= a\n  and b'
    """
    out: list[str] = []
    remarks: list[str] = []
    column = 0
    todo: list[tuple[int, bool, Doc]] = [(0, False, doc)]
    while todo:
        indent, is_flat, it = todo.pop()
        if isinstance(it, str):
            out.append(it)
            column += len(it)
        elif isinstance(it, Remark):
            remarks.append(it.text)
        elif isinstance(it, Line):
            if is_flat and it.flat is not None:
                out.append(it.flat)
                column += len(it.flat)
            else:
                out += [*(f"  {text}" for text in remarks), "\n" + " " * indent]
                remarks.clear()
                column = indent
        elif isinstance(it, Row):
            todo += [(indent, is_flat, part) for part in reversed(it.parts)]
        elif isinstance(it, Nest):
            todo.append((indent + it.depth, is_flat, it.inside))
        else:
            fits = is_flat or not it.is_parted and _fits(width - column, it.inside, todo)
            todo.append((indent, fits, it.inside))
    text = "".join([*out, *(f"  {remark}" for remark in remarks)])
    return "\n".join(line.rstrip(" ") for line in text.split("\n"))


def _fits(room: int, doc: Doc, rest: list[tuple[int, bool, Doc]]) -> bool:
    """Whether a document fits into this room on one line, with what follows it up to where a line can end."""
    todo: list[tuple[bool, Doc]] = [(is_flat, it) for _, is_flat, it in rest]
    todo.append((True, doc))
    while todo and room >= 0:
        is_flat, it = todo.pop()
        if isinstance(it, str):
            room -= len(it)
        elif isinstance(it, Line):
            if not is_flat or it.flat is None:
                return True
            room -= len(it.flat)
        elif isinstance(it, Row):
            todo += [(is_flat, part) for part in reversed(it.parts)]
        elif isinstance(it, (Group, Nest)):
            todo.append((is_flat and not (isinstance(it, Group) and it.is_parted), it.inside))
    return room >= 0


def joined(mark: Doc, docs: Iterable[Doc]) -> Row:
    """Documents with a mark between each two."""
    parts: list[Doc] = []
    for doc in docs:
        parts += [mark, doc] if parts else [doc]
    return row(*parts)
