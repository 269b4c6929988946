"""What sessions and desks share: the bytes of texts, what is raised where a call has none, and that no call begins in a forked child."""

from __future__ import annotations

import os
import weakref
from typing import NoReturn, Protocol

from ._library import NO_MEMORY
from .errors import FactGraphError, OutOfMemory, SessionForked


class Held(Protocol):  # pylint: disable=too-few-public-methods # one is what is asked of it
    """What holds memory of the library."""

    def _leave(self) -> None:
        """Leaves it to the process that this one was forked from."""


class LeftToParent:
    """The lock of a session or a desk in a forked child, where none of its calls begins."""

    def __enter__(self) -> NoReturn:
        raise SessionForked("the session belongs to the process that this one was forked from: save() it there, and load() the text")

    def __exit__(self, *raised: object) -> None:
        """Is never come to."""


_all: weakref.WeakSet[Held] = weakref.WeakSet()


def keep_from_children(held: Held) -> None:
    """Sees to it that no call of a forked child reaches what is held here."""
    _all.add(held)


def _leave_all() -> None:
    for held in _all:
        held._leave()  # pylint: disable=protected-access # of the package's own classes


os.register_at_fork(after_in_child=_leave_all)


def as_line(text: str | bytes) -> bytes:
    """The bytes of a line, whose last byte 13 is no part of what ends it: one such is dropped."""
    given = bytes_of(text)
    return given + b"\r" if given.endswith(b"\r") else given


def unsaid(how: int) -> FactGraphError:
    """What is raised where a call has no text."""
    if how == NO_MEMORY:
        return OutOfMemory("no memory for the reply")
    return FactGraphError(f"the library ended a call with {how}, of which this package doesn't know")


def bytes_of(text: bytes | bytearray | memoryview | str) -> bytes:
    """The bytes of a text. Half of a character that takes two is no text, and the library refuses what it comes to."""
    if isinstance(text, str):
        try:
            return text.encode()
        except UnicodeEncodeError:
            return text.encode("utf-8", "surrogatepass")
    if isinstance(text, (bytes, bytearray, memoryview)):
        return bytes(text)
    raise TypeError(f"a text is a str or bytes, and no {type(text).__name__}")
