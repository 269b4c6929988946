"""The C library, by ctypes: found, loaded, and its functions with their types, as crates/fact_graph_c/fact_graph.h has them."""

from __future__ import annotations

import ctypes
import functools
import os
from collections.abc import Callable
from ctypes import c_char_p, c_size_t, c_uint32, c_void_p
from pathlib import Path
from typing import Any, Protocol

from .errors import DictionaryRefused, FactGraphError, LibraryMissing, OutOfMemory, SavedRefused, UnknownDictionary

NAME = "libfact_graph.so"
# By this name the system has a library of this version.
INSTALLED = "libfact_graph.so.1"
VARIABLE = "FACT_GRAPH_LIBRARY"

ABSENT = 2**32 - 1
FAULT_MEMORY = 15
FAULT_SAVED = 16
FAULT_UNKNOWN = 17
SAID = 0
OVER = 1
NO_MEMORY = 2

Call = Callable[..., int]


class Texts(Protocol):
    """What answers lines and hands out their texts: the functions of a session, or those of a desk."""

    @property
    def answer(self) -> Call:
        """Answers a line."""

    @property
    def read(self) -> Call:
        """Copies the text of the last call."""


class Fault(ctypes.Structure):
    """Why no session was opened."""

    _fields_ = [(name, c_uint32) for name in ("number", "fact", "node", "what", "line")]

    def place(self, name: str) -> int | None:
        """The number of this name, or None where the fault has none."""
        number: int = getattr(self, name)
        return None if number == ABSENT else number

    def error(self) -> FactGraphError:
        """What is raised for it."""
        if self.number == FAULT_MEMORY:
            return OutOfMemory("no memory for a session")
        if self.number == FAULT_SAVED:
            return SavedRefused(self.line)
        if self.number == FAULT_UNKNOWN:
            return UnknownDictionary("no dictionary of these words comes with the library")
        return DictionaryRefused(self.number, self.place("fact"), self.place("node"), self.place("what"))


def functions_of(loaded: ctypes.CDLL, prefix: str) -> Callable[..., Any]:
    """What finds a function of the library by its name behind the prefix, and tells ctypes what it gives and takes."""

    def function(name: str, gives: Any, *takes: Any) -> Any:
        found = getattr(loaded, prefix + name)
        found.argtypes, found.restype = takes, gives
        return found

    return function


class Desks:  # pylint: disable=too-many-instance-attributes # a function each
    """The functions of desks."""

    def __init__(self, loaded: ctypes.CDLL) -> None:
        text, desk, at = (c_char_p, c_size_t), c_void_p, c_void_p
        function = functions_of(loaded, "fact_graph_desk_")
        self.open: Call = function("open", c_uint32, *text, at, at)
        self.open_built_in: Call = function("open_built_in", c_uint32, *text, at, at)
        self.load: Call = function("load", c_uint32, *text, *text, at, at)
        self.answer: Call = function("answer", c_uint32, desk, *text, at, at)
        self.save: Call = function("save", c_uint32, desk, at, at)
        self.trim: Callable[..., None] = function("trim", None, desk, at)
        self.read: Call = function("read", c_size_t, desk, c_size_t, at, c_size_t, at)
        self.close: Callable[[c_void_p], None] = function("close", None, desk)


class Library:  # pylint: disable=too-many-instance-attributes # a function each
    """The functions of the library."""

    def __init__(self, loaded: ctypes.CDLL) -> None:
        # a session is a struct of one pointer, which goes as that pointer does; what is written to goes by its address
        text, graph, at = (c_char_p, c_size_t), c_void_p, c_void_p
        function = functions_of(loaded, "fact_graph_")
        self.open: Call = function("open", c_uint32, *text, at, at)
        self.open_built_in: Call = function("open_built_in", c_uint32, *text, at, at)
        self.further: Call = function("further", c_uint32, graph, at, at, at)
        self.load: Call = function("load", c_uint32, *text, *text, at, at)
        self.carry: Call = function("carry", c_uint32, *text, *text, at, at, at)
        self.resume: Call = function("resume", c_uint32, *text, *text, at, at, at)
        self.answer: Call = function("answer", c_uint32, graph, *text, at, at)
        self.save: Call = function("save", c_uint32, graph, at, at)
        self.reads: Call = function("reads", c_uint32, graph, *text, at, at)
        self.dictionary: Call = function("dictionary", c_uint32, graph, at, at)
        self.facts: Call = function("facts", c_uint32, graph, at, at)
        self.description: Call = function("description", c_uint32, graph, c_uint32, at, at)
        self.keep_changes: Callable[..., None] = function("keep_changes", None, graph, c_size_t, at)
        self.trim: Callable[..., None] = function("trim", None, graph, at)
        self.read: Call = function("read", c_size_t, graph, c_size_t, at, c_size_t, at)
        self.close: Callable[[c_void_p], None] = function("close", None, graph)
        self.desks = Desks(loaded)


def last_text(calls: Texts, graph: c_void_p, size: int) -> bytes:
    """The text of the last call on a session or a desk, of which the size is known."""
    room = ctypes.create_string_buffer(size + 1)
    calls.read(graph, 0, room, size, ctypes.byref(graph))
    return room.raw[:size]


def place() -> str:
    """Where the library is: as the environment says, else beside the package, else where the system finds it."""
    beside = Path(__file__).with_name(NAME)
    return os.environ.get(VARIABLE) or (str(beside) if beside.is_file() else INSTALLED)


@functools.cache
def library() -> Library:
    """The library, loaded at its first use."""
    try:
        return Library(ctypes.CDLL(place()))
    except (OSError, AttributeError) as wrong:
        raise LibraryMissing(f"no library of the Fact Graph at {place()}: {wrong}; set {VARIABLE} to its path") from wrong
