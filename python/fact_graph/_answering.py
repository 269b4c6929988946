"""How the lines of a session, or of a desk, are answered: by the compiled module, where the package was built with it, else by ctypes."""

from __future__ import annotations

import ctypes
import functools
from collections.abc import Callable
from typing import Any

from ._library import SAID, Texts, last_text

try:
    from ._compiled import answer as compiled

    IS_COMPILED = True
except ImportError:  # there was no C compiler at the build
    IS_COMPILED = False

# Of a line the text that the library says, or how the call ended where it says none.
Answering = Callable[[str | bytes], str | int]
# A reply of so many bytes is read in place; a longer one gets room of its own.
ROOM = 1280


def answering(calls: Texts, graph: ctypes.c_void_p, text_size: ctypes.c_size_t) -> Answering:
    """What answers the lines of a session or a desk, which is at `graph`, and puts the size of each text into `text_size`.

    One call is made at a time, and none once the session is closed or while another call of the library is made on it. Half of a character
    in a line is a UnicodeEncodeError.
    """
    if not IS_COMPILED:
        return _by_ctypes(calls, graph, text_size)
    functions = (_address(calls.answer), _address(calls.read))
    return functools.partial(compiled, *functions, ctypes.addressof(graph), ctypes.addressof(text_size))


def _address(function: Any) -> int:
    return ctypes.cast(function, ctypes.c_void_p).value or 0


def _by_ctypes(calls: Texts, graph: ctypes.c_void_p, text_size: ctypes.c_size_t) -> Answering:
    call, read = calls.answer, calls.read
    room: Any = ctypes.create_string_buffer(ROOM)
    # addresses are passed in less time than references
    graph_at, size_at, room_at = map(ctypes.addressof, (graph, text_size, room))

    def answer(line: str | bytes) -> str | int:
        given = line.encode() if isinstance(line, str) else line
        how = call(graph, given, len(given), size_at, graph_at)
        if how != SAID:
            return how
        # most replies fit the room, and a call that asks nothing else is the quickest
        size = read(graph, 0, room_at, ROOM, graph_at)
        text: bytes = room[:size] if size < ROOM else last_text(calls, graph, text_size.value)
        return text.decode()

    return answer
