#!/usr/bin/env python3
"""The program `interview` over the C library, for run_rows.py:

    tests/run_rows.py --program tests/library/interview.py

The words run, load, carry, save and desk, and the tax years, are answered through the library's functions as the Python package has
them, a line of the script at a time and its reply in pieces. What the library doesn't have, as check and run-plain, is run by the program itself,
crates/interview/out/interview; so is what can't be read, since the library reads no file, and a script of a desk with more than 20,000
lines. FACT_GRAPH_LIBRARY names another library than out/libfact_graph.so.
"""
from __future__ import annotations

import ctypes
import os
import subprocess
import sys
from collections.abc import Callable, Iterable
from pathlib import Path
from typing import Any

TOP = Path(__file__).resolve().parent.parent.parent
sys.path.insert(0, str(TOP / "python"))
os.environ.setdefault("FACT_GRAPH_LIBRARY", str(TOP / "out" / "libfact_graph.so"))

# pylint: disable=wrong-import-position  # the package stands in the repository
from fact_graph import DictionaryRefused, OutOfMemory, SavedRefused  # noqa: E402
from fact_graph._library import OVER, SAID, Fault, library  # noqa: E402

PROGRAM = TOP / "crates" / "interview" / "out" / "interview"
SCRIPT_LIMIT = 67_108_864
# A reply is fetched in pieces of so many bytes, so that most replies take several.
PIECE = 7
# The most lines of a script at a desk that isn't the program's.
LINES_AT_DESK = 20_000
# The words that the library serves, and how many stand with them, and the dictionaries that come with it.
SERVED = {"run": 2, "save": 2, "desk": 2, "load": 3, "carry": 3}
BUILT_IN = (["year", "2023"], ["year", "2024"], ["income", "2023"])


class ScriptTooLong(Exception):
    """The script has more bytes than one may have."""


def refusal(numbers: Iterable[int]) -> bytes:
    """The line with which the program ends for a fault, by the numbers of its fields; no text where there is none."""
    fault = Fault(*numbers)
    return f"{fault.error()}\n".encode() if fault.number else b""


class Graph:
    """A session or a desk, which its text follows from call to call."""

    def __init__(self, word: str) -> None:
        self.calls: Any = library().desks if word == "desk" else library()
        self.at, self.size = ctypes.c_void_p(), ctypes.c_size_t()
        self.back, self.size_at = ctypes.byref(self.at), ctypes.byref(self.size)

    def open(self, word: str, *files: bytes) -> None:
        """Opens the session as the word says."""
        fault = Fault()
        texts = [it for text in files for it in (text, len(text))]
        begin = getattr(self.calls, {"load": "load", "carry": "carry", "built-in": "open_built_in"}.get(word, "open"))
        number = begin(*texts, self.back, *([self.size_at] if word == "carry" else []), ctypes.byref(fault))
        assert number == fault.number, (number, fault.number)
        if number:
            raise fault.error()

    def text(self) -> bytes:
        """What the last call said."""
        said, piece = bytearray(), ctypes.create_string_buffer(PIECE)
        while count := self.calls.read(self.at, len(said), piece, PIECE, self.back):
            said += piece.raw[:count]
        assert len(said) == self.size.value, (len(said), self.size.value)
        return bytes(said)

    def answer(self, line: bytes) -> bool:
        """Answers a line, and returns whether the script is over."""
        how: int = self.calls.answer(self.at, line, len(line), self.size_at, self.back)
        if how not in (SAID, OVER):
            raise OutOfMemory
        return how == OVER

    def save(self) -> None:
        """Makes the saved text what is said."""
        if self.calls.save(self.at, self.size_at, self.back) != SAID:
            raise OutOfMemory

    def close(self) -> None:
        """Ends the session, where one was opened."""
        if self.at:
            self.calls.close(self.at)


def answer_script(graph: Graph, script: bytes, write: Callable[[bytes], object]) -> None:
    """Answers the lines of a script that are within the limit, until one is `quit`."""
    *lines, last = script[:SCRIPT_LIMIT].split(b"\n")
    for line in lines + ([last] if last and len(script) <= SCRIPT_LIMIT else []):
        is_over = graph.answer(line)
        write(graph.text())
        if is_over:
            assert graph.answer(b"@1 undo") and not graph.text()
            return
    if len(script) > SCRIPT_LIMIT:
        raise ScriptTooLong


def run(graph: Graph, words: list[str], script: bytes, write: Callable[[bytes], object]) -> None:
    """Does what the words say; none of the exceptions means status 0."""
    word, *names = words
    if words in BUILT_IN:
        graph.open("built-in", " ".join(words).encode())
    else:
        graph.open(word, *(Path(name).read_bytes() for name in names))
    if word == "carry":
        write(graph.text())
    answer_script(graph, script, write if word != "save" else lambda text: None)
    if word == "save":
        graph.save()
        write(graph.text())


def main(argv: list[str]) -> int:
    """Runs the words, and returns the exit status."""
    is_over_files = len(argv) == SERVED.get(argv[0] if argv else "") and all(os.path.isfile(name) for name in argv[1:])
    if not is_over_files and argv not in BUILT_IN:
        if not PROGRAM.is_file():
            sys.exit(f"interview.py: no program is built at {PROGRAM}")
        os.execv(PROGRAM, [str(PROGRAM), *argv])
    script = sys.stdin.buffer.read()
    if argv[0] == "desk" and script.count(b"\n") > LINES_AT_DESK:
        return subprocess.run([PROGRAM, *argv], input=script, check=False).returncode
    graph = Graph(argv[0])
    try:
        run(graph, argv, script, sys.stdout.buffer.write)
        return 0
    except (DictionaryRefused, SavedRefused) as refused:
        print(refused)
        return 1 if isinstance(refused, DictionaryRefused) else 8
    except (OutOfMemory, ScriptTooLong) as ended:
        status, name = (7, "NoMemory") if isinstance(ended, OutOfMemory) else (6, "ScriptTooLong")
        sys.stdout.flush()
        print(f"interview: {status} {name}", file=sys.stderr)
        return status
    finally:
        graph.close()


if __name__ == "__main__":
    sys.exit(main(sys.argv[1:]))
