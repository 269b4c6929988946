#!/usr/bin/env python3
"""Has functions of a WebAssembly module stand beside those that they are like, so that less of it is sent: gzip sees 32 KiB back.

  javascript/wasm/reorder.py FROM TO

What a function does stays: only its number changes, wherever that is named. The module is one that lower.py wrote and wasm-opt optimized. What
isn't known here is refused. The same module gives the same order.

The exit status is 0 where it was written, and 1 where the module has what isn't known.
"""

from __future__ import annotations

import argparse
import sys
from collections.abc import Sequence
from pathlib import Path

from binary import Reader, Refused, unsigned
from lower import A_FUNCTION, CALL, CALL_INDIRECT, END, EXPORTS, HEADER, I32_CONST, THE_START, Code, section_of

FUNCTIONS, ELEMENTS, CODES = 3, 9, 10
# Types, tables, the memory, globals, the count of data, and data name no function.
KEPT = {1, 4, 5, 6, 11, 12}
# Two functions are alike by the runs of so many bytes that stand in both.
RUN = 6
# So far back gzip looks for what stands there, too.
WINDOW = 32_768


def order_of(bodies: Sequence[bytes]) -> list[int]:
    """The places of functions in an order in which each is most like those that stand shortly before it, the longest first.

    >>> order_of([b"a short function", b"something else, and long", b"another function"])
    [1, 0, 2]
    """
    runs = [{body[at : at + RUN] for at in range(len(body) - RUN + 1)} for body in bodies]
    left = set(range(len(bodies)))
    ordered: list[int] = []
    near: set[bytes] = set()
    while left:
        found = max(left, key=lambda it: (len(runs[it] & near) / (len(runs[it]) + 1), len(bodies[it]), -it))
        left.remove(found)
        ordered.append(found)
        near = runs_near(ordered, bodies, runs)
    return ordered


def runs_near(ordered: Sequence[int], bodies: Sequence[bytes], runs: Sequence[set[bytes]]) -> set[bytes]:
    """The runs of the functions that gzip sees from the end of these."""
    near: set[bytes] = set()
    size = 0
    for it in reversed(ordered):
        near |= runs[it]
        size += len(bodies[it])
        if size > WINDOW:
            break
    return near


class Renumbered(Code):
    """The code of a function while its calls are numbered anew. No instruction is lowered."""

    def __init__(self, read: Reader, numbers: Sequence[int]) -> None:
        super().__init__(0, read, with_memory=False)
        self.numbers = numbers

    def instruction(self) -> None:
        """The next instruction, which stays as it is but for the function that it names."""
        code = self.read.data[self.read.at]
        if code not in (CALL, CALL_INDIRECT):
            super().instruction()
            return
        head = self.read.take(1)
        if code == CALL:
            self.write(head, unsigned(self.numbers[self.read.unsigned()]))
        else:
            self.write(head, unsigned(self.read.unsigned()), unsigned(self.read.unsigned()))


class Module:
    """A module while its functions are ordered, section by section."""

    def __init__(self, data: bytes) -> None:
        read = Reader(data)
        read.expect(*HEADER)
        self.sections: list[tuple[int, Reader]] = []
        while not read.is_at_end():
            kind = read.byte()
            self.sections.append((kind, read.part(read.unsigned())))
        self.order = order_of(bodies_of(dict(self.sections)[CODES]))
        self.numbers = [0] * len(self.order)
        for number, before in enumerate(self.order):
            self.numbers[before] = number
        self.changes = {FUNCTIONS: self.types, EXPORTS: self.exports, THE_START: self.start, ELEMENTS: self.elements, CODES: self.codes}

    def ordered(self) -> bytes:
        """The whole module."""
        return HEADER + b"".join(section_of(kind, self.section(kind, section)) for kind, section in self.sections)

    def section(self, kind: int, section: Reader) -> bytes:
        """A section of the module."""
        start = section.at
        if kind in KEPT:
            return section.data[start : section.end]
        if kind not in self.changes:
            raise Refused(f"a section of the kind {kind}")
        return self.changes[kind](section)

    def types(self, section: Reader) -> bytes:
        """The type of each function."""
        types = [section.unsigned() for _ in range(section.unsigned())]
        return unsigned(len(types)) + b"".join(unsigned(types[it]) for it in self.order)

    def exports(self, section: Reader) -> bytes:
        """What is exported."""
        count = section.unsigned()
        parts = [unsigned(count)]
        for _ in range(count):
            name = section.take(section.unsigned())
            kind, number = section.byte(), section.unsigned()
            parts += [unsigned(len(name)), name, bytes([kind]), unsigned(self.numbers[number] if kind == A_FUNCTION else number)]
        return b"".join(parts)

    def start(self, section: Reader) -> bytes:
        """The function that runs first."""
        return unsigned(self.numbers[section.unsigned()])

    def elements(self, section: Reader) -> bytes:
        """Functions that stand in the first table from a place on."""
        count = section.unsigned()
        parts = [unsigned(count)]
        for _ in range(count):
            at = section.at
            section.expect(0, I32_CONST)
            section.signed()
            section.expect(END)
            parts.append(section.data[at : section.at])
            functions = [section.unsigned() for _ in range(section.unsigned())]
            parts += [unsigned(len(functions)), *(unsigned(self.numbers[it]) for it in functions)]
        return b"".join(parts)

    def codes(self, section: Reader) -> bytes:
        """The code of each function."""
        bodies = bodies_of(section)
        parts = [unsigned(len(bodies))]
        for it in self.order:
            code = Renumbered(Reader(bodies[it]), self.numbers).lowered()
            parts += [unsigned(len(code)), code]
        return b"".join(parts)


def bodies_of(section: Reader) -> list[bytes]:
    """The code of each function, as bytes."""
    read = Reader(section.data, section.at, section.end)
    return [read.take(read.unsigned()) for _ in range(read.unsigned())]


def reordered(module: bytes) -> bytes:
    """The module with its functions in order."""
    return Module(module).ordered()


def main(argv: list[str]) -> int:
    """Orders a file."""
    arguments = argparse.ArgumentParser(description=__doc__, formatter_class=argparse.RawDescriptionHelpFormatter)
    arguments.add_argument("source", type=Path, metavar="FROM")
    arguments.add_argument("to", type=Path, metavar="TO")
    given = arguments.parse_args(argv)
    try:
        given.to.write_bytes(reordered(given.source.read_bytes()))
    except Refused as why:
        print(f"reorder.py: {given.source} has {why}", file=sys.stderr)
        return 1
    return 0


if __name__ == "__main__":
    sys.exit(main(sys.argv[1:]))
