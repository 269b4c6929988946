#!/usr/bin/env python3
"""Makes a WebAssembly module whose memory and tables have addresses of 64 bits one whose addresses have 32.

  javascript/wasm/lower.py FROM TO [--tables-alone]

In the module addresses stay numbers of 64 bits; before each instruction that takes one, its upper half is dropped. So the module has to
keep below 4 GiB: its memory has at most 65,536 pages, and memory.grow gives -1 beyond them, as ever. What isn't known here is
refused: an import, a section, an instruction, an offset of more than 32 bits. With --tables-alone the memory stays as it is.

The exit status is 0 where it was written, and 1 where the module has what isn't known.
"""

from __future__ import annotations

import argparse
import sys
from pathlib import Path

from binary import Reader, Refused, signed, unsigned

HEADER = b"\0asm\1\0\0\0"
# An exported function of this name is the start: it runs where the module is instantiated, and isn't exported.
START = b"start"
MOST_PAGES, MOST_PLACES = 65_536, 2**32 - 1

I32, I64, F32, F64, V128 = 0x7F, 0x7E, 0x7D, 0x7C, 0x7B
LOCAL_GET, LOCAL_SET = 0x20, 0x21
A_FUNCTION = 0  # among exports
EXPORTS, THE_START = 7, 8
WRAP, EXTEND_SIGNED, EXTEND_UNSIGNED = b"\xa7", b"\xac", b"\xad"
I32_CONST, I64_CONST, END = 0x41, 0x42, 0x0B

# Instructions by what stands behind their byte.
PLAIN = {0x00, 0x01, 0x05, END, 0x0F, 0x1A, 0x1B, *range(0x45, 0xC5)}
WITH_INDEX = {0x0C, 0x0D, 0x10, *range(0x20, 0x25)}
WITH_SIGNED = {0x02, 0x03, 0x04, I32_CONST, I64_CONST}  # (the type of a block is such a number)
WITH_BYTES = {0x43: 4, 0x44: 8}
BR_TABLE, CALL, CALL_INDIRECT, MEMORY_SIZE, MEMORY_GROW, BULK, VECTOR = 0x0E, 0x10, 0x11, 0x3F, 0x40, 0xFC, 0xFD
LOADS = range(0x28, 0x36)
STORED = {0x36: I32, 0x37: I64, 0x38: F32, 0x39: F64, 0x3A: I32, 0x3B: I32, 0x3C: I64, 0x3D: I64, 0x3E: I64}

# The same of those behind BULK and VECTOR.
SATURATING, COPY, FILL = range(8), 10, 11
VECTOR_LOADS = {*range(11), 92, 93}
VECTOR_STORE = 11
VECTOR_LANES_IN_MEMORY = range(84, 92)
VECTOR_WITH_BYTES = {12: 16, 13: 16, **dict.fromkeys(range(21, 35), 1)}
VECTOR_END = 0x100  # behind it are the relaxed ones


class Code:
    """The code of a function while it is lowered."""

    def __init__(self, parameters: int, read: Reader, with_memory: bool) -> None:
        self.read, self.with_memory = read, with_memory
        self.locals = [(read.unsigned(), read.byte()) for _ in range(read.unsigned())]
        self.next_local = parameters + sum(count for count, _ in self.locals)
        self.held: dict[tuple[int, int], int] = {}
        self.written = bytearray()

    def lowered(self) -> bytes:
        """The code, with a local for each kind of value that ever stands above an address."""
        while not self.read.is_at_end():
            self.instruction()
        groups = [*self.locals, *((1, kind) for kind, _ in self.held)]
        return unsigned(len(groups)) + b"".join(unsigned(count) + bytes([kind]) for count, kind in groups) + bytes(self.written)

    def write(self, *parts: bytes) -> None:
        """Writes parts one behind another."""
        self.written += b"".join(parts)

    def local(self, kind: int, place: int = 0) -> bytes:
        """The number of the local that holds a value of a kind while the address below it is cut."""
        if (kind, place) not in self.held:
            self.held[kind, place] = self.next_local
            self.next_local += 1
        return unsigned(self.held[kind, place])

    def instruction(self) -> None:
        """Lowers the next instruction."""
        read, code = self.read, self.read.byte()
        head = bytes([code])
        if code in PLAIN:
            self.write(head)
        elif code in WITH_INDEX:
            self.write(head, unsigned(read.unsigned()))
        elif code in WITH_SIGNED:
            self.write(head, signed(read.signed()))
        elif code in WITH_BYTES:
            self.write(head, read.take(WITH_BYTES[code]))
        elif code == BR_TABLE:
            labels = [read.unsigned() for _ in range(read.unsigned())]
            self.write(head, unsigned(len(labels)), *map(unsigned, [*labels, read.unsigned()]))
        elif code == CALL_INDIRECT:
            self.write(WRAP, head, unsigned(read.unsigned()), unsigned(read.unsigned()))
        elif code in LOADS:
            self.at_address(head + self.place())
        elif code in STORED:
            self.below(STORED[code], head + self.place())
        elif code in (MEMORY_SIZE, MEMORY_GROW):
            self.size_of_memory(code)
        elif code == BULK:
            self.bulk()
        elif code == VECTOR:
            self.vector()
        else:
            raise Refused(f"the instruction {code:#x}")

    def place(self) -> bytes:
        """The alignment and the offset of an instruction that takes an address."""
        align, offset = self.read.unsigned(), self.read.unsigned()
        if align >= 64 or offset >= 2**32:
            raise Refused(f"an alignment of {align} and an offset of {offset}")
        return unsigned(align) + unsigned(offset)

    def at_address(self, instruction: bytes) -> None:
        """Cuts the address on top, for an instruction that takes it."""
        self.write(WRAP if self.with_memory else b"", instruction)

    def below(self, kind: int, instruction: bytes) -> None:
        """Cuts the address below a value of a kind, for an instruction that takes both."""
        if not self.with_memory:
            self.write(instruction)
            return
        local = self.local(kind)
        self.write(bytes([LOCAL_SET]), local, WRAP, bytes([LOCAL_GET]), local, instruction)

    def size_of_memory(self, code: int) -> None:
        """memory.size and memory.grow: pages of 32 bits, and of 64 outside. -1 stays -1."""
        self.read.expect(0)
        instruction = bytes([code, 0])
        if not self.with_memory:
            self.write(instruction)
        elif code == MEMORY_SIZE:
            self.write(instruction, EXTEND_UNSIGNED)
        else:
            self.write(WRAP, instruction, EXTEND_SIGNED)

    def bulk(self) -> None:
        """Conversions of floats, and the copying and filling of memory, whose three operands are addresses, a size and a byte."""
        code = self.read.unsigned()
        head = bytes([BULK]) + unsigned(code)
        if code in SATURATING:
            self.write(head)
        elif code == COPY:
            self.read.expect(0, 0)
            self.three(I64, head + bytes(2))
        elif code == FILL:
            self.read.expect(0)
            self.three(I32, head + bytes(1))
        else:
            raise Refused(f"the instruction {BULK:#x} {code}")

    def three(self, kind: int, instruction: bytes) -> None:
        """Cuts an address, what is above it where that is one too, and the size on top."""
        if not self.with_memory:
            self.write(instruction)
            return
        size, middle = self.local(I64), self.local(kind, 1)
        put, get = bytes([LOCAL_SET]), bytes([LOCAL_GET])
        self.write(put, size, put, middle, WRAP, get, middle, WRAP if kind == I64 else b"", get, size, WRAP, instruction)

    def vector(self) -> None:
        """Instructions on 128 bits at once."""
        read, code = self.read, self.read.unsigned()
        head = bytes([VECTOR]) + unsigned(code)
        if code in VECTOR_LOADS:
            self.at_address(head + self.place())
        elif code == VECTOR_STORE:
            self.below(V128, head + self.place())
        elif code in VECTOR_LANES_IN_MEMORY:
            self.below(V128, head + self.place() + read.take(1))
        elif code < VECTOR_END:
            self.write(head, read.take(VECTOR_WITH_BYTES.get(code, 0)))
        else:
            raise Refused(f"the instruction {VECTOR:#x} {code}")


class Module:
    """A module while it is lowered, section by section."""

    def __init__(self, data: bytes, with_memory: bool) -> None:
        self.read, self.with_memory = Reader(data), with_memory
        self.read.expect(*HEADER)
        self.parameters: list[int] = []  # by type
        self.types: list[int] = []  # by function
        self.start: int | None = None
        kept_with_notes = {1: self.note_types, 3: self.note_functions}
        self.changes = {**kept_with_notes, 4: self.tables, 5: self.memories, EXPORTS: self.exports, 9: self.elements, 10: self.codes, 11: self.data}

    # globals and the count of data stay as they are
    KEPT = {6, 12}

    def lowered(self) -> bytes:
        """The whole module."""
        parts = [HEADER]
        while not self.read.is_at_end():
            kind = self.read.byte()
            parts.append(section_of(kind, self.section(kind, self.read.part(self.read.unsigned()))))
            if kind == EXPORTS and self.start is not None:
                parts.append(section_of(THE_START, unsigned(self.start)))
        return b"".join(parts)

    def section(self, kind: int, section: Reader) -> bytes:
        """A section of the module."""
        if kind in self.KEPT:
            return section.take(section.end - section.at)
        if kind not in self.changes:
            raise Refused(f"a section of the kind {kind}")
        content = self.changes[kind](section)
        if not section.is_at_end():
            raise Refused(f"a section {kind} with more than it says")
        return content

    def note_types(self, section: Reader) -> bytes:
        """How many parameters each type has."""
        start = section.at
        for _ in range(section.unsigned()):
            section.expect(0x60)
            self.parameters.append(len(section.take(section.unsigned())))
            section.take(section.unsigned())
        return section.data[start : section.at]

    def note_functions(self, section: Reader) -> bytes:
        """The type of each function."""
        start = section.at
        self.types = [section.unsigned() for _ in range(section.unsigned())]
        return section.data[start : section.at]

    def tables(self, section: Reader) -> bytes:
        """Each table has 32 bits."""
        count = section.unsigned()
        return unsigned(count) + b"".join(section.take(1) + limits(section, MOST_PLACES) for _ in range(count))

    def memories(self, section: Reader) -> bytes:
        """The one memory has 32 bits."""
        start = section.at
        section.expect(1)
        small = unsigned(1) + limits(section, MOST_PAGES)
        return small if self.with_memory else section.data[start : section.at]

    def exports(self, section: Reader) -> bytes:
        """All that is exported but the start."""
        kept = []
        for _ in range(section.unsigned()):
            at = section.at
            name, kind, index = section.take(section.unsigned()), section.byte(), section.unsigned()
            if name == START and kind == A_FUNCTION:
                self.start = index
            else:
                kept.append(section.data[at : section.at])
        return unsigned(len(kept)) + b"".join(kept)

    def elements(self, section: Reader) -> bytes:
        """Functions that stand in the first table from a place on."""
        count = section.unsigned()
        written = unsigned(count)
        for _ in range(count):
            section.expect(0)
            place = constant(section)
            functions = [section.unsigned() for _ in range(section.unsigned())]
            written += bytes(1) + place + unsigned(len(functions)) + b"".join(map(unsigned, functions))
        return written

    def data(self, section: Reader) -> bytes:
        """Bytes that stand in the memory from a place on."""
        start, count = section.at, section.unsigned()
        written = unsigned(count)
        for _ in range(count):
            section.expect(0)
            place = constant(section)
            size = section.unsigned()
            written += bytes(1) + place + unsigned(size) + section.take(size)
        return written if self.with_memory else section.data[start : section.at]

    def codes(self, section: Reader) -> bytes:
        """The code of each function."""
        if section.unsigned() != len(self.types):
            raise Refused("another number of functions than of their types")
        written = bytearray(unsigned(len(self.types)))
        for kind in self.types:
            code = Code(self.parameters[kind], section.part(section.unsigned()), self.with_memory).lowered()
            written += unsigned(len(code)) + code
        return bytes(written)


def section_of(kind: int, content: bytes) -> bytes:
    """A section as it is written."""
    return bytes([kind]) + unsigned(len(content)) + content


def limits(section: Reader, most: int) -> bytes:
    """How large a table or a memory of 64 bits is, at least and at most, as one of 32."""
    flags = section.byte()
    if flags not in (4, 5):
        raise Refused(f"limits with the flags {flags}")
    sizes = [section.unsigned() for _ in range(flags - 3)]
    if max(sizes) > most:
        raise Refused(f"limits of {sizes}, beyond {most}")
    return bytes([flags - 4]) + b"".join(map(unsigned, sizes))


def constant(section: Reader) -> bytes:
    """A constant address, which is below 2 GiB."""
    section.expect(I64_CONST)
    address = section.signed()
    if not 0 <= address < 2**31:
        raise Refused(f"a constant address {address}")
    section.expect(END)
    return bytes([I32_CONST]) + signed(address) + bytes([END])


def lowered(module: bytes, with_memory: bool = True) -> bytes:
    """The module with addresses of 32 bits."""
    return Module(module, with_memory).lowered()


def main(argv: list[str]) -> int:
    """Lowers a file."""
    arguments = argparse.ArgumentParser(description=__doc__, formatter_class=argparse.RawDescriptionHelpFormatter)
    arguments.add_argument("--tables-alone", action="store_true")
    arguments.add_argument("source", type=Path, metavar="FROM")
    arguments.add_argument("to", type=Path, metavar="TO")
    given = arguments.parse_args(argv)
    try:
        given.to.write_bytes(lowered(given.source.read_bytes(), not given.tables_alone))
    except Refused as why:
        print(f"lower.py: {given.source} has {why}", file=sys.stderr)
        return 1
    return 0


if __name__ == "__main__":
    sys.exit(main(sys.argv[1:]))
