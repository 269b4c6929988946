"""The binary form of WebAssembly, as far as lower.py needs it: numbers, and bytes that are read one after another.

    >>> signed(-2).hex(), unsigned(300).hex()
    ('7e', 'ac02')
    >>> Reader(unsigned(300) + signed(-300)).unsigned()
    300
"""

from __future__ import annotations


class Refused(Exception):
    """A module has something that isn't known here."""


def unsigned(number: int) -> bytes:
    """A number from 0 on, in as few bytes as it has."""
    written = bytearray()
    while number > 127:
        written.append(number & 127 | 128)
        number >>= 7
    return bytes([*written, number])


def signed(number: int) -> bytes:
    """A number with a sign, in as few bytes as it has."""
    written = bytearray()
    while not -64 <= number < 64:
        written.append(number & 127 | 128)
        number >>= 7
    return bytes([*written, number & 127])


class Reader:
    """Bytes, from one place to another, read one after another."""

    def __init__(self, data: bytes, at: int = 0, end: int | None = None) -> None:
        self.data, self.at, self.end = data, at, len(data) if end is None else end

    def is_at_end(self) -> bool:
        """Whether all is read."""
        return self.at == self.end

    def take(self, count: int) -> bytes:
        """The next bytes."""
        if count > self.end - self.at:
            raise Refused(f"the module ends within what is read at byte {self.at}")
        self.at += count
        return self.data[self.at - count : self.at]

    def byte(self) -> int:
        """The next byte."""
        return self.take(1)[0]

    def expect(self, *bytes_: int) -> None:
        """Reads bytes that have to be these."""
        found = self.take(len(bytes_))
        if found != bytes(bytes_):
            raise Refused(f"{found.hex()} in place of {bytes(bytes_).hex()} before byte {self.at}")

    def part(self, size: int) -> Reader:
        """What reads the next bytes, which are passed over here."""
        self.take(size)
        return Reader(self.data, self.at - size, self.at)

    def unsigned(self) -> int:
        """A number from 0 on."""
        return self._number()[0]

    def signed(self) -> int:
        """A number with a sign."""
        number, bits, last = self._number()
        return number - (1 << bits) if last & 64 else number

    def _number(self) -> tuple[int, int, int]:
        number = bits = 0
        while True:
            byte = self.byte()
            number |= (byte & 127) << bits
            bits += 7
            if byte < 128:
                return number, bits, byte
