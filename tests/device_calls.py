"""The calls of devices that a run of the program makes, call by call, worked out from its words, its files, its script and its text.

A file is opened and read to its end; a script is pulled piece by piece; what is written is put line by line, and what a put leaves
over is put next. Behind the piece in which lines end stand the puts of their replies, and then alone the next pull.
"""
import re
from collections.abc import Iterator, Mapping
from typing import NamedTuple

from stored_cases import is_silent

# The most bytes of a dictionary, of a saved text, of a script and of a line, and how many are asked for at once.
LONGEST_DICTIONARY = 8_388_608
LONGEST_TEXT = 67_108_864
LONGEST_SCRIPT = 67_108_864
LONGEST_LINE = 4_096
PIECE = 4_096
# The words that name a file, and how many do.
NAMING = {"run": 1, "run-plain": 1, "desk": 1, "check": 1, "save": 1, "load": 2, "carry": 2}
# The words that pull a script.
PULLING = {"run", "run-plain", "desk", "save", "load", "carry", "year", "income", "save-year", "carry-year"}
# The status with which a run ends where the call fails.
STATUSES = {"open": 3, "read": 3, "pull": 4, "put": 5}
# A reply with lines behind it.
LISTED = re.compile(rb"(?:@\d+ )?missing (\d+)\n")
QUIT = re.compile(rb"quit\r?")
QUIT_OF_PARTY = re.compile(rb"@(?:1[0-6]|[1-9]) quit\r?")

# A line of the script, with the lines that are put for it.
Answered = tuple[bytes, list[bytes]]


class Devices(NamedTuple):
    """How many bytes the devices give or take at once, and which call fails; 0 where nothing bounds them, and where none fails."""

    fetched: int = 0
    pulled: int = 0
    put: int = 0
    failing: int = 0

    def variables(self) -> dict[str, str]:
        """The variables of preload/failing_devices.c."""
        return {"FETCHED": str(self.fetched), "PULLED": str(self.pulled), "PUT": str(self.put), "FAILING": str(self.failing)}


class Call(NamedTuple):
    """A call of a device: what is asked, and how many bytes come of it, or -1 where it fails."""

    asked: str
    answer: int

    def __str__(self) -> str:
        return f"{self.asked} {self.answer}"

    def fails(self) -> "Call":
        """The same where it fails."""
        return Call(self.asked, -1)

    def status(self) -> int:
        """The status with which the run ends where it fails."""
        return STATUSES[self.asked.split()[0]]


def taken(calls: list[Call]) -> int:
    """How many bytes of the text the calls put."""
    return sum(call.answer for call in calls if call.asked.startswith("put ") and call.answer > 0)


def bounded(size: int, most: int) -> int:
    """What a device gives or takes of so many bytes."""
    return min(size, most or size)


class Run(NamedTuple):
    """A run of the program, and what is due of it where no call fails."""

    words: list[str]
    files: Mapping[str, bytes]
    script: bytes
    text: bytes
    status: int

    def names(self) -> list[str]:
        """The files that are fetched: that of the dictionary, and that of the saved text where the dictionary is accepted."""
        word = self.words[0] if self.words else ""
        if self.status == 2:
            return []
        if word == "carry-year":
            return self.words[2:]
        return self.words[1:1 + min(NAMING.get(word, 0), 1 if self.status == 1 else 2)]

    def limit(self, place: int) -> int:
        """The most bytes of the file at this place among the fetched ones."""
        return LONGEST_DICTIONARY if place == 0 and self.words[0] != "carry-year" else LONGEST_TEXT

    def pulls(self) -> bool:
        """Whether the script is pulled: the words have a form, all files are there, and nothing of them is refused."""
        return self.status not in (1, 2, 3, 8) and self.words[0] in PULLING

    def is_quit(self, line: bytes) -> bool:
        """Whether the line ends the script."""
        return (QUIT_OF_PARTY if self.words[0] == "desk" else QUIT).fullmatch(line) is not None

    def texts(self) -> tuple[list[bytes], list[Answered], list[bytes]]:
        """The lines that are put in front of the script, the lines of the script with their replies, and the lines behind it."""
        lines = [line + b"\n" for line in self.text.split(b"\n")[:-1]]
        if not self.pulls():
            return lines, [], []
        script = self.script[:LONGEST_SCRIPT].split(b"\n")
        if self.words[0] in ("save", "save-year"):
            return [], [(line, []) for line in script], lines
        front = 0
        while front < len(lines) and lines[front].startswith(b"dropped "):
            front += 1
        return lines[:front], list(answered(script, lines[front:])), []

    def calls(self, devices: Devices) -> list[Call]:
        """The calls that the run makes, in order, where none fails."""
        return list(self._calls(devices))

    def _calls(self, devices: Devices) -> Iterator[Call]:
        for place, name in enumerate(self.names()):
            yield from fetch(name, self.files.get(name), self.limit(place), devices.fetched)
            if name not in self.files:
                return
        front, lines, back = self.texts()
        for line in front:
            yield from put(line, devices.put)
        if self.pulls():
            yield from self._exchange(lines, devices)
        for line in back:
            yield from put(line, devices.put)

    def _exchange(self, lines: list[Answered], devices: Devices) -> Iterator[Call]:
        """The pulls of the script, each with the puts of the replies to the lines that end in its piece."""
        at, ended = 0, 0
        while True:
            room = min(PIECE, LONGEST_SCRIPT - at) or 1
            count = min(bounded(room, devices.pulled), len(self.script) - at)
            yield Call(f"pull {room}", count)
            if at == LONGEST_SCRIPT and count:
                return
            # (the last line ends where nothing more comes)
            more = self.script.count(b"\n", at, at + count) if count else 1
            for line, reply in lines[ended:ended + more]:
                for each in reply:
                    yield from put(each, devices.put)
                if self.is_quit(line):
                    return
            if not count:
                return
            ended += more
            at += count


def fetch(name: str, content: bytes | None, limit: int, fetched: int) -> Iterator[Call]:
    """A file that is read to its end, or until one byte more than the limit came."""
    yield Call(f"open {name}", -1 if content is None else 0)
    at = 0
    while content is not None and at <= limit:
        room = min(limit - at, PIECE - 1) + 1
        count = min(bounded(room, fetched), len(content) - at)
        yield Call(f"read {name} {room}", count)
        if not count:
            return
        at += count


def put(piece: bytes, most: int) -> Iterator[Call]:
    """A piece that is put whole."""
    rest = len(piece)
    while rest:
        count = bounded(rest, most)
        yield Call(f"put {rest}", count)
        rest -= count


def answered(script: list[bytes], lines: list[bytes]) -> Iterator[Answered]:
    """The lines of a script, each with the lines of text that answer it, where they are due in this order."""
    at = 0
    for line in script:
        begin = at
        if len(line) > LONGEST_LINE or not is_silent(line):
            at += 1
            listed = LISTED.match(lines[begin]) if begin < len(lines) else None
            at += int(listed[1]) if listed else 0
            while at < len(lines) and lines[at].startswith(b"watch "):
                at += 1
        yield line, lines[begin:at]
