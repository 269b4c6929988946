#!/usr/bin/env python3
"""Runs the program into each of its statuses, over the system's own devices, and compares what it writes.

    tests/run_statuses.py [--program PATH]

Nothing is built. A dictionary is a file, a folder, or a name that isn't there; a script is a file, a pipe, or a folder, which can't
be read; what is written goes into a file, or to /dev/full, which takes nothing. Memory is wanting where the address space is too
small for what is fetched, and fail_alloc.py makes each allocation fail in turn. A case passes where the text is the same to the
byte, and so are the exit status and the line of the status on standard error. The exit status is 0 where none failed, 1 where one
did, and 2 where there is no such program.
"""
import os
import subprocess
import sys
import tempfile
from collections.abc import Iterator
from pathlib import Path
from typing import NamedTuple

from harness import SECONDS, Ended, Tally, Word, add_program, run, tool, words_of

USAGE = b"usage: interview COMMAND ARGUMENTS\n"
ACCEPTED = b"dictionary accepted 1 facts 0 nodes\n"
TOO_LONG = b"dictionary refused 1 TooLong\n"
DICTIONARY = b'{"version":"1","facts":[{"path":"/a","writable":"Int"}]}'
LONGEST_DICTIONARY = 8_388_608
LONGEST_SCRIPT = 67_108_864
FULL = "/dev/full"
# Room for the program, but not for a dictionary of the greatest length.
SMALL = 12 << 20


class Folder:
    """A folder with what the cases name."""

    def __init__(self, path: str) -> None:
        self.path = Path(path)
        self.put("d", DICTIONARY)
        self.put("refused", b"[]")
        self.put("2023", b"[]")
        self.put("long", b" " * (LONGEST_DICTIONARY + 1))
        self.put("longest", DICTIONARY + b" " * (LONGEST_DICTIONARY - len(DICTIONARY)))
        self.put("script", b"set /a 5\nget /a\n")
        self.put("parties", b"@1 set /a 5\n@2 set /a 6\n@2 get /a\n")
        self.put("household", b"set /married false\nget /joint\n")
        self.put("saved", b"saved 1\nnext 1\nvalue /a 5\nend\n")
        self.put("carried", b"saved 1\nnext 1\nvalue /b 5\nend\n")
        self.put("long_text", b"saved 1\n" * (LONGEST_SCRIPT // 8) + b"\n")
        self.put("too_long", b"get /a\n" + b"#" * (LONGEST_SCRIPT - 6))
        self.put("quits_in_time", b"get /a\nquit\n" + b"#" * LONGEST_SCRIPT)
        (self.path / "folder").mkdir()

    def put(self, name: str, content: bytes) -> None:
        """Writes a file."""
        (self.path / name).write_bytes(content)


class Case(NamedTuple):
    """A run, and what is due of it."""

    what: str
    words: list[Word]
    script: str | None  # its file, or None for no bytes
    text: bytes
    status: int
    sink: str = "out"  # where it writes
    room: int | None = None  # the bytes of its address space


def cases() -> Iterator[Case]:  # pylint: disable=too-many-statements  # a table
    """The runs into each status."""
    replies = b"ok\ncomplete 5\n"
    yield Case("a script to its end", ["run", "d"], "script", replies, 0)
    yield Case("a check", ["check", "d"], None, ACCEPTED, 0)
    yield Case("a year, whose dictionary is no file", ["year", "2023"], "household", b"ok\ncomplete false\n", 0)
    yield Case("a dictionary of the greatest length", ["check", "longest"], None, ACCEPTED, 0)
    yield Case("`quit` within the limit of a script", ["run", "d"], "quits_in_time", b"incomplete\n", 0)
    yield Case("a dictionary with a fault", ["run", "refused"], "script", b"dictionary refused 3 Shape fact 0\n", 1)
    yield Case("a dictionary with a fault, over a script that can't be read", ["run", "refused"], "folder", b"dictionary refused 3 Shape fact 0\n", 1)
    yield Case("a dictionary that is too long", ["run", "long"], "script", TOO_LONG, 1)
    yield Case("no words", [], "script", USAGE, 2)
    yield Case("a word that is no command", ["walk", "d"], "script", USAGE, 2)
    yield Case("no words, over a script that can't be read", [], "folder", USAGE, 2)
    yield Case("a year that there isn't, over a script that can't be read", ["year", "2022"], "folder", USAGE, 2)
    yield Case("a folder as the dictionary", ["run", "folder"], "script", b"", 3)
    yield Case("a folder as the dictionary, checked", ["check", "folder"], None, b"", 3)
    yield Case("a name that isn't there", ["run", "nowhere"], "script", b"", 3)
    yield Case("a name in a folder that isn't there", ["check", "nowhere/d"], None, b"", 3)
    yield Case("a script that can't be read", ["run", "d"], "folder", b"", 4)
    yield Case("a year, over a script that can't be read", ["year", "2024"], "folder", b"", 4)
    yield Case("a check, over a script that can't be read", ["check", "d"], "folder", ACCEPTED, 0)
    yield Case("a full disk", ["run", "d"], "script", b"", 5, sink=FULL)
    yield Case("a full disk, over a year", ["year", "2023"], "household", b"", 5, sink=FULL)
    yield Case("a full disk, for the line of a check", ["check", "d"], None, b"", 5, sink=FULL)
    yield Case("a full disk, for the line of a fault", ["run", "refused"], "script", b"", 5, sink=FULL)
    yield Case("a full disk, for the line of usage", [], None, b"", 5, sink=FULL)
    yield Case("a full disk, and nothing to be written", ["run", "d"], None, b"", 0, sink=FULL)
    yield Case("a script that is too long", ["run", "d"], "too_long", b"incomplete\n", 6)
    yield Case("a script that is too long, over a year", ["year", "2023"], "too_long", b"refused 3 UnknownFact\n", 6)
    yield Case("a saved text that goes on", ["load", "d", "saved"], "script", replies, 0)
    yield Case("a saved text of another dictionary", ["load", "d", "carried"], "script", b"saved refused line 3\n", 8)
    yield Case("a saved text that is refused, over a script that can't be read", ["load", "d", "carried"], "folder", b"saved refused line 3\n", 8)
    yield Case("a saved text that is too long", ["load", "d", "long_text"], "script", b"saved refused line 0\n", 8)
    yield Case("a saved text that is carried", ["carry", "d", "carried"], "script", b"dropped value /b\n" + replies, 0)
    yield Case("a folder as the saved text", ["load", "d", "folder"], "script", b"", 3)
    yield Case("a folder as the saved text, over a dictionary with a fault", ["load", "refused", "folder"], "script", b"dictionary refused 3 Shape fact 0\n", 1)
    yield Case("a saved text that isn't there, over a year", ["carry-year", "2023", "nowhere"], "household", b"", 3)
    yield Case("a script that can't be read, behind a dropped line", ["carry", "d", "carried"], "folder", b"dropped value /b\n", 4)
    yield Case("a full disk, for a dropped line", ["carry", "d", "carried"], "script", b"", 5, sink=FULL)
    yield Case("a full disk, for the line of a saved text", ["load", "d", "carried"], "script", b"", 5, sink=FULL)
    yield Case("a script that is too long, behind a dropped line", ["carry", "d", "carried"], "too_long", b"dropped value /b\nincomplete\n", 6)
    at_desk = b"@1 ok\n@2 refused 20 Stale 1\n@2 complete 5\n"
    yield Case("two parties at a desk", ["desk", "d"], "parties", at_desk, 0)
    yield Case("a desk over a dictionary with a fault", ["desk", "refused"], "parties", b"dictionary refused 3 Shape fact 0\n", 1)
    yield Case("a desk without a dictionary", ["desk"], "parties", USAGE, 2)
    yield Case("a desk over a name that isn't there", ["desk", "nowhere"], "parties", b"", 3)
    yield Case("a desk whose script can't be read", ["desk", "d"], "folder", b"", 4)
    yield Case("a full disk, at a desk", ["desk", "d"], "parties", b"", 5, sink=FULL)
    yield Case("a script that is too long, at a desk", ["desk", "d"], "too_long", b"refused 1 BadLine\n", 6)
    yield Case("a save whose script can't be read", ["save", "d"], "folder", b"", 4)
    yield Case("a year's save whose script can't be read", ["save-year", "2023"], "folder", b"", 4)
    yield Case("a full disk, for a saved text", ["save", "d"], "script", b"", 5, sink=FULL)
    yield Case("a full disk, for a summary", ["gen", "1"], None, b"", 5, sink=FULL)
    yield Case("the taxes of a year, over a script that can't be read", ["income", "2023"], "folder", b"", 4)
    yield Case("the taxes of another year", ["income", "2024"], "script", USAGE, 2)
    yield Case("the taxes of no year", ["income"], "script", USAGE, 2)
    yield Case("memory is wanting", ["check", "longest"], None, b"", 7, room=SMALL)
    yield Case("a word that is no text", ["run", b"\xff"], "script", b"", 9)


def ended(program: Path, folder: Path, case: Case) -> Ended:
    """How the run of a case ended."""
    limit: list[Word] = [tool("prlimit"), f"--as={case.room}"] if case.room else []
    out = folder / case.sink
    # (a folder is opened too, and can't be read)
    source = os.open(folder / case.script if case.script else os.devnull, os.O_RDONLY)
    try:
        with open(out, "wb") as sink:
            ran = subprocess.run([*limit, program, *case.words], stdin=source, stdout=sink, stderr=subprocess.PIPE, cwd=folder, timeout=SECONDS, check=False)
    finally:
        os.close(source)
    return Ended(out.read_bytes() if out.is_file() else b"", ran.returncode, ran.stderr)


def quits(program: Path, folder: Path) -> Ended:
    """How a run ends where more of its script may still come behind `quit`."""
    more, script = os.pipe()
    os.write(script, b"set /a 5\nquit\n")
    try:
        return run([program, "run", "d"], folder, more)
    finally:
        os.close(more)
        os.close(script)


def main(argv: list[str]) -> int:
    """Runs the cases."""
    words = words_of(__doc__)
    add_program(words)
    program = words.parse_args(argv).program
    tally = Tally()
    with tempfile.TemporaryDirectory(prefix="run_statuses.") as path:
        folder = Folder(path).path
        for case in cases():
            tally.expect(case.what, ended(program, folder, case), Ended.due(case.text, case.status))
        tally.expect("`quit` ends a script of which more may come", quits(program, folder), Ended.due(b"ok\n", 0))
    return tally.end()


if __name__ == "__main__":
    sys.exit(main(sys.argv[1:]))
