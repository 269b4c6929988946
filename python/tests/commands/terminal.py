"""A command at a pseudo-terminal: what is typed, and what is shown."""

from __future__ import annotations

import fcntl
import os
import pty
import re
import select
import struct
import subprocess
import sys
import termios
import time
from collections.abc import Mapping, Sequence
from pathlib import Path

import pyte  # type: ignore[import] # Debian has no types of it

PACKAGE = Path(__file__).resolve().parents[2]
ESCAPES = re.compile(r"\x1b\[[0-9;?]*[A-Za-z]|\x1b[=>]|\x1b\][^\x07]*\x07|\r")
PATIENCE = 300.0
"""Seconds for a text to be shown, on a machine that is busy."""
ROWS, COLUMNS = 200, 100


class Terminal:
    """A command of `fact-graph` that runs at a terminal of its own, for a user with this home: the one of an environment, else that of
    the sources."""

    def __init__(self, words: Sequence[str], home: Path, folder: Path | None = None, environment: Mapping[str, str] | None = None) -> None:
        self.ours, theirs = pty.openpty()
        fcntl.ioctl(theirs, termios.TIOCSWINSZ, struct.pack("HHHH", ROWS, COLUMNS, 0, 0))
        terminal = {"TERM": "xterm-256color", "COLUMNS": str(COLUMNS), "PROMPT_TOOLKIT_NO_CPR": "1"}
        command = ["fact-graph"] if environment else [sys.executable, "-m", "fact_graph"]
        given = {**(environment or {**os.environ, "PYTHONPATH": str(PACKAGE)}), **terminal, "HOME": str(home)}
        given.pop("XDG_STATE_HOME", None)
        self.process = subprocess.Popen(  # pylint: disable=consider-using-with # it ends with the terminal
            [*command, *words], stdin=theirs, stdout=theirs, stderr=theirs, env=given, cwd=folder, start_new_session=True
        )
        os.close(theirs)
        self.raw = ""
        self.seen = 0

    def __enter__(self) -> Terminal:
        return self

    def __exit__(self, *raised: object) -> None:
        if self.process.poll() is None:
            self.process.kill()
        self.process.wait()
        os.close(self.ours)

    def type(self, text: str) -> None:
        """Types a text; `\\r` is the key Enter, and `\\x04` ends the input."""
        os.write(self.ours, text.encode())

    def answers(self, text: str) -> None:
        """Waits for a prompt, and types a text."""
        self.shows(">")
        self.type(text)

    def shows(self, due: str) -> str:
        """Waits until a text is shown behind what was waited for before. Returns all that was shown up to it."""
        end = time.monotonic() + PATIENCE
        while due not in self.shown[self.seen :]:
            if not self._more(max(0.0, end - time.monotonic())):
                raise AssertionError(f"{due!r} isn't shown; shown was {self.shown[self.seen:]!r}")
        before = self.seen
        self.seen += self.shown[self.seen :].index(due) + len(due)
        return self.shown[before : self.seen]

    @property
    def shown(self) -> str:
        """All that was shown so far, without what steers the terminal."""
        return ESCAPES.sub("", self.raw)

    def screen(self) -> list[str]:
        """The lines that stand on the screen."""
        screen = pyte.Screen(COLUMNS, ROWS)
        pyte.Stream(screen).feed(self.raw)
        lines = [line.rstrip() for line in screen.display]
        while lines and not lines[-1]:
            lines.pop()
        return lines

    def ends(self) -> int:
        """Waits for the command's end, and returns its exit status."""
        while self._more(PATIENCE):
            pass
        return self.process.wait(PATIENCE)

    def _more(self, patience: float) -> bool:
        ready, _, _ = select.select([self.ours], [], [], patience)
        try:
            read = os.read(self.ours, 65_536) if ready else b""
        except OSError:  # the other end is closed
            read = b""
        self.raw += read.decode("utf-8", "replace")
        return bool(read)
