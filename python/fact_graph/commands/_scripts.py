"""Scripts that a command runs over a session: their lines, and the replies in colours."""

from __future__ import annotations

import io
from collections.abc import Iterator

import click

from ..session import Session
from ._rules import read

COLOURS: dict[str, tuple[str, bool]] = {
    "complete": ("green", False),
    "final": ("green", True),
    "placeholder": ("yellow", False),
    "incomplete": ("blue", False),
    "open": ("blue", False),
    "fault": ("red", False),
    "refused": ("red", False),
    "dropped": ("red", False),
    "watch": ("magenta", False),
}
"""By the first word of a reply its colour at a terminal, and whether it is bold."""


def lines_of(name: str) -> Iterator[bytes]:
    """The lines of a script in a file, or on standard input where the name is `-`, up to `quit`."""
    with click.open_file("-", "rb") if name == "-" else io.BytesIO(read(name)) as script:
        for line in script:
            bare: bytes = line.removesuffix(b"\n")
            if is_quit(bare):
                return
            yield bare


def is_quit(line: bytes) -> bool:
    """Whether a line ends its script."""
    return line.removesuffix(b"\r") == b"quit"


def coloured(reply: str) -> str:
    """A reply with the colour of each of its lines."""
    lines = []
    for line in reply.split("\n"):
        colour, is_bold = COLOURS.get(line.partition(" ")[0], (None, False))
        lines.append(click.style(line, colour, bold=is_bold or None) if colour else line)
    return "\n".join(lines)


def run_script(session: Session, name: str) -> None:
    """Runs a script, and prints each reply."""
    for line in lines_of(name):
        click.echo(coloured(session.line(line)), nl=False)
