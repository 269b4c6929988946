"""How a command ends that can't do what was asked: a line on standard error, and the exit status."""

from __future__ import annotations

import contextlib
import os
import sys
from collections.abc import Iterator

import click

from ..errors import DictionaryRefused, LibraryMissing, OutOfMemory, Refused, SavedRefused, SessionClosed
from ..faults.texts import text_of_refusal
from ..status import Status

STATUSES = (
    (DictionaryRefused, Status.DICTIONARY_REFUSED),
    (SavedRefused, Status.SAVED_REFUSED),
    (OutOfMemory, Status.NO_MEMORY),
    (LibraryMissing, Status.NOT_INSTALLED),
    (Refused, Status.COMMAND_REFUSED),
    (SessionClosed, Status.COMMAND_REFUSED),
    (OSError, Status.WRITE_FAULT),  # what is read is read by `_rules.read`, which tells of it
)
"""The exit statuses of what commands raise, the first that holds."""

SERVICE_FROM = "pip install './python[commands,serve]' ./service at the top of the repository brings it"
"""What is said where the service, or what it needs, isn't installed."""


class Failed(click.ClickException):
    """Raised to end a command with a status and a line on standard error."""

    def __init__(self, status: Status, message: str) -> None:
        super().__init__(message)
        self.exit_code = status

    def show(self, file: object = None) -> None:
        """Prints the line."""
        click.echo(f"fact-graph: {self.message}", err=True)


@contextlib.contextmanager
def naming(slot: str) -> Iterator[None]:
    """A block that asks for a slot which the command line named: where that is refused, the command ends and says why."""
    try:
        yield
    except Refused as refused:
        raise Failed(Status.COMMAND_REFUSED, f"{slot}: {refused}: {text_of_refusal(refused.number).says}") from refused


def status_of(wrong: Exception) -> int:
    """The exit status of what a command raised, once it is told. Raises again what no command is to raise."""
    if isinstance(wrong, click.ClickException):
        wrong.show()
        return wrong.exit_code
    if isinstance(wrong, click.Abort):
        return Status.INTERRUPTED
    status = next((status for kind, status in STATUSES if isinstance(wrong, kind)), None)
    if status is None:
        raise wrong
    if status == Status.WRITE_FAULT:
        os.dup2(os.open(os.devnull, os.O_WRONLY), sys.stdout.fileno())  # so that nothing more is tried at the end
    if not isinstance(wrong, BrokenPipeError):
        click.echo(f"fact-graph: {_said_by(wrong)}", err=True)
    return status


def _said_by(wrong: Exception) -> str:
    if isinstance(wrong, OSError) and wrong.strerror:
        return f"{wrong.filename}: {wrong.strerror}" if wrong.filename else wrong.strerror
    return str(wrong)
