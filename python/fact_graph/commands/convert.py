"""`fact-graph convert`: the JSON of rules that people read, and back."""

from __future__ import annotations

import sys
from pathlib import Path

import click

from ..faults import Examined
from ..status import Status
from ._failures import Failed
from ._faults import found
from ._rules import is_written, parsed_as, read, text_named

SHAPE = 3


@click.command()
@click.argument("name", metavar="FILE")
@click.option("-o", "--output", metavar="FILE", help="Writes into this file.")
@click.option("--check", metavar="FILE", help="Writes nothing, and says whether this file has it.")
def command(name: str, output: str | None, check: str | None) -> Status:
    """Prints the JSON of rules in a file .facts, and the text of rules in JSON.

    One dictionary has one text: its JSON is the same behind both. A comment is of the text alone.
    """
    text = text_named(name)
    other = parsed_as(name, text).json if is_written(name, text) else _text(name, text)
    if check is not None:
        return _checked(check, read(check), other, name)
    if output is None:
        sys.stdout.buffer.write(other)
    else:
        try:
            Path(output).write_bytes(other)
        except OSError as wrong:
            raise Failed(Status.WRITE_FAULT, f"{output}: {wrong.strerror}") from wrong
    return Status.DONE


def _checked(name: str, text: bytes, other: bytes, source: str) -> Status:
    """Whether a file has what it has to."""
    if text == other:
        return Status.DONE
    click.echo(f"{name}: not what {source} gives")
    return Status.FINDINGS


def _text(name: str, text: bytes) -> bytes:
    """The text of a dictionary in JSON. Ends the command where it hasn't the form of one."""
    from ..rules import text_of  # pylint: disable=import-outside-toplevel # the parser isn't needed otherwise

    examined = Examined(text)
    misformed = next((it for it in examined.findings if it.number <= SHAPE), None)
    if misformed or examined.document is None:
        lines = found(name, examined, misformed or examined.findings[0])
        raise Failed(Status.DICTIONARY_REFUSED, "\n".join(lines))
    return text_of(examined.document.value).encode()
