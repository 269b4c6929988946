"""`fact-graph fmt`: rules in the one form that they have."""

from __future__ import annotations

import sys
from pathlib import Path

import click

from ..rules import text_of
from ..status import Status
from ._failures import Failed
from ._rules import parsed_as, read


@click.command()
@click.argument("names", metavar="FILE...", nargs=-1, required=True)
@click.option("--check", "is_check", is_flag=True, help="Writes nothing, and names the files that aren't in that form.")
def command(names: tuple[str, ...], is_check: bool) -> Status:
    """Puts rules into the one form that they have, in their files.

    Comments stay where they are, and there are no options of style. Of - the text is read from standard input, and its form
    printed.
    """
    others = [name for name in names if not _is_formatted(name, is_check)]
    return Status.FINDINGS if is_check and others else Status.DONE


def _is_formatted(name: str, is_check: bool) -> bool:
    """Whether a text has that form already; where it hasn't, it is put into it, or named."""
    text = read(name)
    rules = parsed_as(name, text)
    form = text_of(rules.value, rules.notes).encode()
    if name == "-" and not is_check:
        sys.stdout.buffer.write(form)
    elif form != text and is_check:
        click.echo(f"{name}: not in its form")
    elif form != text:
        _write(name, form)
    return form == text


def _write(name: str, form: bytes) -> None:
    try:
        Path(name).write_bytes(form)
    except OSError as wrong:
        raise Failed(Status.WRITE_FAULT, f"{name}: {wrong.strerror}") from wrong
