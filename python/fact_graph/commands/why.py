"""`fact-graph why`: what a figure was worked out from."""

from __future__ import annotations

import click

from ..rows_read import RowsRead
from ._failures import naming
from ._rules import Rules, rules_argument, saved_option
from ._scripts import coloured


@click.command()
@rules_argument
@click.argument("slot", metavar="SLOT")
@saved_option
@click.option("--depth", type=click.IntRange(0), metavar="N", help="Goes down so many levels, and no further.")
def command(rules: Rules, slot: str, saved: bytes | None, depth: int | None) -> None:
    """Shows why a figure is what it is.

    Below SLOT with its result stand the slots that it was worked out from, in the order in which they were read, each with what
    it was worked out from itself, down to answers, and with its description where the rules have one. What stood above isn't
    unfolded again. Where the rule of a slot reads a table for another fact, the row is told that it has.
    """
    with rules.session(saved) as session, naming(slot):
        for line in session.why(slot, depth=depth).lines(coloured, RowsRead(session).of):
            click.echo(line)
