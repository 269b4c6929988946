"""`fact-graph save`: the saved text of the answers with which a script ends."""

from __future__ import annotations

import click

from ._rules import Rules, rules_argument, saved_option
from ._scripts import lines_of


@click.command()
@rules_argument
@click.argument("script", default="-")
@saved_option
def command(rules: Rules, script: str, saved: bytes | None) -> None:
    """Prints the answers at a script's end, as saved text.

    Without a SCRIPT its lines are read from standard input. No reply is printed.
    """
    with rules.session(saved) as session:
        for line in lines_of(script):
            session.line(line)
        click.get_binary_stream("stdout").write(session.save())
