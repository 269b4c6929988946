"""`fact-graph carry`: a saved text over rules that were changed since."""

from __future__ import annotations

import click

from ._rules import Rules, SavedText, rules_argument
from ._scripts import coloured, lines_of


@click.command()
@rules_argument
@click.argument("saved", type=SavedText())
@click.argument("script", required=False)
@click.option("-o", "--out", type=click.Path(dir_okay=False, writable=True), help="Writes the answers that are kept here, as saved text.")
def command(rules: Rules, saved: bytes, script: str | None, out: str | None) -> None:
    """Carries saved answers over to other rules.

    SAVED has answers that were saved over other rules than those in FILE. What may not stand over these is listed, a line
    each. Then the commands of SCRIPT are answered, where one is named.
    """
    with rules.carried(saved) as session:
        for dropped in session.dropped:
            click.echo(coloured(f"dropped {dropped.kind} {dropped.slot}"))
        for line in lines_of(script) if script else ():
            click.echo(coloured(session.line(line)), nl=False)
        if out:
            with click.open_file(out, "wb") as file:
                file.write(session.save())
