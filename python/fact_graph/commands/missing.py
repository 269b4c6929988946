"""`fact-graph missing`: which answers figures still want."""

from __future__ import annotations

import click

from ._failures import naming
from ._rules import Rules, rules_argument, saved_option
from ._scripts import coloured


@click.command()
@rules_argument
@click.argument("slots", metavar="SLOT..", nargs=-1, required=True)
@saved_option
@click.option("--tree", "is_tree", is_flag=True, help="Shows by way of what each SLOT wants them, as why does.")
def command(rules: Rules, slots: tuple[str, ...], saved: bytes | None, is_tree: bool) -> None:
    """Lists the answers that figures still want.

    They are those of the first SLOT in the order of the rules, then what the others want beside them.
    """
    with rules.session(saved) as session:
        found = []
        for slot in slots:
            with naming(slot):
                found.append(session.missing(slot))
    lines = (line for it in found for line in it.tree.lines(coloured)) if is_tree else dict.fromkeys(answer for it in found for answer in it)
    for line in lines:
        click.echo(line)
