"""`fact-graph lint`: what can be wrong with rules that are accepted?"""

from __future__ import annotations

import json
from pathlib import Path

import click

from ..checks import CHECKS, Allowance, NotAllowed, findings, left_over, read_allowances
from ..page import Page
from ..rulebook import Rulebook
from ..status import Status
from ._failures import Failed
from ._rules import Rules, read, rules_argument


@click.command(epilog="\b\nThe checks:\n" + "\n".join(f"  {check:20} {says}" for check, says in CHECKS.items()))
@rules_argument
@click.option("--figure", "figures", metavar="PATH", multiple=True, help="A fact that is shown to people; give it once for each.")
def command(rules: Rules, figures: tuple[str, ...]) -> Status:
    """Looks for what can be wrong with the rules in FILE, though they are accepted.

    What is found and shall stand is allowed in a file beside them, screener.lint of screener.json: a note that says why, and
    a line `allow CHECK /path`. The figures are those of screener.page, or the facts on which no other rests.
    """
    rules.session().close()
    rulebook = Rulebook(rules.text)
    file = Path(rules.name).with_suffix(".lint")
    found, unused = left_over(findings(rulebook, figures_of(rules, rulebook, figures)), allowances(file, rulebook))
    for it in found:
        click.echo(f"{it.check}  {it.path}" + (f" node {it.node}" if it.node else "") + f"\n  {it.reason}")
    for line in unused:
        click.echo(f"{file}:{line.line}: allow {line.check} {line.path} allows nothing: take it away")
    click.echo(f"{len(found)} found" if found or unused else "nothing found")
    return Status.FINDINGS if found or unused else Status.DONE


def figures_of(rules: Rules, rulebook: Rulebook, named: tuple[str, ...]) -> list[str]:
    """The figures that are named, or those of the page beside the rules."""
    beside = rules.page()
    try:
        stated = json.loads(beside.text) if beside and not named else {}
        figures = list(named or Page.over(rules.text, stated).figures)
    except (ValueError, AttributeError, TypeError) as wrong:
        raise Failed(Status.USAGE, f"{beside}: this is no page: {wrong}") from wrong
    for path in figures:
        if path not in rulebook.trees:
            raise Failed(Status.USAGE, f"the rules have no fact {path}, which is named as a figure")
    return figures


def allowances(file: Path, rulebook: Rulebook) -> list[Allowance]:
    """What the file allows, where there is one."""
    try:
        return read_allowances(read(str(file)).decode(), (*rulebook.trees, *rulebook.dictionary.tables)) if file.is_file() else []
    except (NotAllowed, UnicodeDecodeError) as wrong:
        raise Failed(Status.USAGE, f"{file}: {wrong}") from wrong
