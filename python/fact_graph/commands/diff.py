"""`fact-graph diff`: what changes from rules to others?"""

from __future__ import annotations

from collections.abc import Iterator
from itertools import groupby
from pathlib import Path

import click

from ..cases import Runner
from ..changes import changes, dropped, moves
from ..errors import SavedRefused
from ..rulebook import Rulebook
from ..status import Status
from ..wording import table
from ._rules import Rules, RulesName, read
from .test import cases_of


@click.command()
@click.argument("old", type=RulesName())
@click.argument("new", type=RulesName())
@click.option("--cases", "places", metavar="CASES", multiple=True, type=click.Path(path_type=Path), help="A file or folder of cases, once for each.")
@click.option("--saved", metavar="FOLDER", type=click.Path(exists=True, file_okay=False, path_type=Path), help="A folder of saved texts.")
def command(old: Rules, new: Rules, places: tuple[Path, ...], saved: Path | None) -> Status:
    """Shows what changes from the rules OLD to the rules NEW.

    Which facts, types, limits and expressions are others; with --cases, which cases get other figures, and by how much; with
    --saved, which answers of each saved text can't be carried to the new rules.
    """
    for rules in (old, new):
        rules.session().close()
    found = [*rules_lines(old, new), *(cases_lines(old, new, places) if places else ()), *(saved_lines(new, saved) if saved else ())]
    for line in found or ["nothing differs"]:
        click.echo(line)
    return Status.FINDINGS if found else Status.DONE


def rules_lines(old: Rules, new: Rules) -> Iterator[str]:
    """What differs in the rules."""
    for of, group in groupby(changes(Rulebook(old.text), Rulebook(new.text)), key=lambda change: change.of):
        yield of
        yield from (f"  {change.words}" for change in group)


def cases_lines(old: Rules, new: Rules, places: tuple[Path, ...]) -> Iterator[str]:
    """The cases that get other figures."""
    cases = cases_of(old, places)
    found = list(moves(Runner(old.text), Runner(new.text), cases))
    for it in found:
        yield f"{it.case.title} ({it.case.place})"
        if it.moved:
            yield from table([("figure", "before", "after", "by"), *it.moved])
        for rules, wrong in (("old", it.before), ("new", it.after)):
            yield from [f"  the {rules} rules can't run it: {wrong.message}"] if wrong else []
    if found:
        yield f"{len(found)} of {len(cases)} cases differ"


def saved_lines(new: Rules, folder: Path) -> Iterator[str]:
    """What isn't carried of each saved text."""
    for file in sorted(it for it in folder.iterdir() if it.suffix == ".saved"):
        try:
            lost = [f"  dropped {it.kind} {it.slot}" for it in dropped(new.text, read(str(file)))]
        except SavedRefused as wrong:
            lost = [f"  can't be carried: {wrong}"]
        yield from (str(file), *lost) if lost else ()
