"""`fact-graph check`: is a dictionary accepted, and else what is wrong with it, and where?"""

from __future__ import annotations

from collections.abc import Iterator

import click

from ..dictionary import Dictionary
from ..errors import DictionaryRefused
from ..faults import Examined
from ..located import NotJson, read
from ..page import Beside, misstated
from ..session import Session
from ..status import Status
from ._faults import excerpt, found, refused, where
from ._rules import Rules, rules_argument


@click.command()
@rules_argument
@click.option("--all", "is_all", is_flag=True, help="Goes on behind the first fault, as far as it can.")
def command(rules: Rules, is_all: bool) -> Status:
    """Accepts rules, or shows where they are at fault.

    The first fault is the engine's, by its number and name; docs/FAULTS.md has all of them. Facts and their nodes are numbered
    from 1 as they are read. With --all those behind it follow by their places. Of rules that are accepted the page beside them
    is looked through, too.
    """
    examined = rules.examined()
    try:
        with Session(rules.text) as session:
            dictionary = session.dictionary
    except DictionaryRefused as fault:
        click.echo("\n".join(refused(rules.name, examined, fault)))
        for line in _others(rules, examined, fault) if is_all else ():
            click.echo(line)
        return Status.DICTIONARY_REFUSED
    click.echo(f"{rules.name}: accepted, {examined.facts} facts, {examined.nodes} nodes")
    for place, key in examined.repeated:
        click.echo(f"{where(rules.name, place)}: the key `{key}` stands twice here, and the last one counts")
    beside = rules.page()
    notes = list(_of_page(beside, dictionary)) if beside else []
    for line in notes:
        click.echo(line)
    return Status.FINDINGS if notes or examined.repeated else Status.DONE


def _others(rules: Rules, examined: Examined, fault: DictionaryRefused) -> Iterator[str]:
    """The lines on the faults behind the first, by their places."""
    first = examined.finding_of(fault)
    others = [it for it in examined.findings if it is not first]
    for finding in sorted(others, key=lambda it: examined.place(it) or (0, 0)):
        yield ""
        yield from found(rules.name, examined, finding)
    yield f"\n{len(others) + 1} in all"


def _of_page(beside: Beside, dictionary: Dictionary) -> Iterator[str]:
    """The lines on what is wrong with a page."""
    try:
        document = read(beside.text)
    except NotJson as wrong:
        yield f"{where(str(beside), wrong.place)}: {wrong.reason}"
        return
    for it in misstated(document.value, dictionary):
        place = document.key_place(it.pointer) if it.is_key else document.place(it.pointer)
        yield f"{where(str(beside), place)}: {it.reason}{f'; {it.hint}' if it.hint else ''}"
        yield from excerpt(document.line(place.line), place)
