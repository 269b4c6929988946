"""`fact-graph test`: are the figures of your cases those that are due?"""

from __future__ import annotations

from collections.abc import Iterable
from pathlib import Path

import click

from ..cases import Case, CaseError, Runner, files_of, read_cases
from ..cases.report import junit, lines
from ..coverage import NoRoom, measure, report
from ..status import Status
from ._failures import Failed
from ._rules import Rules, read, rules_argument


@click.command()
@rules_argument
@click.argument("places", metavar="[CASES]...", nargs=-1, type=click.Path(path_type=Path))
@click.option("-k", "words", metavar="WORDS", default="", help="Only the cases whose title or citation has each of these words.")
@click.option("--junit", "junit_file", metavar="XML", type=click.Path(path_type=Path), help="Writes what came out to this file too.")
@click.option("--coverage", "is_covered", is_flag=True, help="Shows which parts of the rules no case reaches.")
@click.option("--page", "page_file", metavar="HTML", type=click.Path(path_type=Path), help="Writes the coverage to this file as a page.")
@click.option("--at-least", metavar="PERCENT", type=click.FloatRange(0, 100), help="Asks for so much coverage.")
def command(  # pylint: disable=too-many-arguments # each is an option
    rules: Rules, places: tuple[Path, ...], words: str, junit_file: Path | None, is_covered: bool, page_file: Path | None, at_least: float | None
) -> Status:
    """Runs your cases over the rules in FILE, and shows each figure that isn't as it is due.

    CASES are files of cases, or folders of them. Where none is named they are those beside FILE: screener.cases.yaml and
    screener.cases.csv of screener.json.
    """
    rules.session().close()
    cases = selected(cases_of(rules, places), words)
    outcomes = list(Runner(rules.text).run(cases))
    for line in lines(outcomes):
        click.echo(line)
    if junit_file:
        junit_file.write_bytes(junit(outcomes, rules.name))
    is_enough = True
    if is_covered or page_file or at_least is not None:
        is_enough = covered(rules, cases, page_file, at_least or 0)
    if any(outcome.error for outcome in outcomes):
        return Status.CASES_REFUSED
    return Status.DONE if is_enough and all(outcome.is_as_due for outcome in outcomes) else Status.FINDINGS


def covered(rules: Rules, cases: list[Case], page_file: Path | None, at_least: float) -> bool:
    """Shows what the cases reach, and returns whether it is enough."""
    try:
        coverage = measure(rules.text, cases)
    except NoRoom as wrong:
        raise Failed(Status.USAGE, str(wrong)) from wrong
    for line in report.lines(coverage):
        click.echo(line)
    if page_file:
        page_file.write_text(report.page(coverage, Path(rules.name).name, len(cases)), encoding="utf-8")
    if coverage.percent < at_least:
        click.echo(f"that is less than {at_least:g} percent")
    return coverage.percent >= at_least


def cases_of(rules: Rules, places: Iterable[Path]) -> list[Case]:
    """The cases of the files and folders that were named, or of the files beside the rules."""
    named = list(places)
    files = [file for place in named or [Path(rules.name)] for file in ([place] if named and not place.is_dir() else files_of(place))]
    if not files:
        where = ", ".join(map(str, named)) or f"{Path(rules.name).with_suffix('.cases.yaml')} or .csv"
        raise Failed(Status.FETCH_FAULT, f"no cases: there is no {where}")
    try:
        return [case for file in files for case in read_cases(str(file), read(str(file)))]
    except CaseError as wrong:
        raise Failed(Status.CASES_REFUSED, str(wrong)) from wrong


def selected(cases: Iterable[Case], words: str) -> list[Case]:
    """The cases whose title or citation has each of the words, in whichever case."""
    wanted = words.lower().split()
    found = [case for case in cases if all(word in f"{case.title} {case.cites}".lower() for word in wanted)]
    if not found:
        raise Failed(Status.USAGE, f"no case has the words {words}" if words else "there are no cases")
    return found
