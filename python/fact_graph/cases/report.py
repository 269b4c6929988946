"""What came out of cases: for people as lines and a table, and for a server of continuous integration as JUnit's XML."""

from __future__ import annotations

from collections.abc import Iterable, Iterator
from itertools import groupby
from pathlib import Path
from xml.etree import ElementTree

from ..wording import table
from .running import Difference, Outcome


def lines(outcomes: Iterable[Outcome]) -> Iterator[str]:
    """The cases that aren't as due, with their figures, and how many cases there are of each kind."""
    counts = {"as due": 0, "not as due": 0, "not run": 0}
    for outcome in outcomes:
        counts[_kind(outcome)] += 1
        if not outcome.is_as_due:
            yield from _told(outcome)
            yield ""
    yield ", ".join(f"{count} {kind}" for kind, count in counts.items() if count or kind == "as due")


def junit(outcomes: Iterable[Outcome], name: str) -> bytes:
    """The outcomes in JUnit's XML: a suite of each file of cases."""
    root = ElementTree.Element("testsuites", name=name)
    for file, group in groupby(outcomes, key=lambda outcome: outcome.case.place.file):
        _suite(root, file, list(group))
    ElementTree.indent(root)
    written: bytes = ElementTree.tostring(root, encoding="utf-8", xml_declaration=True)
    return written + b"\n"


def _kind(outcome: Outcome) -> str:
    if outcome.error:
        return "not run"
    return "not as due" if outcome.differences else "as due"


def _told(outcome: Outcome) -> Iterator[str]:
    case = outcome.case
    behind = ", ".join(part for part in (str(case.place), case.cites, case.date) if part)
    yield f"{_kind(outcome).upper()}: {case.title} ({behind})"
    if outcome.error:
        yield f"  {outcome.error}"
    else:
        yield from table([("figure", "due", "found"), *(it[:3] for it in outcome.differences)])
        yield from _missing(outcome.differences)


def _missing(differences: Iterable[Difference]) -> Iterator[str]:
    """The answers that the figures want, where the case gives none."""
    for missing, group in groupby(differences, key=lambda it: it.missing):
        if missing:
            yield f"  {', '.join(it.figure for it in group)} still wants: {', '.join(missing)}"


def _suite(root: ElementTree.Element, file: str, outcomes: list[Outcome]) -> None:
    suite = ElementTree.SubElement(
        root,
        "testsuite",
        name=file,
        tests=str(len(outcomes)),
        failures=str(sum(bool(outcome.differences) for outcome in outcomes)),
        errors=str(sum(outcome.error is not None for outcome in outcomes)),
        skipped="0",
        time=f"{sum(outcome.seconds for outcome in outcomes):.3f}",
    )
    for outcome in outcomes:
        case = outcome.case
        about = Path(file).name.partition(".")[0]
        row = ElementTree.SubElement(suite, "testcase", classname=about, name=_plain(case.title), time=f"{outcome.seconds:.3f}")
        text = _plain("\n".join(_told(outcome)))
        if outcome.error:
            ElementTree.SubElement(row, "error", message=_plain(str(outcome.error)), type="CaseError").text = text
        elif outcome.differences:
            message = f"{len(outcome.differences)} of {len(case.due)} figures differ"
            ElementTree.SubElement(row, "failure", message=message, type="Difference").text = text


def _plain(text: str) -> str:
    """The text without the characters that XML can't have."""
    return "".join(it if it in "\t\n" or " " <= it <= "\ud7ff" or "\ue000" <= it <= "\ufffd" or it > "\uffff" else "\ufffd" for it in text)
