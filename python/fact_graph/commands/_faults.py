"""Faults as the command line shows them: the place, what is wrong, what would be right, and the line of the file."""

from __future__ import annotations

import re
from collections.abc import Iterable, Iterator

import click

from ..errors import DictionaryRefused
from ..faults import Examined, Finding
from ..faults.finding import shown
from ..faults.texts import text_of_fault
from ..located import Document, Place

WIDTH = 96
"""Of a line of a file so many characters are shown, those around the column."""


def refused(name: str, examined: Examined, fault: DictionaryRefused) -> Iterator[str]:
    """The lines on the fault that the engine named."""
    finding = examined.finding_of(fault)
    if finding is None:
        yield f"{name}: {fault}"
    else:
        yield from found(name, examined, finding)
    yield f"  To mend it: {_plain(text_of_fault(fault).mend)}"


def found(name: str, examined: Examined, finding: Finding) -> Iterator[str]:
    """The lines on a finding."""
    place = examined.place(finding)
    yield f"{where(name, place)}: {click.style(finding.line, fg='red')}"
    yield from (f"  {line}" for line in _which(examined, finding))
    yield f"  {finding.reason}"
    if finding.hint:
        yield f"  {finding.hint}"
    if place:
        yield from excerpt(examined.line(place.line), place)


def misread(name: str, text: str, faults: Iterable[tuple[Place, str]]) -> Iterator[str]:
    """The lines on what isn't written as rules are."""
    source = Document(text)
    for place, reason in faults:
        yield f"{where(name, place)}: {reason}"
        yield from excerpt(source.line(place.line), place)


def where(name: str, place: Place | None) -> str:
    """A place in a file, as editors know it."""
    return click.style(f"{name}:{place.line}:{place.column}" if place else name, bold=True)


def _which(examined: Examined, finding: Finding) -> Iterator[str]:
    """Which fact, and which node of it. Of rules as people read them the line of the file has the node."""
    fact, node = examined.stated(finding)
    if fact is not None:
        path = fact.get("path") if isinstance(fact, dict) else None
        yield f"fact {finding.fact}" + (f", {path}" if isinstance(path, str) else "") + (f", node {finding.node}" if finding.node else "")
    if node is not None and not examined.is_written:
        yield shown(node, WIDTH)


def excerpt(line: str, place: Place) -> Iterator[str]:
    """The line of the file, with a mark below the column."""
    start = max(0, min(place.column - WIDTH // 2, len(line) - WIDTH)) if len(line) > WIDTH else 0
    part = line[start : start + WIDTH]
    before = "…" if start else ""
    after = "…" if start + WIDTH < len(line) else ""
    number = str(place.line)
    shown_part = re.sub(r"[\x00-\x1f\x7f-\x9f]", " ", part)
    yield f"  {number} | {before}{shown_part}{after}"
    yield f"  {' ' * len(number)} | {' ' * (place.column - 1 - start + len(before))}{click.style('^', fg='red', bold=True)}"


def _plain(text: str) -> str:
    """A text of a page without its links."""
    return re.sub(r"\[([^\]]*)\]\([^)]*\)", r"\1", text)
