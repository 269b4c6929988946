"""What cases reach: for people at a terminal, and as a page of one file without a script."""

from __future__ import annotations

from collections.abc import Iterator
from typing import NamedTuple

import jinja2

from ..rulebook import row_words
from ..wording import table
from .measuring import Coverage
from .points import Point


class Row(NamedTuple):
    """A point in words, and how many cases reach it."""

    words: str
    cases: int


def lines(coverage: Coverage) -> Iterator[str]:
    """The tables and facts that have points that no case reaches, and how much is reached in all."""
    rows = [("fact", "reached", "not reached")]
    for path, points in coverage.points.items():
        missed = [point for point in points if point not in coverage.reached]
        if missed:
            reached, of = coverage.counts(path)
            rows.append((_named(path), f"{reached} of {of}", _told(coverage, missed[0])))
            rows.extend(("", "", _told(coverage, point)) for point in missed[1:])
    if len(rows) > 1:
        yield from table(rows)
        yield ""
    yield total(coverage)


def total(coverage: Coverage) -> str:
    """How much is reached in all."""
    reached, of = coverage.counts()
    return f"coverage: {reached} of {of} points, {_percent(coverage)} percent"


def page(coverage: Coverage, name: str, cases: int) -> str:
    """The page of the rules that have this name, of so many cases."""
    shown = jinja2.Environment(loader=jinja2.PackageLoader(__package__, "."), autoescape=True, trim_blocks=True, lstrip_blocks=True)
    facts = [
        {
            "name": _named(path),
            "description": _described(coverage, path),
            "reached": coverage.counts(path)[0],
            "of": coverage.counts(path)[1],
            "rows": [Row(_told(coverage, point), coverage.reached.get(point, 0)) for point in points],
        }
        for path, points in coverage.points.items()
    ]
    reached, of = coverage.counts()
    has_tables = bool(coverage.rulebook.dictionary.tables)
    said = {"name": name, "cases": cases, "facts": facts, "has_tables": has_tables, "reached": reached, "of": of, "percent": _percent(coverage)}
    return shown.get_template("page.html").render(said)


def _named(of: str) -> str:
    """What a point is of, as people read it."""
    return of if of.startswith("/") else f"table {of}"


def _described(coverage: Coverage, of: str) -> str:
    dictionary = coverage.rulebook.dictionary
    return dictionary.facts[of].description if of in dictionary.facts else dictionary.tables[of].description


def _percent(coverage: Coverage) -> str:
    """The percent, rounded down, so that 100 says that all is reached."""
    return f"{int(coverage.percent * 10) / 10:g}"


def _told(coverage: Coverage, point: Point) -> str:
    """A point in the words of the rules."""
    if point.kind == "row":
        return row_words(coverage.rulebook.dictionary.tables[point.of], point.at)
    tree = coverage.rulebook.trees[point.of]
    node = next((node for node in tree.nodes() if node.number == point.at), None)
    shown = coverage.rulebook.shown(tree, node) if node else ""
    if point.kind == "result":
        return "an answer" if tree.is_writable else "a result"
    if point.kind == "otherwise":
        return f"unless {coverage.rulebook.shown(tree, tree.test)}" if tree.test else ""
    if point.kind == "case" and node and node.name == "True":
        return "case: otherwise"
    if point.kind == "side":
        return f"{'true' if point.value else 'false'}: {shown}"
    return f"{point.kind}: {shown}"
