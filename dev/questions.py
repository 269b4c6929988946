"""Holds docs/TAX_YEARS.md to the questions of the tax years: to the rows of facts that are asked, with the words of each, to the places in
the pages from which they come, and to the example of a session that goes on in the next year."""
import json
import re
from collections.abc import Iterator
from typing import NamedTuple

from crates import TOP

PAGE = TOP / "docs" / "TAX_YEARS.md"
# The facts of each year, and those that the income has besides.
OF_YEARS, OF_INCOME = (TOP / "crates" / name / "src" / "rows.rt" for name in ("tax_2023", "tax_income"))
# Where the pages in a browser say that a question comes from.
TEXTS = [TOP / "python" / "fact_graph" / "pages" / f"{name}.page" for name in ("common", "income")]
EXAMPLE = TOP / "examples" / "next_year"
ASKED = re.compile(r'\bQuestion(?:From)?\(\s*"([^"]+)",\s*Kind::\w+,(?:\s*"0",)?\s*"([^"]+)",?\s*\)')
HEADING = "## What is asked"
ROW = re.compile(r"^\| `([/…][^`]*)` \| (.*) \| (.*) \| (.*) \|$", re.MULTILINE)
OF_A_PERSON, SHORT = "/dependents/*/", "…/"
MARK_OF_INCOME = "of `income 2023` alone"


class Row(NamedTuple):
    """What the page says of an answer."""

    asked: str
    source: str
    of_the_year: str


def questions(page: str) -> dict[str, Row]:
    """The rows of the page, by the paths of the answers."""
    section = page.partition(f"{HEADING}\n")[2].partition("\n## ")[0].partition("### Where the figures belong")[0]
    return {path.replace(SHORT, OF_A_PERSON): Row(*cells) for path, *cells in ROW.findall(section)}


def in_a_sentence(words: str) -> str:
    """The words of a fact, as they stand behind those who are asked."""
    return words[0].lower() + words[1:]


def wrong_rows(rows: dict[str, Row]) -> Iterator[str]:
    """Where the rows aren't those of the facts that are asked, each with all its cells."""
    of_years, of_income = (dict(ASKED.findall(path.read_text(encoding="utf-8"))) for path in (OF_YEARS, OF_INCOME))
    words = of_years | of_income
    yield from (f"no row asks for {path}" for path in words if path not in rows)
    for path, row in rows.items():
        if path not in words:
            yield f"there is a row for {path}, which no year asks for"
        elif f": {in_a_sentence(words[path])}" not in f": {row.asked}":
            yield f"the row for {path} doesn't ask: {words[path]}"
        if not all(row):
            yield f"the row for {path} has an empty cell"
        if (path in of_income) != row.asked.startswith(MARK_OF_INCOME):
            yield f"the row for {path} says another module than the one that asks"
        if not row.of_the_year.startswith(("yes", "no", "for ")):
            yield f"the row for {path} doesn't say whether it is of the year"


def wrong_sources(rows: dict[str, Row]) -> Iterator[str]:
    """Where an answer comes from another place by the page in a browser. There the publication is named each time."""
    sources: dict[str, str] = {}
    for text in TEXTS:
        sources |= json.loads(text.read_text(encoding="utf-8"))["sources"]
    for path, row in rows.items():
        there = sources.get(path, "").replace("Publication 501, ", "")
        if row.source != there:
            yield f"{path} comes from {row.source}, and in a browser from {there or 'nowhere'}"


def fact_of(slot: str) -> str:
    """The path of the fact of a slot."""
    return re.sub(r"/#\d+/", "/*/", slot)


def wrong_example(rows: dict[str, Row]) -> Iterator[str]:
    """Where the example doesn't clear what was answered of the year, and that alone, but for persons who are taken out."""
    saved = (EXAMPLE / "2023.saved").read_text(encoding="utf-8")
    script = (EXAMPLE / "2024.script").read_text(encoding="utf-8")
    answered = re.findall(r"^value (\S+)", saved, re.MULTILINE)
    cleared = re.findall(r"^clear (\S+)", script, re.MULTILINE)
    gone = tuple(f"{path}/{member}/" for path, member in re.findall(r"^remove (\S+) (\S+)", script, re.MULTILINE))
    due = [slot for slot in answered if not slot.startswith(gone) and fact_of(slot) in rows and rows[fact_of(slot)].of_the_year.startswith("yes")]
    yield from (f"{slot} is of the year, and isn't cleared" for slot in due if slot not in cleared)
    yield from (f"{slot} is cleared, and isn't of the year" for slot in cleared if slot not in due)


def wrong_questions() -> Iterator[str]:
    """What is wrong with the questions of the page."""
    rows = questions(PAGE.read_text(encoding="utf-8"))
    for wrong in (*wrong_rows(rows), *wrong_sources(rows), *wrong_example(rows)):
        yield f"{PAGE.relative_to(TOP)}: {wrong}"
