"""The food aid of the examples: its cases, and the ages and shares of its rules beside those that are counted out here."""

from __future__ import annotations

from calendar import isleap
from collections.abc import Iterator
from datetime import date, timedelta

import pytest

from fact_graph import Session
from fact_graph.commands import command_line

from .places import EXAMPLES

RULES = str(EXAMPLES / "food.facts")
ONE_DAY = timedelta(days=1)


@pytest.fixture(name="session")
def _session() -> Iterator[Session]:
    with Session.open(EXAMPLES / "food.json") as opened:
        yield opened


@pytest.mark.parametrize("words", [["test", RULES, "--at-least", "100"], ["lint", RULES], ["check", RULES]], ids=["test", "lint", "check"])
def test_nothing_is_found(words: list[str]) -> None:
    """All cases are as due and reach all rules, and no check of rules finds anything."""
    assert command_line(words) == 0


def births() -> Iterator[date]:
    """3,740 days: 34 of each year from 1914 to 2023, the last of February and each eleventh day."""
    for year in range(1914, 2024):
        yield date(year, 3, 1) - ONE_DAY
        yield from (date(year, 1, 1) + 11 * at * ONE_DAY for at in range(33))


def birthday(born: date, year: int) -> date:
    """The birthday in a year: on 1 March where there is no 29 February."""
    return date(year, 3, 1) if (born.month, born.day) == (2, 29) and not isleap(year) else date(year, born.month, born.day)


@pytest.mark.parametrize("year", [2024, 2025])
def test_an_age_begins_on_the_birthday(session: Session, year: int) -> None:
    """Of 3,740 days of birth, in a year with a leap day and in one without; the eve of New Year's Day is left out."""
    person = session.add("/people")
    for born in births():
        day = birthday(born, year)
        session[f"/people/#{person}/born"] = born
        for asked, age in ((day - ONE_DAY, year - born.year - 1), (day, year - born.year), (day + ONE_DAY, year - born.year)):
            if asked >= date(2024, 1, 1):
                session["/appliedOn"] = asked
                assert session[f"/people/#{person}/age"] == age, (born, asked)


def test_thirty_percent_are_rounded_up(session: Session) -> None:
    """Of 300,000 amounts, from nothing to 2,999.99, the least whole dollars that are 30 percent or more."""
    for cents in range(300_000):
        session.line(f"override /netIncome {cents // 100}.{cents % 100:02}")
        share = session.line("get /contribution")
        assert share == f"complete {-(-30 * cents // 10_000)}.00\n", cents
