"""Interviews that are filled in on the page by keyboard, as a person does it: the screener, SNAP, and the tax year."""

from __future__ import annotations

from collections.abc import Callable
from pathlib import Path
from typing import NamedTuple

from pages import EXAMPLES
from screens import Screen


class Interview(NamedTuple):
    """An interview: its rules, how all of it is filled in, and answers that are wrong, by their fields."""

    rules: str | Path
    fill: Callable[[Screen], None]
    wrong: dict[str, str]


def fill_screener(screen: Screen) -> None:
    """A household of one."""
    screen.reach("/tenure")
    screen.answer(is_first=True)
    screen.reach("/bill")
    screen.type("$1,240.50")
    screen.reach("/savings")
    screen.type("4000.")
    screen.reach("/people", "button")
    screen.add()
    screen.type("11", "30", "1958")
    screen.reach("/people/#1/wages")
    screen.type("0")


def fill_year(screen: Screen) -> None:
    """A couple who file jointly, both of 65 and more, with a grandchild of 13 in their home."""
    for slot, is_yes in (("/married", True), ("/fileJointly", True), ("/canBeClaimed", False)):
        screen.reach(slot)
        screen.answer(is_first=is_yes)
    for born, blind, day in (("/dateOfBirth", "/blind", ("3", "10", "1955")), ("/spouseDateOfBirth", "/spouseBlind", ("7", "4", "1957"))):
        screen.reach(born)
        screen.type(*day)
        screen.reach(blind)
        screen.answer(is_first=False)
    screen.reach("/dependents", "button")
    screen.add()
    screen.type("5", "1", "2010")
    for name, is_yes in (("childRelationship", True), ("livedWithFiler", True), ("selfSupported", False), ("jointReturn", False)):
        screen.reach(f"/dependents/#1/{name}")
        screen.answer(is_first=is_yes)
    screen.reach("/earnedIncome")
    screen.type("52,000")
    screen.reach("/otherIncome")
    screen.type("3000.50")


def fill_snap(screen: Screen) -> None:
    """Three persons with wages and a rent, none of them elderly or disabled."""
    screen.reach("/size")
    screen.type("3")
    screen.reach("/elderlyOrDisabled")
    screen.answer(is_first=False)
    for slot, amount in (("/earnings", "$1,500"), ("/otherIncome", "0"), ("/dependentCareCosts", "0")):
        screen.reach(slot)
        screen.type(amount)
    screen.reach("/takesHomelessDeduction")
    screen.answer(is_first=False)
    for slot, amount in (("/rent", "700.49"), ("/utilities", "350.50")):
        screen.reach(slot)
        screen.type(amount)


INTERVIEWS = {
    "screener": Interview(EXAMPLES / "screener.json", fill_screener, {"/bill": "x", "/caseNumber": "12-345678"}),
    "snap": Interview(EXAMPLES / "snap.facts", fill_snap, {"/size": "0", "/earnings": "much"}),
    "year 2023": Interview("year 2023", fill_year, {"/earnedIncome": "-1", "/otherIncome": "much"}),
}
