"""SNAP in fiscal year 2024: its cases, its arithmetic beside that of Python, and the words of its page."""

from __future__ import annotations

import json
from collections.abc import Iterator
from decimal import ROUND_HALF_UP, Decimal
from typing import Any, NamedTuple

import pytest
from hypothesis import given
from hypothesis import strategies as st

from fact_graph import Session
from fact_graph.commands import command_line

from .places import EXAMPLES

RULES = str(EXAMPLES / "snap.facts")


@pytest.fixture(name="session")
def _session() -> Iterator[Session]:
    with Session.open(EXAMPLES / "snap.json") as opened:
        yield opened


@pytest.mark.parametrize("words", [["test", RULES, "--at-least", "100"], ["lint", RULES], ["check", RULES]], ids=["test", "lint", "check"])
def test_nothing_is_found(words: list[str]) -> None:
    """All cases are as due and reach all rules, no check of rules finds anything, and the page says nothing that isn't there."""
    assert command_line(words) == 0


class Table(NamedTuple):
    """A table of amounts by household size: of one to eight persons, and what each further one adds."""

    rows: tuple[int, ...]
    further: int

    def of(self, size: int) -> int:
        """The amount for a household."""
        return self.rows[size - 1] if size <= 8 else self.rows[7] + self.further * (size - 8)


GROSS_LIMITS = Table((1580, 2137, 2694, 3250, 3807, 4364, 4921, 5478), 557)
NET_LIMITS = Table((1215, 1644, 2072, 2500, 2929, 3357, 3785, 4214), 429)
MAXIMA = Table((291, 535, 766, 973, 1155, 1386, 1532, 1751), 219)


def benefit(size: int, net_income: int) -> int:
    """The benefit by 7 CFR 273.10(e)(2)(ii)(A)(2), where the amount is rounded down in place of the 30 percent up."""
    return max(23 if size <= 2 else 0, (10 * MAXIMA.of(size) - 3 * net_income) // 10)


def test_thirty_percent_are_rounded_up(session: Session) -> None:
    """For each net income in dollars from 0 to 3,000, and so the benefit is that of either way to round."""
    session.override("/incomeEligible", True)
    for size in range(1, 10):
        session["/size"] = size
        for income in range(3001):
            session.override("/netIncome", income)
            assert session["/expectedContribution"] == -(-3 * income // 10)
            assert session["/allotment"] == benefit(size, income)


class Household(NamedTuple):
    """What a household answers, in the order of the rules."""

    size: int
    is_exempt: bool
    earnings: Decimal
    other_income: Decimal
    care: Decimal
    medical: Decimal
    takes_homeless: bool
    rent: Decimal
    utilities: Decimal


AMOUNTS = st.decimals(0, 3000, places=2)
HOUSEHOLDS = st.builds(Household, st.integers(1, 12), st.booleans(), *[AMOUNTS] * 4, st.booleans(), *[AMOUNTS] * 2)


def dollars(amount: Decimal) -> int:
    """An amount that isn't negative, rounded by 7 CFR 273.10(e)(1)(ii)(A)."""
    return int(amount.quantize(Decimal(1), ROUND_HALF_UP))


def net_income(it: Household) -> int:
    """The income of a household after all deductions."""
    standard = {4: 208, 5: 244}.get(it.size, 198 if it.size <= 3 else 279)
    medical = max(0, dollars(it.medical) - 35) if it.is_exempt else 0
    earned = dollars(it.earnings)
    adjusted = max(0, earned + dollars(it.other_income) - dollars(Decimal(earned) / 5) - standard - medical - dollars(it.care))
    if it.takes_homeless:
        return dollars(max(Decimal(0), adjusted - Decimal("179.66")))
    excess = max(0, dollars(it.rent) + dollars(it.utilities) - dollars(Decimal(adjusted) / 2))
    return max(0, adjusted - (excess if it.is_exempt else min(excess, 672)))


@given(HOUSEHOLDS)
def test_any_household_has_the_figures_of_the_law(session: Session, it: Household) -> None:
    """The engine's figures are those that were written down in Python apart."""
    asked = [path for path, fact in session.dictionary.facts.items() if fact.is_writable]
    answers: tuple[int | Decimal, ...] = it
    for path, answer in zip(asked, answers, strict=True):
        session[path] = answer
    gross, net = dollars(it.earnings) + dollars(it.other_income), net_income(it)
    is_eligible = net <= NET_LIMITS.of(it.size) and (it.is_exempt or gross <= GROSS_LIMITS.of(it.size))
    assert (session["/grossIncome"], session["/netIncome"], session["/incomeEligible"]) == (gross, net, is_eligible)
    assert session["/allotment"] == (benefit(it.size, net) if is_eligible else 0)


@pytest.fixture(name="pages", scope="module")
def _pages() -> dict[str, dict[str, Any]]:
    return {language: json.loads((EXAMPLES / name).read_text()) for language, name in (("en", "snap.page"), ("es", "snap.es.page"))}


def test_each_question_and_figure_has_its_words(session: Session, pages: dict[str, dict[str, Any]]) -> None:
    """In both languages: a label of its own, what helps to answer, and the paragraph of the law."""
    facts = session.dictionary.facts
    asked, english = [path for path, fact in facts.items() if fact.is_writable], pages["en"]
    assert [path for paths in english["groups"].values() for path in paths] == asked
    for page in pages.values():
        assert list(page["labels"]) == list(facts) and len(set(page["labels"].values())) == len(facts)
        assert [path for path in asked if path not in page["help"]] == []
        assert [path for path in (*asked, *english["figures"]) if "7 CFR 27" not in page["sources"][path]] == []
        assert list(page["headings"]) == list(english["groups"]) and len(page["introduction"]) == 2
    assert set(english["labels"].values()).isdisjoint(pages["es"]["labels"].values())
