"""The tax years, served with questions in plain words; that of 2023 is filled in on a telephone by keyboard alone."""

from __future__ import annotations

import secrets
from contextlib import AbstractContextManager
from pathlib import Path
from typing import Any

import pytest
from selenium.webdriver.common.keys import Keys

from fact_graph_service.settings import Settings
from interviews import fill_year
from pages import EXAMPLES, Page
from screens import WIDE, Screen
from servers import Worker, held_ports
from test_workers import page_at, serving, wait_for

YEAR = "year 2023"
# How many questions there are, and the examples that are run.
ASKED = {"year 2023": 27, "year 2024": 27, "income 2023": 28}
HOUSEHOLDS = {"year 2023": "years/2023", "income 2023": "income/2023"}
NARROW = 320
STEPS = ("get", "final")
CHANGES = ("set", "add", "undo")
GROUPS = "return [...document.querySelectorAll('.asked .group')].map((it) => `${it.querySelector('h3').textContent}: ${it.querySelectorAll('.field').length}`)"
PANELS = "return [...document.querySelector('main').children].filter((it) => !it.hidden).map((it) => it.className)"
REVIEWED = """
return [...document.querySelectorAll(".answer")].map((it) => `${it.querySelector("dt").textContent} ${it.querySelector("dd").firstChild.textContent}`);
"""


def lines_of_household(name: str) -> list[tuple[str, str]]:
    """The commands of a household, with the replies that are due."""
    script = [line for line in (EXAMPLES / f"{name}.script").read_text().splitlines() if line and not line.startswith("#")]
    return list(zip(script, (EXAMPLES / f"{name}.replies").read_text().splitlines(), strict=True))


def opened(words: str, folder: Path) -> AbstractContextManager[Page]:
    """A page of a new visitor over the rules of a tax year."""
    return Page.open(Settings(words, f"sqlite:{folder}/store.sqlite", secrets.token_bytes(32), rate=10_000))


@pytest.mark.parametrize(("words", "count"), ASKED.items())
def test_each_question_has_its_words_in_both_languages(tmp_path: Path, words: str, count: int) -> None:
    with opened(words, tmp_path) as page:
        form = page.client.get("/form.json").json()
    asked = [path for path, fact in form["facts"].items() if fact["isWritable"]]
    assert asked[0] == "/married" and len(asked) == count
    for language in ("en", "es"):
        said = form["languages"][language]
        assert [path for path in (*asked, *form["figures"]) if not said["facts"][path]["source"]] == []
        assert len(said["introduction"]) > 2 and len(said["headings"]) == len(form["groups"]) == 4
    english, spanish = (form["languages"][language] for language in ("en", "es"))
    same = [path for path in form["facts"] if english["facts"][path]["label"] == spanish["facts"][path]["label"]]
    assert same == []
    assert set(english["options"]["filingStatus"].values()).isdisjoint(spanish["options"]["filingStatus"].values())


@pytest.mark.parametrize(("words", "name"), HOUSEHOLDS.items())
def test_a_household_has_its_replies(tmp_path: Path, words: str, name: str) -> None:
    with opened(words, tmp_path) as page:
        for line, reply in lines_of_household(name):
            verb = line.split(" ")[0]
            if verb in CHANGES:
                assert page.change(line)["reply"] == reply, line
            else:
                assert verb in STEPS and page.ask(line) == [reply], line


@pytest.mark.parametrize("words", [["year", "2023"], ["year 2023"]])
def test_the_command_line_serves_it(tmp_path: Path, words: list[str]) -> None:
    with held_ports(1) as (port,):
        with serving(tmp_path, *words, f"--port={port}") as server:
            wait_for(server, port)
            page = page_at(port)
            assert page.change("set /married false", "get /filingStatus")["reply"] == "ok"
            title = page.client.get("/form.json").json()["languages"]["en"]["title"]
    assert title.startswith("Tax year 2023") and (tmp_path / "year 2023.sqlite").is_file()


def test_it_is_filled_in_on_a_telephone_by_keyboard(driver: Any, workers: dict[str, Worker]) -> None:
    screen = Screen(driver, workers[YEAR]).open(NARROW)
    screen.picture("year-begun")
    screen.keys(Keys.TAB)
    screen.keys(Keys.ENTER)
    fill_year(screen)
    screen.until("document.querySelector('.progress').textContent === 'All questions are answered.'")
    figures = {slot: screen.result(slot) for slot in ("/filingStatus", "/standardDeduction", "/totalIncome", "/taxableIncome", "/dependentCount")}
    assert figures == {
        "/filingStatus": "Married filing jointly",
        "/standardDeduction": "$30,700.00",
        "/totalIncome": "$55,000.50",
        "/taxableIncome": "$24,300.50",
        "/dependentCount": "1",
    }
    assert screen.result("/dependents/#1/isDependent") == "Yes"
    assert screen.js(GROUPS) == ["Filing status: 2", "Standard deduction: 5", "Dependents: 6", "Income: 2"]
    assert screen.js("return document.documentElement.scrollWidth <= innerWidth")
    screen.picture("year-narrow")
    screen.resize(WIDE)
    assert screen.js(PANELS) == ["panel asked", "panel follows"]
    screen.picture("year")
    screen.press("Review your answers")
    screen.until("document.activeElement.id === 'reviewed'")
    assert screen.js(REVIEWED)[:2] == ["Were you married on December 31, 2023? Yes", "Do you and your spouse file a joint return? Yes"]
    assert "Person 1: Date of birth May 1, 2010" in screen.js(REVIEWED)
