"""The page in Chromium and Firefox, as people use it: by keyboard, on a narrow screen, by what they hear."""

from __future__ import annotations

import secrets
import signal
import sqlite3
import time
from contextlib import closing
from pathlib import Path
from typing import Any

import pytest
from selenium.webdriver.common.by import By
from selenium.webdriver.common.keys import Keys

from fact_graph_service.settings import Settings
from pages import EXAMPLES
from screens import Screen
from servers import Worker, served
from waiting import SECONDS

NARROW = 320

ANSWERS = """
return [...document.querySelectorAll(".answer")].map((it) => `${it.querySelector("dt").textContent} = ${it.querySelector("dd").firstChild.textContent}`);
"""

REASONS = """
return [...document.querySelectorAll('.result[data-slot="/help"] > dd > details > ul > li')]
  .map((it) => `${it.querySelector("span").textContent}: ${it.querySelector("strong").textContent}`);
"""

OTHER = """
const line = arguments[0];
return import("/page/http_engine.js").then((it) => it.openEngine()).then(async (engine) => {
  await engine.answer(null, []);
  %s
});
"""
OTHER_CHANGES = OTHER % "return (await engine.answer({ id: crypto.randomUUID(), line }, [])).reply;"
OTHER_ENDS = OTHER % "await engine.end(); return 1;"

# What the page shows of a change of the bill that is on its way. It goes from one to the other, so that all is looked at in one instant.
SHOWS = """
[".status", '.field[data-slot="/bill"] .note'].map((it) => document.querySelector(it).textContent)"""
SENDING = f"{SHOWS}.every((it) => it === 'Saving…')"
WAITING = f"""
document.querySelector(".status").classList.contains("waiting") && !document.querySelector(".outdated").hidden
  && {SHOWS}.every((it) => /isn't saved yet|Not saved yet/.test(it))"""

# Keeps the answers at the warning, as soon as a person can.
KEEPS = """
const seen = new MutationObserver(() => {
  const dialog = document.querySelector("dialog[open]");
  if (!dialog) return;
  seen.disconnect();
  document.body.dataset.warned = dialog.querySelector("h2").textContent;
  dialog.querySelector("button").click();
});
seen.observe(document.body, { subtree: true, childList: true, attributes: true });
"""


@pytest.fixture
def screen(driver: Any, worker: Worker) -> Screen:
    """The page of a visitor who answered nothing."""
    return Screen(driver, worker).open()


def fill(screen: Screen) -> None:
    """A household, filled in by keyboard alone."""
    screen.write("/bill", "$1,240.50")
    screen.saved()
    screen.choose("/tenure", "rents")
    screen.press("Add person")
    screen.saved()
    screen.until("document.querySelector('.field[data-slot=\"/people/#1/born\"]') !== null")
    month, day, year = screen.driver.find_elements(By.CSS_SELECTOR, '.field[data-slot="/people/#1/born"] input')
    month.send_keys("11")
    day.send_keys("30")
    year.send_keys("1958", Keys.TAB)
    screen.write("/people/#1/wages", "0")
    screen.write("/savings", "4000.")
    screen.saved()


def test_a_household_is_filled_in_by_keyboard(screen: Screen) -> None:
    fill(screen)
    screen.until("document.querySelector('.result[data-slot=\"/help\"]').dataset.kind === 'final'")
    assert (screen.result("/help"), screen.result("/outcome")) == ("$1,240.50", "Full")
    screen.picture("filled")
    assert "All answers are saved." in screen.text(".status")
    screen.press("Review your answers")
    screen.until("document.querySelector('.review:not([hidden])') !== null")
    answers = screen.js(ANSWERS)
    assert "Heating bill = $1,240.50" in answers and "Person 1: Born on = November 30, 1958" in answers
    screen.picture("review")
    screen.driver.find_element(By.CSS_SELECTOR, '.answer[data-slot="/bill"] button').send_keys(Keys.ENTER)
    assert screen.focused() == "/bill"


def test_what_was_answered_stands_when_the_page_is_loaded_again(screen: Screen) -> None:
    fill(screen)
    screen.load()
    screen.field("/people/#1/born")
    standing = screen.js("return [...document.querySelectorAll('.field[data-slot=\"/people/#1/born\"] input')].map((it) => it.value)")
    assert standing == ["11", "30", "1958"]
    screen.field("/people/#1/born").send_keys(Keys.TAB, Keys.TAB, Keys.TAB)
    screen.saved()
    assert screen.js("return document.querySelector('.result[data-slot=\"/help\"]').dataset.kind") == "final", "to look at it changes nothing"


def test_amounts_are_taken_as_people_write_them(screen: Screen) -> None:
    for text in ("1,240.50", "$1240.50", "1240.5", "$ 1,240.50"):
        screen.write("/bill", text)
        screen.saved()
        assert (screen.error("/bill"), screen.field("/bill").get_property("value")) == ("", "1,240.50")


def test_what_is_wrong_is_told_in_plain_words_beside_the_field_and_in_a_summary(screen: Screen) -> None:
    screen.write("/bill", "6000")
    screen.until("document.querySelector('.summary:not([hidden])') !== null")
    assert screen.error("/bill") == "Error: Enter $5,000.00 or less."
    screen.write("/caseNumber", "12-345678")
    screen.until("document.querySelectorAll('.summary li').length === 2")
    assert screen.error("/caseNumber") == "Error: Enter exactly nine digits, without blanks or dashes."
    assert screen.text(".summary h3") == "Please correct these 2 answers"
    assert "All answers are saved." not in screen.text(".status")
    screen.picture("errors")
    screen.choose("/tenure", "rents")
    assert screen.error("/bill") != "", "another answer doesn't wipe it"
    screen.press("Review your answers")
    screen.until("document.activeElement.className === 'summary'")
    screen.find(".summary a").send_keys(Keys.ENTER)
    assert screen.focused() in ("/bill", "/caseNumber")
    assert screen.field("/bill").accessible_name.startswith("Heating bill")
    assert screen.js("return arguments[0].getAttribute('aria-invalid')", screen.field("/bill")) == "true"


def test_an_earlier_answer_wipes_no_later_error(screen: Screen, worker: Worker) -> None:
    worker.send(signal.SIGSTOP)
    try:
        screen.write("/bill", "5")
        screen.write("/bill", "x")
    finally:
        worker.send(signal.SIGCONT)
    screen.saved()
    assert (screen.error("/bill"), screen.field("/bill").get_property("value")) == ("Error: Enter an amount in dollars, such as 1,240.50.", "x")


def test_an_answer_that_was_not_sent_is_never_shown_as_sent(screen: Screen, worker: Worker) -> None:
    screen.write("/bill", "1240.50")
    screen.saved()
    worker.end(signal.SIGKILL)
    try:
        screen.write("/bill", "2000")
        screen.until(WAITING)
        screen.picture("offline")
        screen.field("/tenure", 'input[value="rents"]').send_keys(Keys.SPACE)
    finally:
        worker.begin()
    screen.saved()
    assert (screen.text('.field[data-slot="/bill"] .note'), screen.field("/bill").get_property("value")) == ("", "2,000.00")
    assert "value /bill 2000.00\nvalue" not in screen.text("body")
    screen.load()
    screen.until("document.querySelector('.field[data-slot=\"/bill\"] input').value === '2,000.00'")
    assert screen.js("return document.querySelector('.field[data-slot=\"/tenure\"] input[value=rents]').checked"), "all stands after a new start"


def test_a_call_that_takes_long_is_seen(screen: Screen, worker: Worker) -> None:
    worker.send(signal.SIGSTOP)
    try:
        screen.write("/bill", "5")
        screen.until(SENDING)
    finally:
        worker.send(signal.SIGCONT)
    screen.saved()


def test_focus_stays_where_it_is(screen: Screen) -> None:
    screen.choose("/tenure", "rents")
    for _ in range(3):
        button = screen.press("Undo")
        screen.saved()
        assert screen.js("return document.activeElement === arguments[0]", button)
    assert "nothing to undo" in screen.text(".status")
    screen.press("Add person")
    screen.saved()
    assert screen.focused() == "/people/#1/born"
    screen.press("Remove")
    screen.saved()
    assert screen.focused() == "/people"


def test_what_moves_is_heard_with_its_name(screen: Screen) -> None:
    fill(screen)
    screen.write("/bill", "1000")
    screen.saved()
    screen.until("document.querySelector('[role=status].sr-only').textContent !== ''")
    assert screen.text("[role=status].sr-only") == "Amount of help: $1,000.00, final"
    assert screen.js("return document.querySelectorAll('.result [aria-live], .result [role=status]').length") == 0


def test_why_a_figure_is_what_it_is(screen: Screen) -> None:
    fill(screen)
    screen.js("document.querySelector('.result[data-slot=\"/help\"] summary').scrollIntoView()")
    screen.find('.result[data-slot="/help"] summary').send_keys(Keys.ENTER)
    screen.until("document.querySelectorAll('.result[data-slot=\"/help\"] li').length > 1")
    assert sorted(screen.js(REASONS)) == ["Heating bill: $1,240.50", "Help is granted: Full"]


def test_a_narrow_screen_has_all(driver: Any, worker: Worker) -> None:
    screen = Screen(driver, worker).open(NARROW)
    assert abs(screen.js("return innerWidth") - NARROW) <= 1
    fill(screen)
    assert screen.js("return document.documentElement.scrollWidth <= innerWidth")
    assert screen.js("return document.querySelector('.follows').getBoundingClientRect().top < document.querySelector('.asked').getBoundingClientRect().top")
    assert screen.js("const box = document.querySelector('.follows').getBoundingClientRect(); return box.top + scrollY < 1200")
    screen.picture("narrow")


def test_the_words_are_spanish_where_they_are_asked_for(screen: Screen) -> None:
    screen.press("Español")
    screen.until("document.documentElement.lang === 'es'")
    assert screen.text("h1") == "Ayuda con la factura de la calefacción"
    screen.write("/bill", "6000")
    screen.until("document.querySelector('.summary:not([hidden])') !== null")
    assert screen.error("/bill") == "Error: Escriba $5,000.00 o menos."
    labels = screen.js("return [...document.querySelectorAll('.choice label')].map((it) => it.textContent)")
    assert labels == ["Alquilamos", "Es nuestra", "Otra cosa"]
    screen.picture("spanish")


def test_what_ends_is_asked_and_erased(screen: Screen) -> None:
    fill(screen)
    opener = screen.press("End and erase")
    screen.until("document.querySelector('dialog[open]') !== null")
    screen.find("dialog button").send_keys(Keys.ENTER)
    screen.until("document.querySelector('dialog') === null")
    assert screen.js("return document.activeElement === arguments[0]", opener)
    screen.press("End and erase")
    screen.press("Erase my answers")
    screen.until("document.querySelector('.over') !== null")
    assert screen.text(".over h2") == "Your answers were erased."
    screen.load()
    assert screen.field("/bill").get_property("value") == ""


def test_a_window_whose_answers_are_gone_says_so_and_keeps_what_is_seen(screen: Screen) -> None:
    screen.write("/bill", "5")
    screen.saved()
    assert screen.js(OTHER_ENDS) == 1
    screen.write("/savings", "7")
    screen.until("document.querySelector('.over') !== null")
    assert screen.text(".over h2") == "Your answers are no longer kept"
    assert screen.field("/bill").get_property("value") == "5.00"


def test_another_window_is_told(screen: Screen) -> None:
    screen.write("/bill", "5")
    screen.saved()
    assert screen.js(OTHER_CHANGES, "set /bill 6") == "ok"
    screen.write("/savings", "7")
    screen.saved()
    assert screen.field("/bill").get_property("value") == "6.00"
    assert "another window" in screen.text("[role=alert]")
    assert screen.field("/savings").get_property("value") == "7.00", "what the other window left alone is answered"
    assert screen.js(OTHER_CHANGES, "set /bill 8") == "ok"
    screen.write("/bill", "9")
    screen.until("document.querySelector('.field[data-slot=\"/bill\"] .error').textContent !== ''")
    assert "wasn't saved" in screen.error("/bill")
    screen.saved()
    assert screen.field("/bill").get_property("value") == "8.00", "what stands is seen"
    assert screen.js(OTHER_CHANGES, "undo") == "ok"
    assert screen.load().field("/bill").get_property("value") == "6.00", "the 9 was never made"


def test_a_warning_comes_before_the_time_is_over(driver: Any, tmp_path: Path) -> None:
    file = tmp_path / "store.sqlite"
    with served(Settings(EXAMPLES / "screener.json", f"sqlite:{file}", secrets.token_bytes(32), minutes=1, rate=10_000)) as (worker,):
        screen = Screen(driver, worker).open()
        begun = time.monotonic()
        screen.write("/bill", "5")
        screen.saved()
        screen.js(KEEPS)
        with closing(sqlite3.connect(file, timeout=SECONDS)) as store, store:  # pylint: disable=confusing-with-statement # its transaction
            store.execute("UPDATE sessions SET expires = expires + 3600")  # for a slow machine; the page knows of a minute
        screen.until("document.body.dataset.warned")
        assert 20 < time.monotonic() - begun
        assert screen.js("return document.body.dataset.warned") == "Are you still there?"
        screen.until("document.querySelector('dialog') === null")
        assert screen.field("/bill").get_property("value") == "5.00"
        with closing(sqlite3.connect(file)) as store:
            assert store.execute("SELECT expires FROM sessions").fetchone()[0] <= time.time() + 60, "a minute from when they were kept"


def test_who_has_answers_that_cannot_be_read_can_start_over(driver: Any, tmp_path: Path) -> None:
    file = tmp_path / "store.sqlite"
    with served(Settings(EXAMPLES / "screener.json", f"sqlite:{file}", secrets.token_bytes(32), rate=10_000)) as (worker,):
        screen = Screen(driver, worker).open()
        screen.write("/bill", "5")
        screen.saved()
        worker.end(signal.SIGKILL)
        with closing(sqlite3.connect(file, timeout=SECONDS)) as store, store:  # pylint: disable=confusing-with-statement # its transaction
            store.execute("UPDATE changes SET sealed = x'00'")
        worker.begin()
        driver.get(screen.address)
        screen.until("document.querySelector('.status')?.textContent.includes('is tried again')")
        screen.press("Start over")
        screen.until("document.querySelector('dialog[open]') !== null")
        screen.press("Erase and start over")
        assert screen.field("/bill").get_property("value") == ""


SMALL = """{"version":"1","facts":[
{"path":"/wages","writable":"Dollar"},
{"path":"/people","writable":"Collection"},
{"path":"/people/*/age","writable":"Int","limits":[["Max","120"]]},
{"path":"/children","derived":"Collection(/people)","is":["Filter","/people",["LessThan",["Dependency","age"],["Int","18"]]]},
{"path":"/credit","derived":"Dollar","is":["Add",["Dependency","/wages"],["Multiply",["Dollar","100"],["CollectionSize","/children"]]]}]}"""


def test_one_question_a_screen(driver: Any, tmp_path: Path) -> None:
    (tmp_path / "small.json").write_text(SMALL)
    (tmp_path / "small.page").write_text('{"layout": "one", "labels": {"/people/*": "Person"}}')
    with served(Settings(tmp_path / "small.json", f"sqlite:{tmp_path}/store.sqlite", secrets.token_bytes(32), rate=10_000)) as workers:
        screen = Screen(driver, workers[0]).open(NARROW)
        seen = "return [...document.querySelectorAll('.asked .field')].map((it) => it.dataset.slot)"
        assert screen.js(seen) == ["/wages"]
        screen.press("Continue")
        screen.until("document.activeElement.className === 'summary'")
        assert screen.error("/wages") == "Error: Enter an answer."
        screen.field("/wages").send_keys("1,000", Keys.ENTER)
        screen.until("document.querySelector('.field[data-slot=\"/people\"]') !== null")
        screen.press("Add person")
        screen.saved()
        screen.press("Continue")
        screen.until("document.querySelector('.field[data-slot=\"/people/#1/age\"]') !== null")
        assert screen.text(".asked .member-name") == "Person 1"
        screen.field("/people/#1/age").send_keys("130", Keys.ENTER)
        screen.until("document.activeElement.className === 'summary'")
        assert screen.error("/people/#1/age") == "Error: Enter 120 or less."
        screen.write("/people/#1/age", "7")
        screen.saved()
        assert screen.result("/credit") == "$1,100.00"
        screen.press("Continue")
        screen.until("document.querySelector('.review:not([hidden])') !== null")
        assert screen.text(".review .progress") == "All questions are answered."


def test_a_dictionary_with_only_questions_has_a_page(driver: Any, tmp_path: Path) -> None:
    (tmp_path / "only.json").write_text('{"version":"1","facts":[{"path":"/name","writable":"Text"},{"path":"/age","writable":"Int"}]}')
    with served(Settings(tmp_path / "only.json", f"sqlite:{tmp_path}/store.sqlite", secrets.token_bytes(32), rate=10_000)) as workers:
        screen = Screen(driver, workers[0]).open()
        screen.write("/name", "Ada")
        screen.write("/age", "36")
        screen.saved()
        screen.until("document.querySelector('.progress').textContent === 'All questions are answered.'")
