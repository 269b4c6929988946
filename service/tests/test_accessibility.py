"""The rules of the Web Content Accessibility Guidelines 2.2, levels A and AA, over each interview.

A walk goes through an interview by keyboard alone. What breaks a rule of `audit.RULES` is noted at each state of the page; what depends
on where the focus goes, or on another size of the page or of its text, is looked at on the way.
"""

from __future__ import annotations

from collections import defaultdict
from typing import Any

import pytest
from selenium.webdriver.common.keys import Keys

import audit
from interviews import INTERVIEWS, Interview
from screens import WIDE, Screen
from servers import Worker

NARROW = 320
ANSWERS = """
const answer = (it) => (it.type === "radio" ? it.checked : it.value);
const answers = (it) => [...it.querySelectorAll("input, select")].map(answer).join();
return Object.fromEntries([...document.querySelectorAll(".field")].map((it) => [it.dataset.slot, answers(it)]));
"""
AT_THE_TOP = "document.querySelector('.head button').focus()"
"""The keyboard goes on from the first button of the page's head."""
CONTROLS = """
const place = document.querySelector("dialog[open]") ?? document;
return [...place.querySelectorAll("button, input, select, summary, a[href]")].filter((it) => it.checkVisibility());
"""
WITH_RULE = "document.styleSheets[0].insertRule(arguments[0], document.styleSheets[0].cssRules.length)"
WITHOUT_RULE = "document.styleSheets[0].deleteRule(document.styleSheets[0].cssRules.length - 1)"
ROLES = {"button", "textbox", "radio", "combobox", "link", "summary", "disclosuretriangle"}


class Walk:
    """What was found on a walk through an interview."""

    def __init__(self, screen: Screen, interview: Interview) -> None:
        self.screen, self.interview = screen, interview
        self.broken: dict[str, list[str]] = defaultdict(list)

    def note(self, rule: str, state: str, found: list[str]) -> None:
        """Notes what breaks a rule."""
        self.broken[rule] += [f"{state}: {it}" for it in found]

    def look(self, state: str) -> None:
        """Looks at all rules that hold whenever they are looked at."""
        for rule, code in audit.RULES.items():
            self.note(rule, state, self.screen.js(audit.ELEMENTS + code))

    def names(self, state: str) -> None:
        """Looks at the names and roles of the controls, as those hear them who don't see the page."""
        for control in self.screen.js(CONTROLS):
            name, seen = " ".join(control.accessible_name.split()), " ".join(control.text.split())
            role = control.aria_role or control.get_property("localName")  # Firefox has no word for a summary's role
            self.note("label_in_name", state, [] if name and seen in name else [f"{seen!r} is named {name!r}"])
            self.note("name_and_role", state, [] if role.lower() in ROLES else [f"{name!r} is a {role!r}"])

    def size(self, state: str, rule: str) -> None:
        """Looks at what holds at any size, with a rule of style more."""
        self.screen.js(WITH_RULE, rule)
        for name in ("reflow", "nothing_is_cut"):
            self.note(name, state, self.screen.js(audit.ELEMENTS + audit.RULES[name]))
        self.screen.js(WITHOUT_RULE)

    def stops(self, state: str, panels: list[str]) -> None:
        """Goes through the page by the tabulator, from its top to its end."""
        self.screen.js(AT_THE_TOP)
        self.screen.back()
        due, stops = self.screen.js(audit.STOPS), list[dict[str, Any]]()
        for _ in range(due):
            self.screen.drawn()
            stop = self.screen.js(audit.STOP)
            self.screen.keys(Keys.TAB)
            if stop is None:
                break
            stops.append(stop)
        self.screen.come_back()
        self.note("keyboard", state, [] if len({stop["name"] + stop["key"] for stop in stops}) == due else [f"{len(stops)} of {due} stops"])
        self.note("focus_visible", state, [stop["name"] for stop in stops if not stop["isOutlined"]])
        self.note("focus_not_obscured", state, [stop["name"] for stop in stops if not stop["isSeen"]])
        self.note("focus_order", state, out_of_order(stops))
        came = list(dict.fromkeys(stop["panel"].split(" ")[-1] for stop in stops))
        self.note("focus_order", state, [] if [panel for panel in came if panel in panels] == panels else [str(came)])

    def walk(self) -> None:
        """Goes through the interview."""
        screen = self.screen
        self.look("begun")
        screen.keys(Keys.TAB)
        self.note("bypass_blocks", "begun", [] if "Skip" in screen.js("return document.activeElement.textContent") else ["the first stop isn't the skip link"])
        screen.keys(Keys.ENTER)
        self.note("bypass_blocks", "begun", [] if screen.js("return document.activeElement.id") == "asked" else ["the link skips nothing"])
        self.interview.fill(screen)
        self.look("filled")
        said = [screen.text(".status[role=status]"), screen.text(".sr-only[role=status]")]
        self.note("status_messages", "filled", [] if "All answers are saved." in said[0] and said[1] else said)
        self.names("filled")
        self.stops("filled", ["asked", "follows"])
        self.wrong()
        self.narrow()
        self.spoken()
        self.reviewed()

    def wrong(self) -> None:
        """Answers what is wrong, and mends it."""
        screen, before = self.screen, self.screen.js(ANSWERS)
        for slot, text in self.interview.wrong.items():
            screen.write(slot, text)
            screen.until(f"document.querySelector('.field[data-slot=\"{slot}\"] .error').textContent !== ''")
        self.look("wrong")
        heard = screen.js("return [...document.querySelectorAll('[role=alert]')].map((it) => it.textContent).filter(Boolean)")
        self.note("status_messages", "wrong", [] if len(heard) == len(self.interview.wrong) else heard)
        screen.press("Undo")
        screen.saved()
        screen.press("Redo")
        screen.saved()
        after = screen.js(ANSWERS)
        self.note("error_prevention", "mended", [] if after == before else [f"{before} became {after}"])

    def narrow(self) -> None:
        """Looks at the page on a telephone, with larger text, and with more space in it."""
        screen = self.screen
        self.size("spaced text", audit.SPACED_TEXT)
        screen.resize(NARROW)
        self.look("narrow")
        self.size("narrow, spaced text", audit.SPACED_TEXT)
        self.stops("narrow", ["follows", "asked"])
        screen.resize(WIDE)
        self.size("larger text", audit.LARGER_TEXT)

    def spoken(self) -> None:
        """Changes the language, and changes it back."""
        screen, before = self.screen, self.screen.js(ANSWERS)
        for word, language in (("Español", "es"), ("English", "en")):
            self.note("language_of_parts", word, [] if screen.find(".head button").get_property("lang") == language else [word])
            screen.press(word)
            screen.until(f"document.documentElement.lang === '{language}'")
            self.look(word)
            after = screen.js(ANSWERS)
            self.note("redundant_entry", word, [] if after == before else [f"{before} became {after}"])

    def reviewed(self) -> None:
        """Reads all answers before the end, goes back to one, and asks to end, but doesn't."""
        screen, before = self.screen, self.screen.js(ANSWERS)
        screen.press("Review your answers")
        screen.until("document.activeElement.id === 'reviewed'")
        self.look("review")
        self.names("review")
        screen.press("Change")
        self.note("redundant_entry", "changed", [] if screen.js(ANSWERS) == before else ["an answer is asked again"])
        opener = screen.press("End and erase")
        screen.until("document.querySelector('dialog[open]') !== null")
        self.look("asked")
        self.names("asked")
        screen.keys(Keys.ESCAPE)
        screen.until("document.querySelector('dialog') === null")
        self.note("focus_order", "asked", [] if screen.js("return document.activeElement === arguments[0]", opener) else ["the focus is lost"])


def out_of_order(stops: list[dict[str, Any]]) -> list[str]:
    """The stops that stand before the one before them, in the same panel."""
    found = []
    for before, stop in zip(stops, stops[1:]):
        is_above = stop["top"] + stop["height"] <= before["top"]
        is_left = abs(stop["top"] - before["top"]) < before["height"] / 2 and stop["left"] < before["left"]
        if stop["panel"] == before["panel"] and (is_above or is_left):
            found.append(f"{stop['name']} behind {before['name']}")
    return found


@pytest.fixture(scope="session", params=INTERVIEWS)
def walk(request: pytest.FixtureRequest, driver: Any, workers: dict[str, Worker]) -> Walk:
    """A walk through an interview."""
    made = Walk(Screen(driver, workers[request.param]).open(), INTERVIEWS[request.param])
    made.walk()
    return made


FOUND_ON_THE_WAY = (
    "bypass_blocks", "keyboard", "focus_order", "focus_visible", "focus_not_obscured", "label_in_name", "name_and_role", "status_messages",
    "error_prevention", "language_of_parts", "redundant_entry",
)  # fmt: skip


@pytest.mark.parametrize("rule", [*audit.RULES, *FOUND_ON_THE_WAY])
def test_a_rule_is_kept(walk: Walk, rule: str) -> None:
    assert walk.broken[rule] == []
    assert set(walk.broken) == {*audit.RULES, *FOUND_ON_THE_WAY}, "each rule was looked at, and no other"


def test_the_purpose_of_what_is_asked_of_the_person_is_said(driver: Any, workers: dict[str, Worker]) -> None:
    screen = Screen(driver, workers["year 2023"]).open()
    for slot, value in (("/married", "true"), ("/fileJointly", "true"), ("/canBeClaimed", "false")):
        screen.choose(slot, value)
    screen.field("/dateOfBirth")
    said = screen.js("return [...document.querySelectorAll('.field[data-slot=\"/dateOfBirth\"] input')].map((it) => it.getAttribute('autocomplete'))")
    assert said == ["bday-month", "bday-day", "bday-year"]


@pytest.mark.parametrize("name", INTERVIEWS)
def test_the_accessibility_tree_says_what_is_seen(driver: Any, workers: dict[str, Worker], name: str) -> None:
    screen = Screen(driver, workers[name]).open()
    slot, text = next(iter(INTERVIEWS[name].wrong.items()))
    screen.write(slot, text)
    screen.until(f"document.querySelector('.field[data-slot=\"{slot}\"] .error').textContent !== ''")
    wrong = screen.field(slot)
    assert (wrong.aria_role, screen.js("return arguments[0].getAttribute('aria-invalid')", wrong)) == ("textbox", "true")
    if hasattr(driver, "execute_cdp_cmd"):  # Firefox shows its tree to no test
        nodes = [Node(it) for it in driver.execute_cdp_cmd("Accessibility.getFullAXTree", {})["nodes"] if not it["ignored"]]
        reached = [it for it in nodes if it.says("focusable") and it.role != "RootWebArea"]
        assert [it for it in reached if not it.name or it.role in ("generic", "none")] == []
        assert {"banner", "main", "region", "heading", "radiogroup", "status"} <= {it.role for it in nodes}
        assert [it for it in nodes if it.role in ("radiogroup", "region") and not it.name] == []
        [stated] = [it for it in nodes if it.says("invalid") == "true"]
        assert stated.name == " ".join(wrong.accessible_name.split()) and screen.error(slot) in stated.description
        assert any(it.says("required") for it in nodes)


class Node:
    """A node of Chromium's accessibility tree."""

    def __init__(self, told: dict[str, Any]) -> None:
        self.role, self.name = str(told["role"]["value"]), " ".join(str(told.get("name", {}).get("value", "")).split())
        self.description = str(told.get("description", {}).get("value", ""))
        self._properties = {it["name"]: it["value"].get("value") for it in told.get("properties", [])}

    def __repr__(self) -> str:
        return f"{self.role} {self.name!r}"

    def says(self, name: str) -> Any:
        """The value of a property, or None."""
        return self._properties.get(name)
