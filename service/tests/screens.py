"""The page in a browser, and what a person does there."""

from __future__ import annotations

import os
from contextlib import suppress
from pathlib import Path
from typing import Any

from selenium.common.exceptions import JavascriptException
from selenium.webdriver.common.action_chains import ActionChains
from selenium.webdriver.common.by import By
from selenium.webdriver.common.keys import Keys

from servers import Worker
from waiting import wait_until

WIDE = 1280
PICTURES = os.environ.get("FACT_GRAPH_PICTURES")
"""A folder for pictures of the page, where they are wanted."""

END = """
const headers = { "Content-Type": "application/json", "X-Token": document.querySelector("meta[name=token]").content };
return fetch("end", { method: "POST", headers, body: "{}" }).then(() => 0);
"""

FRAMES = "return new Promise((done) => requestAnimationFrame(() => requestAnimationFrame(() => done(null))))"
BUTTON = "[...document.querySelectorAll('button')].find((it) => it.checkVisibility() && it.innerText.trim().startsWith(arguments[0]))"
"""The first button that is seen with a text."""
WAY = """
const [slot, kind] = arguments;
const it = document.activeElement;
const field = document.querySelector(`.field[data-slot="${slot}"]`);
const isOfIt = (one) => one.matches(kind) && one.closest(".field") === field;
if (isOfIt(it)) return 0;
const first = [...field.querySelectorAll(kind)].find(isOfIt);
return it.compareDocumentPosition(first) & Node.DOCUMENT_POSITION_PRECEDING ? -1 : 1;
"""
"""Which way the controls of a field are from the focus; 0 where it is at one of them."""
MOST_STOPS = 150
"""More stops than a page here has."""


class Screen:
    """A page in a browser, and what a person does there."""

    def __init__(self, driver: Any, worker: Worker) -> None:
        self.driver, self.address = driver, f"http://127.0.0.1:{worker.port}/"

    def open(self, width: int = WIDE) -> Screen:
        """Opens the page for a new visitor."""
        self.load()
        self.js(END)
        self.load()
        self.resize(width)
        return self

    def load(self) -> Screen:
        """Loads the page anew."""
        self.driver.get(self.address)
        self.until("document.querySelector('.result, .field') !== null")
        self.come_back()
        return self

    def resize(self, width: int, height: int = 900) -> None:
        """Gives the page this width, whatever the window's edges are: Chromium by its own command, and Firefox, whose window can't be so
        narrow, by the zoom of its page."""
        if hasattr(self.driver, "execute_cdp_cmd"):
            self.driver.execute_cdp_cmd("Emulation.setDeviceMetricsOverride", {"width": width, "height": height, "deviceScaleFactor": 1, "mobile": False})
            self.until(f"Math.abs(innerWidth - {width}) <= 1")
        else:
            self.driver.set_window_rect(0, 0, WIDE, height)
            wait_until(f"the page is {width} pixels wide", lambda: self.is_zoomed_to(width))
        self.drawn()

    def is_zoomed_to(self, width: int) -> bool:
        """Whether Firefox's page has this width. Where it hasn't, it is zoomed, and has it a while later."""
        now, of_window = self.js("return [innerWidth, innerWidth * devicePixelRatio]")
        is_so = bool(abs(now - width) <= 1)
        if not is_so:
            self.driver.zoom(of_window / width)
        return is_so

    def drawn(self) -> None:
        """Waits until the page is drawn as it stands now."""
        self.js(FRAMES)

    def js(self, code: str, *given: Any) -> Any:
        """What a script returns."""
        return self.driver.execute_script(code, *given)

    def until(self, code: str, *given: Any) -> Any:
        """Waits until the code gives a true value, and returns it. The code may speak of what isn't there yet."""
        value: Any = None

        def is_there() -> Any:
            nonlocal value
            with suppress(JavascriptException):
                value = self.js(f"return ({code})", *given)
            return value

        wait_until(f"{code} on the page, of {given}", is_there)
        return value

    def saved(self) -> None:
        """Waits until all changes are answered."""
        self.until("document.querySelector('main').dataset.state === 'idle'")

    def find(self, selector: str) -> Any:
        return self.driver.find_element(By.CSS_SELECTOR, selector)

    def field(self, slot: str, inside: str = "input, select") -> Any:
        """The first part of a field of this kind, once the field is there."""
        selector = f'.field[data-slot="{slot}"] :is({inside})'
        return self.until("document.querySelector(arguments[0])", selector)

    def write(self, slot: str, text: str) -> None:
        """Writes into a field over what stands there, and leaves it by the tabulator."""
        field = self.field(slot)
        field.send_keys(Keys.CONTROL, "a")
        field.send_keys(text, Keys.TAB)

    # ---- by keyboard alone

    def keys(self, *keys: str) -> None:
        """Presses keys, wherever the focus is."""
        ActionChains(self.driver).send_keys(*keys).perform()

    def back(self) -> None:
        """Goes back to the control before."""
        ActionChains(self.driver).key_down(Keys.SHIFT).send_keys(Keys.TAB).key_up(Keys.SHIFT).perform()

    def come_back(self) -> None:
        """Goes on in the page, where the tabulator may have come to the browser's own controls. In Chromium all keys are the page's."""
        if hasattr(self.driver, "focus_page"):
            self.driver.focus_page()

    def reach(self, slot: str, kind: str = "input, select") -> None:
        """Goes by the tabulator to a control of a field, once the field is there: on, or back where an answer brought it."""
        self.until(f"document.querySelector('.field[data-slot=\"{slot}\"]') !== null")
        for _ in range(MOST_STOPS):
            way = self.js(WAY, slot, kind)
            if way == 0:
                return
            if way < 0:
                self.back()
            else:
                self.keys(Keys.TAB)
        raise AssertionError(f"the keyboard doesn't come to {slot}")

    def type(self, *texts: str) -> None:
        """Writes into the field that has the focus, and into those behind it, and leaves the last."""
        for text in texts:
            self.keys(text, Keys.TAB)
        self.saved()

    def answer(self, *, is_first: bool) -> None:
        """Chooses the first or the second of the buttons that have the focus."""
        self.keys(Keys.SPACE if is_first else Keys.ARROW_DOWN)
        self.saved()

    def add(self) -> None:
        """Adds a member by the button that has the focus, which goes to the member's first field."""
        self.keys(Keys.ENTER)
        self.until("document.activeElement.closest('.member') !== null")

    # ---- field by field

    def choose(self, slot: str, value: str) -> None:
        """Chooses by the keyboard."""
        self.field(slot, f'input[value="{value}"]').send_keys(Keys.SPACE)
        self.saved()

    def press(self, text: str) -> Any:
        """Presses a button by the keyboard, once it is there, and returns it."""
        button = self.until(BUTTON, text)
        button.send_keys(Keys.ENTER)
        return button

    def result(self, slot: str) -> str:
        return str(self.js("return document.querySelector(`.result[data-slot=\"${arguments[0]}\"] dd`).firstChild.textContent", slot))

    def error(self, slot: str) -> str:
        return str(self.js("return document.querySelector(`.field[data-slot=\"${arguments[0]}\"] .error`).textContent", slot))

    def text(self, selector: str) -> str:
        return str(self.js("return document.querySelector(arguments[0])?.textContent ?? ''", selector))

    def focused(self) -> str:
        return str(self.js("return document.activeElement.closest('[data-slot]')?.dataset.slot ?? document.activeElement.textContent"))

    def picture(self, name: str) -> None:
        if PICTURES:
            Path(PICTURES).mkdir(parents=True, exist_ok=True)
            self.driver.save_screenshot(f"{PICTURES}/{name}.{self.driver.name or 'firefox'}.png")
