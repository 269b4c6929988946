"""Browsers without a window, driven by selenium: Chromium by its driver, and Firefox by its own protocol.

Debian has no driver for Firefox. Firefox itself speaks Marionette, whose commands are those of WebDriver: `Marionette` hands them on.
"""

from __future__ import annotations

import json
import re
import shutil
import socket
import subprocess
import tempfile
from collections.abc import Iterator
from contextlib import contextmanager
from pathlib import Path
from typing import Any

from selenium import webdriver
from selenium.common.exceptions import WebDriverException
from selenium.webdriver.chrome.service import Service
from selenium.webdriver.remote.command import Command

from waiting import SECONDS, wait_until

LANGUAGE = "en-US"

COMMANDS = {
    Command.NEW_SESSION: "NewSession",
    Command.QUIT: "DeleteSession",
    Command.GET: "Navigate",
    Command.REFRESH: "Refresh",
    Command.GET_CURRENT_URL: "GetCurrentURL",
    Command.GET_TITLE: "GetTitle",
    Command.FIND_ELEMENT: "FindElement",
    Command.FIND_ELEMENTS: "FindElements",
    Command.CLICK_ELEMENT: "ElementClick",
    Command.CLEAR_ELEMENT: "ElementClear",
    Command.SEND_KEYS_TO_ELEMENT: "ElementSendKeys",
    Command.GET_ELEMENT_TEXT: "GetElementText",
    Command.GET_ELEMENT_PROPERTY: "GetElementProperty",
    Command.IS_ELEMENT_ENABLED: "IsElementEnabled",
    Command.GET_ELEMENT_ARIA_LABEL: "GetComputedLabel",
    Command.GET_ELEMENT_ARIA_ROLE: "GetComputedRole",
    Command.W3C_GET_ACTIVE_ELEMENT: "GetActiveElement",
    Command.W3C_EXECUTE_SCRIPT: "ExecuteScript",
    Command.W3C_EXECUTE_SCRIPT_ASYNC: "ExecuteAsyncScript",
    Command.W3C_ACTIONS: "PerformActions",
    Command.W3C_CLEAR_ACTIONS: "ReleaseActions",
    Command.SCREENSHOT: "TakeScreenshot",
    Command.SET_WINDOW_RECT: "SetWindowRect",
    Command.GET_WINDOW_RECT: "GetWindowRect",
    Command.SET_TIMEOUTS: "SetTimeouts",
}
"""Selenium's names of commands, and Marionette's."""


CHROME, CONTENT = "chrome", "content"
"""Firefox's own window, and the page in it."""


class Marionette:
    """Firefox's own protocol, in the place of a driver: messages are lists, each behind its size."""

    w3c = True
    keep_alive = True
    browser_name = "firefox"

    def __init__(self, port: int) -> None:
        self._socket, self._rest, self._number = socket.create_connection(("127.0.0.1", port), SECONDS), b"", 0
        self._message()  # what it says of itself

    def execute(self, command: str, given: dict[str, Any]) -> dict[str, Any]:
        """The answer to a command of selenium, as a driver gives it."""
        said = {name: value for name, value in given.items() if name != "sessionId"}
        if command == Command.NEW_SESSION:
            said = {"pageLoadStrategy": "normal"}
        error, value = self._ask(f"WebDriver:{COMMANDS[command]}", said)
        if error:
            return {"status": 500, "value": json.dumps({"value": error})}
        if command == Command.NEW_SESSION:
            return {"value": value}
        return {"value": value["value"] if isinstance(value, dict) and "value" in value else value}

    def run_in_window(self, script: str, *given: object) -> None:
        """Runs a script in Firefox's own window."""
        steps: list[tuple[str, dict[str, Any]]] = [
            ("Marionette:SetContext", {"value": CHROME}),
            ("WebDriver:ExecuteScript", {"script": script, "args": given}),
            ("Marionette:SetContext", {"value": CONTENT}),
        ]
        for name, said in steps:
            error, _ = self._ask(name, said)
            if error:
                raise RuntimeError(f"{name}: {error}")

    def close(self) -> None:
        """Ends the connection."""
        self._socket.close()

    def _ask(self, name: str, given: dict[str, Any]) -> tuple[Any, Any]:
        """The error and the value with which Firefox answers."""
        self._number += 1
        text = json.dumps([0, self._number, name, given]).encode()
        self._socket.sendall(str(len(text)).encode() + b":" + text)
        try:
            _, _, error, value = self._message()
        except TimeoutError as late:
            raise TimeoutError(f"Firefox answers {text.decode()}: not within {SECONDS} seconds") from late
        return error, value

    def _message(self) -> Any:
        while b":" not in self._rest:
            self._rest += self._piece()
        size, _, self._rest = self._rest.partition(b":")
        while len(self._rest) < int(size):
            self._rest += self._piece()
        text, self._rest = self._rest[: int(size)], self._rest[int(size) :]
        return json.loads(text)

    def _piece(self) -> bytes:
        piece = self._socket.recv(65536)
        if not piece:
            raise ConnectionError("Firefox has ended")
        return piece


def _port_of(browser: subprocess.Popen[bytes], file: Path) -> int:
    """The port that Firefox has chosen, once it writes it into a file of its profile."""

    def said() -> str:
        return file.read_text(encoding="ascii") if file.is_file() else ""

    wait_until("Firefox says its port", lambda: said() or browser.poll() is not None)
    if browser.poll() is not None:
        raise RuntimeError("Firefox has ended")
    return int(said())


class Firefox(webdriver.Remote):
    """Firefox, whose page can be zoomed and given the keyboard too."""

    def __init__(self, protocol: Marionette, options: webdriver.FirefoxOptions) -> None:
        super().__init__(command_executor=protocol, options=options)
        self._protocol = protocol

    def zoom(self, factor: float) -> None:
        """Shows the page so many times as large, as a person may."""
        self._protocol.run_in_window("gBrowser.selectedBrowser.fullZoom = arguments[0];", factor)

    def focus_page(self) -> None:
        """Gives the page the keyboard. Behind the page's last control the tabulator comes to those of the window, and while one of them has
        the focus, no key presses a button of the page."""
        self._protocol.run_in_window("gBrowser.selectedBrowser.focus();")


@contextmanager
def firefox() -> Iterator[Any]:
    """A Firefox of its own, with a new profile."""
    folder = tempfile.mkdtemp(prefix="firefox.")
    with open(f"{folder}/user.js", "w", encoding="ascii") as file:
        said = {"marionette.port": 0, "intl.accept_languages": LANGUAGE, "app.update.auto": False, "datareporting.policy.dataSubmissionEnabled": False}
        said |= {"browser.zoom.siteSpecific": False}  # a page keeps the zoom of the one before
        file.writelines(f"user_pref({json.dumps(name)}, {json.dumps(value)});\n" for name, value in said.items())
    browser = subprocess.Popen(
        ["firefox-esr", "--headless", "--marionette", "--remote-allow-system-access", "--no-remote", "--profile", folder],
        stdout=subprocess.DEVNULL, stderr=subprocess.DEVNULL, env={"HOME": folder, "PATH": "/usr/bin:/bin", "MOZ_HEADLESS": "1"},
    )
    try:
        protocol = Marionette(_port_of(browser, Path(folder) / "MarionetteActivePort"))
        options = webdriver.FirefoxOptions()
        driver = Firefox(protocol, options)
        yield driver
        protocol.close()
    finally:
        browser.kill()
        browser.wait()
        shutil.rmtree(folder, ignore_errors=True)


def _driver_port(said: Path) -> int:
    """The port that Chromium's driver has chosen, or 0 where it hasn't said it yet."""
    found = re.search(r"successfully on port (\d+)", said.read_text(encoding="utf-8"))
    return int(found[1]) if found else 0


class Driver(Service):
    """Chromium's driver, at a port that it chooses itself."""

    def start(self) -> None:
        """Starts the driver, and waits until it says its port."""
        with tempfile.TemporaryDirectory(prefix="chromedriver.") as folder:
            said = Path(folder, "said")
            with said.open("wb") as file:
                # pylint: disable-next=consider-using-with,attribute-defined-outside-init # `stop` ends it, and the class above reads it
                process = self.process = subprocess.Popen([self.path, "--port=0"], stdout=file)
            wait_until("Chromium's driver says its port", lambda: _driver_port(said) or process.poll() is not None)
            self.port = _driver_port(said)
            if not self.port:
                raise RuntimeError(f"Chromium's driver has ended: {said.read_text(encoding='utf-8')}")


def _chrome(options: webdriver.ChromeOptions, tries: int) -> Any:
    """A Chromium. Its driver waits a minute for it, which a cold machine may take longer for: then it is tried again."""
    try:
        return webdriver.Chrome(service=Driver("/usr/bin/chromedriver"), options=options)
    except WebDriverException:
        if tries == 1:
            raise
        return _chrome(options, tries - 1)


@contextmanager
def chromium() -> Iterator[Any]:
    """A Chromium of its own, with a new profile."""
    options = webdriver.ChromeOptions()
    options.binary_location = "/usr/bin/chromium"
    for flag in ("headless=new", "no-sandbox", "disable-gpu", "disable-dev-shm-usage", "no-first-run", "disable-background-networking", f"lang={LANGUAGE}"):
        options.add_argument(f"--{flag}")
    driver = _chrome(options, 3)
    try:
        yield driver
    finally:
        driver.quit()


BROWSERS = {"chromium": chromium, "firefox": firefox}
