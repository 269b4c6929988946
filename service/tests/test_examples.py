"""The scripts of the examples, done in the page: it shows what the stored replies say."""

from __future__ import annotations

import json
import secrets
import shutil
from collections.abc import Iterator
from pathlib import Path
from typing import Any

import pytest

from fact_graph_service.settings import Settings
from pages import EXAMPLES
from screens import Screen
from servers import served

CHANGES = ("set", "clear", "open", "add", "remove", "undo", "redo")

DRIVER = """
const [verb, slot, text] = arguments;
const field = document.querySelector(`.field[data-slot="${slot}"]`);
const sent = (control) => control.dispatchEvent(new Event("change", { bubbles: true }));
const press = (button) => button.click();
const pressNamed = (inside, start) => press([...inside.querySelectorAll("button")].find((it) => it.textContent.startsWith(start)));
if (verb === "undo" || verb === "redo") return pressNamed(document, verb === "undo" ? "Undo" : "Redo");
if (!field) return "no field";
if (verb === "add") return press(field.querySelector(":scope > .actions > button"));
if (verb === "open") return press(field.querySelectorAll(":scope > .actions > button")[1]);
if (verb === "remove") {
  const box = field.querySelector(`.member[data-member="${text.slice(1)}"]`);
  return box ? press(box.querySelector(":scope > button")) : "no field";
}
const radios = [...field.querySelectorAll("input[type=radio]")];
if (radios.length > 0) {
  if (verb === "clear") return pressNamed(field, "Clear");
  const radio = radios.find((it) => it.value === text);
  return radio ? radio.click() : "no choice";
}
const controls = [...field.querySelectorAll("input, select")];
if (controls.length === 3) {
  const [year, month, day] = verb === "clear" ? ["", "", ""] : text.split("-");
  [month, day, year].forEach((part, at) => { controls[at].value = part; });
  return field.dispatchEvent(new FocusEvent("focusout", { bubbles: true }));
}
controls[0].value = verb === "clear" ? "" : text;
sent(controls[0]);
"""


def commands(name: str) -> list[tuple[str, str]]:
    """The commands of an example's script with their replies, but for those while an override stands."""
    lines = [line for line in (EXAMPLES / f"{name}.script").read_text().splitlines() if line and not line.startswith("#")]
    replies = [line for line in (EXAMPLES / f"{name}.replies").read_text().splitlines() if not line.startswith(("/", "watch "))]
    found, is_overridden = [], False
    for line, reply in zip(lines[: lines.index("quit")] if "quit" in lines else lines, replies):
        is_overridden = is_overridden or line.startswith("override ")
        if not is_overridden:
            found.append((line, reply))
        is_overridden = is_overridden and not line.startswith("release ")
    return found


@pytest.fixture(params=["screener", "everything"])
def played(request: pytest.FixtureRequest, driver: Any, tmp_path: Path) -> Iterator[tuple[Screen, str]]:
    """The page over an example, all of whose facts are figures, and the example's name."""
    dictionary = tmp_path / f"{request.param}.json"
    shutil.copy(EXAMPLES / dictionary.name, dictionary)
    facts = json.loads(dictionary.read_text())["facts"]
    dictionary.with_suffix(".page").write_text(json.dumps({"title": f"All of <b>{request.param}</b>", "figures": [fact["path"] for fact in facts]}))
    with served(Settings(dictionary, f"sqlite:{tmp_path}/store.sqlite", secrets.token_bytes(32), rate=10_000)) as workers:
        yield Screen(driver, workers[0]).open(), request.param


def play(screen: Screen, name: str) -> None:
    """Does an example's script in the page, which has to show its replies."""
    for line, reply in commands(name):
        verb, slot, text = (line.split(" ", 2) + ["", ""])[:3]
        if verb in ("get", "final"):
            check_result(screen, line, reply)
        elif verb in CHANGES:
            said = screen.js(DRIVER, verb, slot, text)
            screen.saved()
            if reply.startswith("refused "):
                assert said in ("no field", "no choice") or verb in ("undo", "redo") or screen.error(slot), line
            else:
                assert not isinstance(said, str), (line, said)
                assert not slot or screen.error(slot) == "", line


def test_an_example_is_played_in_the_page(played: tuple[Screen, str]) -> None:
    screen, name = played
    play(screen, name)
    assert screen.js("return document.querySelectorAll('b').length") == 0, "what comes from outside is text"
    assert screen.text("h1") == f"All of <b>{name}</b>"


def check_result(screen: Screen, line: str, reply: str) -> None:
    """The figure shows the reply to `get` or `final`."""
    verb, slot = line.split(" ")
    seen = screen.js("const it = document.querySelector(`.result[data-slot=\"${arguments[0]}\"]`); return it && [it.dataset.kind, it.dataset.text]", slot)
    if reply.startswith("refused "):
        assert seen is None, line
        return
    kind, _, text = reply.partition(" ")
    if verb == "final":
        assert (seen[0] == "final") == (kind == "final"), (line, seen)
    else:
        assert ("complete" if seen[0] == "final" else seen[0]) == kind, (line, seen)
    assert not text or seen[1] == text, (line, seen)
