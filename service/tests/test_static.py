"""The page as a folder of static files: once it is loaded, an example is played in it with no host at all, and a tax year filled in."""

from __future__ import annotations

import functools
import json
import shutil
import subprocess
import sys
import threading
from collections.abc import Iterator
from contextlib import contextmanager
from http.server import SimpleHTTPRequestHandler, ThreadingHTTPServer
from pathlib import Path
from typing import Any, NamedTuple

import pytest

from fact_graph.commands import command_line
from fact_graph.status import Status
from pages import EXAMPLES
from screens import Screen
from test_examples import DRIVER, check_result, commands, play
from waiting import SECONDS

# A module that is put beside the page: it notes each line that the page says to its engine, with the reply.
LISTENER = """
import { Session } from "./engine/index.js";

const heard = [], { line } = Session.prototype;
Session.prototype.line = function (text) {
  const reply = line.call(this, text);
  heard.push([text, reply]);
  return reply;
};
document.addEventListener("tell", () => { document.body.dataset.heard = JSON.stringify(heard); });
document.body.dataset.heard = "";
"""
LISTEN = """
const script = document.createElement("script");
script.type = "module";
script.src = "listener.js";
document.head.append(script);
"""
HEARD = "document.dispatchEvent(new Event('tell')); return document.body.dataset.heard"
FIELDS = "return [...document.querySelectorAll('.field[data-slot]')].map((it) => it.dataset.slot)"
FIGURES = "return [...document.querySelectorAll('.result[data-slot]')].map((it) => it.dataset.slot)"


class Host(NamedTuple):
    """Where a folder is served."""

    port: int


class Handler(SimpleHTTPRequestHandler):
    """Serves files, as any host does."""

    def log_message(self, format: str, *args: object) -> None:  # pylint: disable=redefined-builtin # the handler's name for it
        """Says nothing."""


@contextmanager
def hosted(folder: Path) -> Iterator[Host]:
    """A folder, served by a plain host."""
    with ThreadingHTTPServer(("127.0.0.1", 0), functools.partial(Handler, directory=str(folder))) as server:
        threading.Thread(target=server.serve_forever, daemon=True).start()
        try:
            yield Host(server.server_address[1])
        finally:
            server.shutdown()


def replies(program: Path, lines: list[str]) -> list[str]:
    """The lines that the program replies to a script of lines."""
    script = "".join(f"{line}\n" for line in lines)
    ran = subprocess.run([program, "year", "2023"], input=script, stdout=subprocess.PIPE, text=True, check=True, timeout=SECONDS)
    return ran.stdout.splitlines(keepends=True)


def answers_of(name: str) -> dict[str, str]:
    """What an example's script answers first, by slot."""
    found: dict[str, str] = {}
    for line, _ in commands(name):
        verb, slot, text = (line.split(" ", 2) + ["", ""])[:3]
        if verb == "set":
            found.setdefault(slot, text)
    return found


def fill_in(screen: Screen, name: str) -> None:
    """Gives an example's answers as the page asks for them, one after another, once its members are there."""
    answers = answers_of(name)
    todo = [line.split(" ") for line, _ in commands(name) if line.startswith("add ")]
    while todo:
        verb, slot, *text = todo.pop()
        said = screen.js(DRIVER, verb, slot, *text)
        screen.saved()
        assert not isinstance(said, str) and screen.error(slot) == "", (verb, slot, said)
        asked = [] if todo else [it for it in screen.js(FIELDS) if it in answers]
        todo += [["set", it, answers.pop(it)] for it in asked[:1]]


def test_where_the_engine_comes_from_is_said(tmp_path: Path, capsys: pytest.CaptureFixture[str]) -> None:
    words = ["page", str(EXAMPLES / "screener.json"), "--out", str(tmp_path / "site"), "--engine", str(tmp_path)]
    assert command_line(words) == Status.NOT_INSTALLED
    assert "--engine names the folder javascript" in capsys.readouterr().err


def test_a_page_that_cant_be_written_whole_leaves_nothing(tmp_path: Path) -> None:
    engine, site = tmp_path / "engine", tmp_path / "site"
    (engine / "src").mkdir(parents=True)
    (engine / "src" / "fact_graph.wasm").touch()
    site.mkdir()
    words = [sys.executable, "-m", "fact_graph", "page", *map(str, (EXAMPLES / "screener.json", "--out", site, "--engine", engine))]
    ended = subprocess.run(words, stderr=subprocess.PIPE, text=True, check=False)
    assert (ended.returncode, "browser_engine.js" in ended.stderr) == (Status.WRITE_FAULT, True)
    assert not list(site.iterdir())


@pytest.mark.parametrize("name", ["screener", "everything"])
def test_an_example_is_played_with_the_network_off(driver: Any, tmp_path: Path, name: str) -> None:
    dictionary = tmp_path / f"{name}.json"
    shutil.copy(EXAMPLES / dictionary.name, dictionary)
    facts = json.loads(dictionary.read_text())["facts"]
    dictionary.with_suffix(".page").write_text(json.dumps({"figures": [fact["path"] for fact in facts]}))
    assert command_line(["page", str(dictionary), "--out", str(tmp_path / "site")]) == 0
    with hosted(tmp_path / "site") as host:
        screen = Screen(driver, host).load()  # type: ignore[arg-type] # it has a port, too
    play(screen, name)
    kept = screen.js("return Object.values(localStorage).join()")
    assert all(line in kept for line, reply in commands(name) if line.startswith("set ") and reply.startswith("ok"))


def test_the_tax_year_is_filled_in_with_the_network_off_as_the_program_says(driver: Any, tmp_path: Path, program: Path) -> None:
    site = tmp_path / "site"
    assert command_line(["page", "year 2023", "--out", str(site)]) == 0
    (site / "listener.js").write_text(LISTENER)
    with hosted(site) as host:
        screen = Screen(driver, host).load()  # type: ignore[arg-type] # it has a port, too
        screen.js(LISTEN)
        screen.until("document.body.dataset.heard !== undefined")
    fill_in(screen, "years/2023")
    figures = screen.js(FIGURES)
    due = {line: reply for line, reply in commands("years/2023") if line.startswith("get ") and line[4:] in figures}
    assert len(due) > 3
    for line, reply in due.items():
        check_result(screen, line, reply)
    screen.js(DRIVER, "undo", "", "")
    screen.saved()
    heard = json.loads(screen.js(HEARD))
    lines = [line for line, _ in heard]
    assert len([line for line in lines if line.startswith("set ")]) > 15 and lines.count("undo") == 1
    assert "".join(reply for _, reply in heard) == "".join(replies(program, lines))
    for slot in screen.js(FIGURES):
        for verb in ("get", "final"):
            check_result(screen, f"{verb} {slot}", replies(program, [*lines, f"{verb} {slot}"])[-1].rstrip("\n"))
