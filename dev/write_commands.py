#!/usr/bin/python3
"""Writes into docs/COMMAND_LINE.md, docs/CASES.md, docs/PYTHON.md and docs/RULES.md what the commands of `fact-graph` show, or checks
that it stands there.

    dev/write_commands.py [--check] [--library PATH]

In a block `console` each line behind `$ ` is run by a shell, in a folder of the page's own with the examples, and what it prints follows
it; a command of the table below is held at a terminal, with what the table types. `fact-graph serve` is ended once its page is there, and
the line follows in which it says where. The pictures that `graph` makes are kept beside the pages, and the table of exit statuses is that
of the package. With --check nothing is written, and the exit status is 1 where a page or a picture is another.
"""

from __future__ import annotations

import os
import re
import shutil
import socket
import subprocess
import sys
import tempfile
from collections.abc import Callable, Iterator
from pathlib import Path
from urllib.request import urlopen

TOP = Path(__file__).resolve().parent.parent
sys.path += [str(TOP / "python"), str(TOP / "python" / "tests" / "commands"), str(TOP / "tests")]

from fact_graph.status import Status  # noqa: E402 # pylint: disable=wrong-import-position # found by the path above
from harness import add_library, words_of  # noqa: E402 # pylint: disable=wrong-import-position # found by the path above
from terminal import Terminal  # noqa: E402 # pylint: disable=wrong-import-position # found by the path above

PAGES = [TOP / "docs" / name for name in ("COMMAND_LINE.md", "CASES.md", "PYTHON.md", "RULES.md")]
PICTURES = [TOP / "docs" / name for name in ("help.svg", "status.svg")]
BLOCK = re.compile(r"^```console\n(.*?)^```$", re.MULTILINE | re.DOTALL)
STATUSES = re.compile(r"^\| Status \| When \|\n(?:\|.*\n)+", re.MULTILINE)

TYPED = {
    "fact-graph ask screener.json --saved mine --figure /help": [
        ("How do you live there?", "rents"), ("Savings", ""), ("People in the home", "1"), ("Born on", "1958-11-30"), ("Wages of a year", "12000"),
        ("Heating bill", "9000"), ("at most 5000.00.", "1240.50"),
    ],
    "fact-graph ask year 2023 --figure /filingStatus --saved mine": [("Were you married", "yes"), ("file a joint return", "yes")],
    "fact-graph run screener.json": [
        ("", "set /bill 1240.50"), ("ok", "set /bill 9000"), ("refused", "get /bill"),
        ("complete", "get /savings"), ("placeholder", "final /savings"), ("open", "quit"),
    ],
}  # fmt: skip
"""By a command what is waited for and typed at its terminal."""

SERVES, OWN_PORT = "fact-graph serve ", "8000"

WRONG = """{
  "version": "1",
  "facts": [
    {"path": "/rent", "writable": "Dollar"},
    {"path": "/heating", "writable": "Dollar", "placholder": ["Dollar", "0"]},
    {"path": "/housing", "derived": "Dollar", "is": ["Add", ["Dependency", "/rent"], ["Dependency", "/heatng"]]},
    {"path": "/yearly", "derived": "Dollar", "is": ["Add", ["Dependency", "/rent"], ["Int", "12"]]}
  ]
}
"""
"""A dictionary with faults, to be shown."""


def prepare(folder: Path) -> dict[str, str]:
    """Puts the examples and the command into a folder. Returns the environment in which it is run."""
    shutil.copytree(TOP / "examples", folder, dirs_exist_ok=True)
    (folder / "wrong.json").write_text(WRONG, encoding="utf-8")
    command = folder / "bin" / "fact-graph"
    command.parent.mkdir()
    command.write_text(f'#!/bin/sh\nexec {sys.executable} -m fact_graph "$@"\n', encoding="utf-8")
    command.chmod(0o755)
    return {**os.environ, "PATH": f"{command.parent}:{os.environ['PATH']}", "PYTHONPATH": f"{TOP / 'python'}:{TOP / 'service'}", "COLUMNS": "100"}


def at_terminal(command: str, folder: Path, environment: dict[str, str]) -> list[str]:
    """The lines that a command shows at a terminal."""
    with Terminal(command.split()[1:], folder, folder, environment) as terminal:
        for due, text in TYPED[command]:
            terminal.shows(due)
            terminal.answers(f"{text}\r")
        terminal.ends()
        return terminal.screen()


def at_shell(command: str, folder: Path, environment: dict[str, str]) -> list[str]:
    """The lines that a command prints."""
    ran = subprocess.run(command, shell=True, cwd=folder, env=environment, stdout=subprocess.PIPE, stderr=subprocess.STDOUT, text=True, check=False)
    return ran.stdout.splitlines()


def at_server(command: str, folder: Path, environment: dict[str, str]) -> list[str]:
    """The line in which a server says where its page is, which is asked for there. It has a free port, and shows its own."""
    with socket.socket() as holder:  # which doesn't listen, and nobody else gets its port
        holder.setsockopt(socket.SOL_SOCKET, socket.SO_REUSEADDR, 1)
        holder.bind(("127.0.0.1", 0))
        port = str(holder.getsockname()[1])
        words = [*command.split(), "--port", port]
        with subprocess.Popen(words, cwd=folder, env=environment, stdout=subprocess.DEVNULL, stderr=subprocess.PIPE, text=True) as server:
            try:
                assert server.stderr is not None
                said = next(line.rstrip() for line in server.stderr if port in line)
                with urlopen(f"http://127.0.0.1:{port}/") as page:
                    page.read()
            finally:
                server.terminate()
    return [said.replace(port, OWN_PORT)]


def shown(block: str, folder: Path, environment: dict[str, str]) -> Iterator[str]:
    """The lines of a block: its commands, each with what it shows."""
    for line in block.splitlines():
        if line.startswith("$ "):
            command = line[2:]
            yield line
            yield from way_of(command)(command, folder, environment)


def way_of(command: str) -> Callable[[str, Path, dict[str, str]], list[str]]:
    """The way in which a command is run."""
    if command in TYPED:
        return at_terminal
    return at_server if command.startswith(SERVES) else at_shell


def page_shown(text: str) -> tuple[str, dict[str, bytes]]:
    """A page with what its commands show, and the pictures that they make, by their names."""
    with tempfile.TemporaryDirectory(prefix="write_commands.") as name:
        folder = Path(name)
        environment = prepare(folder)
        due = BLOCK.sub(lambda found: "\n".join(["```console", *shown(found[1], folder, environment), "```"]), text)
        return STATUSES.sub(lambda found: statuses(), due), {made.name: made.read_bytes() for made in folder.glob("*.svg")}


def statuses() -> str:
    """The table of the exit statuses."""
    rows = "".join(f"| {int(status)} | {status.meaning} |\n" for status in Status)
    return f"| Status | When |\n|---|---|\n{rows}"


def main(argv: list[str]) -> int:
    """Writes or checks the pages and the picture."""
    words = words_of(__doc__)
    add_library(words)
    words.add_argument("--check", action="store_true", help="writes nothing")
    given = words.parse_args(argv)
    os.environ["FACT_GRAPH_LIBRARY"] = str(given.library)
    stands = {path: path.read_bytes() for path in [*PAGES, *PICTURES] if path.is_file()}
    due: dict[Path, bytes] = {}
    drawn: dict[str, bytes] = {}
    for page in PAGES:
        text, pictures = page_shown(stands[page].decode())
        due[page] = text.encode()
        drawn |= pictures
    due |= {path: drawn[path.name] for path in PICTURES}
    if given.check:
        print("the pages " + ("show what the commands show" if due == stands else "show otherwise: run dev/write_commands.py"))
        return int(due != stands)
    for path, made in due.items():
        path.write_bytes(made)
    return 0


if __name__ == "__main__":
    sys.exit(main(sys.argv[1:]))
