"""The service as pip installs it beside the package: it serves from a fresh environment, away from the repository."""

from __future__ import annotations

import re
import shutil
import signal
import socket
import subprocess
import time
from collections.abc import Iterator
from contextlib import contextmanager
from pathlib import Path

import httpx
import pytest

from .conftest import built, fresh, pip
from .places import TOP

SECONDS = 600
"""After so long without an answer a test has failed. It is far more than a slow machine takes."""


@pytest.fixture(scope="session")
def serving(tmp_path_factory: pytest.TempPathFactory, distributions: Path, environment: dict[str, str]) -> Path:
    """A Python into which the wheels of the package and of the service are installed, beside Debian's packages."""
    tree = tmp_path_factory.mktemp("service") / "service"
    shutil.copytree(TOP / "service", tree, ignore=shutil.ignore_patterns("*.egg-info", "build", "dist", "__pycache__", "tests", ".*"))
    python = fresh(tmp_path_factory.mktemp("serving"), with_system=True)
    for folder in (distributions, built(tree, environment, "--wheel")):
        [wheel] = folder.glob("*.whl")
        pip(python, "install", str(wheel))
    return python


@contextmanager
def served(python: Path, folder: Path, bare: dict[str, str], *words: str) -> Iterator[httpx.Client]:
    """A visitor of what the command of that Python serves in a folder. It has to end well by SIGTERM."""
    with socket.socket() as holder:  # which doesn't listen, and nobody else gets its port
        holder.setsockopt(socket.SOL_SOCKET, socket.SO_REUSEADDR, 1)
        holder.bind(("127.0.0.1", 0))
        port = holder.getsockname()[1]
        command: list[str | Path] = [python.with_name("fact-graph"), "serve", *words, f"--port={port}"]
        with subprocess.Popen(command, cwd=folder, env=bare, stdout=subprocess.DEVNULL, stderr=subprocess.DEVNULL) as server:
            try:
                with httpx.Client(base_url=f"http://127.0.0.1:{port}", timeout=SECONDS) as client:
                    wait_for(server, client)
                    yield client
                server.send_signal(signal.SIGTERM)
                assert server.wait(SECONDS) == 0
            finally:
                server.kill()


def wait_for(server: subprocess.Popen[bytes], client: httpx.Client) -> None:
    """Waits until the command serves."""
    until = time.monotonic() + SECONDS
    while True:
        try:
            client.get("/health")
            return
        except httpx.HTTPError:
            assert server.poll() is None and time.monotonic() < until
            time.sleep(0.1)


@pytest.mark.parametrize(
    ("words", "title", "slot", "store"),
    [
        (["examples/screener.json"], "Help with the heating bill", "/savings", "examples/screener.sqlite"),
        (["examples/snap.facts"], "SNAP benefits, October 2023 to September 2024", "/otherIncome", "examples/snap.sqlite"),
        (["year", "2023"], "Tax year 2023: filing status, standard deduction and dependents", "/otherIncome", "year 2023.sqlite"),
        (["income 2023"], "Tax year 2023: tax by the rate schedule, and child tax credit", "/otherIncome", "income 2023.sqlite"),
    ],
)  # fmt: skip
def test_what_is_installed_serves(serving: Path, outside: Path, bare: dict[str, str], words: list[str], title: str, slot: str, store: str) -> None:
    with served(serving, outside, bare, *words) as client:
        found = re.search(r'name="token" content="([0-9a-f]{64})"', client.get("/").text)
        assert found and client.get("/page/main.js").status_code == 200
        assert client.get("/form.json").json()["languages"]["en"]["title"] == title
        headers = {"Origin": str(client.base_url).rstrip("/"), "X-Token": found[1]}
        said = {"visit": None, "revision": 0, "change": "a", "line": f"set {slot} 7", "questions": [f"get {slot}"]}
        told = client.post("/answer", json=said, headers=headers).json()
        assert (told["reply"], told["replies"]) == ("ok", ["complete 7.00"])
    assert (outside / store).is_file()
