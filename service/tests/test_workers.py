"""Workers as processes: how they are started, and how they end."""

from __future__ import annotations

import json
import os
import secrets
import shutil
import signal
import socket
import subprocess
import sys
from collections.abc import Iterator
from contextlib import contextmanager
from pathlib import Path
from typing import Any

import httpx

from fact_graph_service.settings import Settings
from pages import EXAMPLES, Page
from servers import TOP, Worker, held_ports, served
from waiting import SECONDS, wait_until


def page_at(port: int) -> Page:
    """The page of a new visitor at a worker."""
    origin = f"http://127.0.0.1:{port}"
    return Page(httpx.Client(base_url=origin, timeout=SECONDS), origin).load()


def answered_at_the_end(worker: Worker, page: Page, said: dict[str, Any]) -> bytes:
    """The answer to a change of which the worker had the head when it was ended, and gets the body only then."""
    body = json.dumps({"visit": page.visit, "revision": page.revision, **said}).encode()
    cookie = "; ".join(f"{name}={value}" for name, value in page.client.cookies.items())
    head = {"Host": f"127.0.0.1:{worker.port}", "Origin": page.origin, "Cookie": cookie, "X-Token": page.token, "Content-Length": str(len(body))}
    lines = ["POST /answer HTTP/1.1", *(f"{name}: {value}" for name, value in head.items()), "Expect: 100-continue", "", ""]
    with socket.create_connection(("127.0.0.1", worker.port), SECONDS) as connection, connection.makefile("rb") as answer:
        connection.sendall("\r\n".join(lines).encode())
        assert answer.readline() == b"HTTP/1.1 100 Continue\r\n", "it has begun, and asks for the body"
        worker.send(signal.SIGTERM)
        wait_until("a worker that is ended takes no other request", lambda: not worker.is_well())
        connection.sendall(body)
        return answer.read()


def test_a_worker_that_is_ended_answers_what_it_has_begun(tmp_path: Path) -> None:
    settings = Settings(EXAMPLES / "screener.json", f"sqlite:{tmp_path}/store.sqlite", secrets.token_bytes(32))
    with served(settings) as (worker,):
        page, told = page_at(worker.port), b" 408 "
        while b" 408 " in told:  # the body has to come within some seconds, which a slow machine may miss
            told = answered_at_the_end(worker, page, {"change": "a", "line": "set /bill 5", "questions": ["get /bill"]})
            assert worker.wait() == 0
            assert not worker.is_well()
            worker.begin()
        assert b"HTTP/1.1 200 OK" in told and json.loads(told.rpartition(b"\r\n")[2])["replies"] == ["complete 5.00"]
        assert page.ask("get /bill") == ["complete 5.00"]


@contextmanager
def serving(folder: Path, *words: str, **variables: str) -> Iterator[subprocess.Popen[str]]:
    """The command line, in a folder, with variables of the environment."""
    environment = {**os.environ, **variables, "PYTHONPATH": os.pathsep.join([str(TOP / "python"), str(TOP / "service")])}
    command = [sys.executable, "-m", "fact_graph", "serve", *words]
    with subprocess.Popen(command, cwd=folder, env=environment, stdout=subprocess.DEVNULL, stderr=subprocess.PIPE, text=True) as server:
        try:
            yield server
        finally:
            server.kill()


def wait_for(server: subprocess.Popen[str], port: int) -> None:
    """Waits until the command line serves."""

    def answers() -> bool:
        assert server.poll() is None, "it has ended"
        try:
            return httpx.get(f"http://127.0.0.1:{port}/health").is_success
        except httpx.HTTPError:
            return False

    wait_until(f"the command line serves at port {port}", answers)


def test_one_command_serves_a_dictionary_and_keeps_the_answers_beside_it(tmp_path: Path) -> None:
    shutil.copy(EXAMPLES / "screener.json", tmp_path)
    page: Page | None = None
    with held_ports(1) as (port,):
        for bill in ("5", "6"):
            with serving(tmp_path, "screener.json", "--port", str(port), "--minutes", "30") as server:
                wait_for(server, port)
                page = page or page_at(port)
                told = page.change(f"set /bill {bill}")
                assert told["reply"] == "ok" and 0 < told["seconds"] <= 1800
                server.send_signal(signal.SIGTERM)
                assert server.wait(SECONDS) == 0
    assert page is not None and page.revision == 2
    assert (tmp_path / "screener.sqlite").is_file()


def test_settings_may_stand_in_the_environment(tmp_path: Path) -> None:
    shutil.copy(EXAMPLES / "screener.json", tmp_path)
    said = {"FACT_GRAPH_STORE": f"sqlite:{tmp_path}/own.sqlite", "FACT_GRAPH_ORIGINS": "https://help.example.gov https://help.example.org"}
    with held_ports(1) as (port,):
        with serving(tmp_path, "screener.json", "--port", str(port), **said) as server:
            wait_for(server, port)
            hosts = ("help.example.gov", "help.example.org", f"127.0.0.1:{port}")
            assert [httpx.get(f"http://127.0.0.1:{port}/", headers={"Host": host}, timeout=SECONDS).status_code for host in hosts] == [200, 200, 421]
    assert (tmp_path / "own.sqlite").is_file()


def test_what_the_maker_misstates_is_told(tmp_path: Path) -> None:
    shutil.copy(EXAMPLES / "screener.json", tmp_path)
    (tmp_path / "screener.page").write_text('{"figures": ["/help", "/halp"]}', encoding="utf-8")
    with serving(tmp_path, "screener.json") as server:
        said = server.communicate(timeout=SECONDS)[1]
        assert server.returncode == 2 and "figures.1: there is no fact" in said and "/halp" in said
    (tmp_path / "screener.page").unlink()
    with serving(tmp_path, "screener.json", "--store", "mysql:x") as server:
        said = server.communicate(timeout=SECONDS)[1]
        assert server.returncode == 2 and "mysql:x" in said
