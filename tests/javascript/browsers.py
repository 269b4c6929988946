"""The stored cases on a page and in a worker of a browser, which asks a server here for one after another."""

import os
import subprocess
import tempfile
import threading
from collections.abc import Iterator
from http.server import BaseHTTPRequestHandler, ThreadingHTTPServer
from pathlib import Path

from harness import TOP, Tally, tool
from javascript.cases import Given, wrong_in

JAVASCRIPT = TOP / "javascript"
PAGE = "/tests/cases/browser.html"
KINDS = {".html": "text/html", ".js": "text/javascript", ".wasm": "application/wasm"}
# what a careful page allows
POLICY = "default-src 'none'; script-src 'self' 'wasm-unsafe-eval'; worker-src 'self'; connect-src 'self'"
SECONDS = 1800
BROWSERS = {
    "chromium": ["--headless=new", "--no-sandbox", "--disable-gpu", "--no-first-run", "--disable-dev-shm-usage"],
    "firefox-esr": ["--headless", "--no-remote"],
}


class Lane:
    """The cases for a page, or for a worker, and what came of them."""

    def __init__(self, cases: Iterator[Given]) -> None:
        self.cases = cases
        self.last: Given | None = None
        self.wrongs: list[tuple[str, str]] = []
        self.ended = threading.Event()
        self.why = "no end in time"

    def next(self) -> Given | None:
        """The next case."""
        self.last = next(self.cases, None)
        return self.last

    def take(self, answer: bytes) -> None:
        """Notes the outcome of the last case."""
        assert self.last is not None
        self.wrongs.append((self.last.place, wrong_in(self.last, answer)))

    def end(self, why: str) -> None:
        """Notes that no further case is asked for."""
        self.why = why
        self.ended.set()


class Server(ThreadingHTTPServer):
    """Serves the folder of the package, a module, and the cases of each lane."""

    def __init__(self, module: Path, lanes: dict[str, Lane]) -> None:
        super().__init__(("127.0.0.1", 0), Handler)
        self.module, self.lanes = module, lanes

    @property
    def address(self) -> str:
        """Where the page is."""
        return f"http://127.0.0.1:{self.server_address[1]}{PAGE}"


class Handler(BaseHTTPRequestHandler):
    """Answers a request."""

    server: Server
    protocol_version = "HTTP/1.1"

    def do_GET(self) -> None:  # pylint: disable=invalid-name # the handler's name for it
        """A file, or the next case of a lane."""
        if self.path.startswith("/next/"):
            case = self.server.lanes[self.path[6:]].next()
            self.answer(204 if case is None else 200, b"" if case is None else case.sent)
            return
        file = self.server.module if self.path == "/fact_graph.wasm" else JAVASCRIPT / self.path[1:]
        if ".." in self.path or not file.is_file():
            self.answer(404, b"")
        else:
            self.answer(200, file.read_bytes(), KINDS.get(file.suffix, "text/plain"))

    def do_POST(self) -> None:  # pylint: disable=invalid-name # the handler's name for it
        """The outcome of a case, or the end of a lane."""
        body = self.rfile.read(int(self.headers["Content-Length"]))
        what, lane = self.path[1:].split("/")
        if what == "end":
            self.server.lanes[lane].end(body.decode())
        else:
            self.server.lanes[lane].take(body)
        self.answer(204, b"")

    def answer(self, status: int, body: bytes, kind: str = "application/octet-stream") -> None:
        """Sends an answer."""
        self.send_response(status)
        self.send_header("Content-Type", kind)
        self.send_header("Content-Length", str(len(body)))
        self.send_header("Content-Security-Policy", POLICY)
        self.end_headers()
        self.wfile.write(body)

    def log_message(self, format: str, *args: object) -> None:  # pylint: disable=redefined-builtin # the handler's name for it
        """Says nothing."""


def judge_in_browser(tally: Tally, browser: str, module: Path, lanes: dict[str, Iterator[Given]]) -> None:
    """Runs the cases of each lane in a browser without a window."""
    server = Server(module, {name: Lane(cases) for name, cases in lanes.items()})
    threading.Thread(target=server.serve_forever, daemon=True).start()
    with tempfile.TemporaryDirectory(prefix="browser.", ignore_cleanup_errors=True) as profile:
        own = ["--profile", profile] if "firefox" in browser else [f"--user-data-dir={profile}"]
        words = [tool(browser), *BROWSERS[browser], *own, server.address]
        with subprocess.Popen(words, stdout=subprocess.DEVNULL, stderr=subprocess.DEVNULL, env={**os.environ, "HOME": profile}) as run:
            for name, lane in server.lanes.items():
                lane.ended.wait(SECONDS)
                for place, wrong in lane.wrongs:
                    tally.judge(f"{place}, {browser}, {name}", wrong)
                tally.judge(f"{browser}, {name}", lane.why)
            run.terminate()
            try:
                run.wait(20)
            except subprocess.TimeoutExpired:
                run.kill()
    server.shutdown()
