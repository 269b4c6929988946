#!/usr/bin/env python3
"""Times calls of the JavaScript package in Node and in Chromium, and shows the sizes of its module and of a whole page.

    bench/webassembly.py [--library PATH] [PART..]

- node, chromium: the least time of many short runs of each call, over the screener with three members; and the quickest of some starts
  with the tax year 2023, from nothing to the first reply, each in a process or on a page of its own
- sizes: the bytes of the module and of the whole page of that year, as they are and as gzip sends them

All parts are run where none is named. Nothing is built: the module is that of javascript/src, which javascript/wasm/build_wasm.py makes, and
the C library accepts the page's dictionary. The exit status is 1 where a `get` of an amount takes more than 1.2 microseconds, a set that
touches two slots more than 3, or a start more than 60 milliseconds, or where the page has more than 220,000 compressed bytes; and 2 where the
module, the library or a tool is wanting.
"""
import gzip
import json
import os
import queue
import subprocess
import sys
import tempfile
import threading
from collections.abc import Callable, Iterator
from functools import partial
from http.server import SimpleHTTPRequestHandler, ThreadingHTTPServer
from pathlib import Path

from timing import EXAMPLES, TOP, add_library, give_up, tool, words_of

# pylint: disable-next=wrong-import-order # timing finds it
from javascript.browsers import BROWSERS

MODULE = TOP / "javascript" / "src" / "fact_graph.wasm"
HOST = TOP / "bench" / "webassembly" / "in_node.js"
PAGE = "/bench/webassembly/page.html"
STARTS = 20
SECONDS = 600
MOST = {"get of an amount": 1.2, "set that touches two slots": 3.0}
MOST_MILLISECONDS = 60.0
MOST_BYTES = 220_000

Times = dict[str, float]


def in_node() -> Iterator[Times]:
    """What Node tells: the times of the calls, and then of each start, in a process of its own."""
    calls = ["calls", str(EXAMPLES / "screener.json"), str(EXAMPLES / "screener.script")]
    for given in [calls] + [["start"]] * STARTS:
        yield json.loads(subprocess.run([tool("node"), HOST, *given], check=True, stdout=subprocess.PIPE).stdout)


class Server(ThreadingHTTPServer):
    """Serves the repository's files, says what is to be timed next, and takes what came of it."""

    def __init__(self) -> None:
        super().__init__(("127.0.0.1", 0), partial(Handler, directory=str(TOP)))
        self.asked = iter(["calls", *["start"] * STARTS])
        self.told: queue.Queue[Times | str] = queue.Queue()
        self.served = 0

    def marked(self) -> bytes:
        """The module with a section that says how often it was served: a browser compiles it anew each time."""
        self.served += 1
        mark = self.served.to_bytes(4, "little")
        return MODULE.read_bytes() + bytes([0, 2 + len(mark), 1]) + b"n" + mark


class Handler(SimpleHTTPRequestHandler):
    """Answers a request."""

    server: Server

    def do_GET(self) -> None:
        """A file, the module, or what is next."""
        if self.path == "/next":
            self.answer(next(self.server.asked, "").encode())
        elif TOP / self.path[1:] == MODULE:
            self.answer(self.server.marked(), "application/wasm")
        else:
            super().do_GET()

    def do_POST(self) -> None:  # pylint: disable=invalid-name # the handler's name for it
        """What was timed."""
        self.server.told.put(json.loads(self.rfile.read(int(self.headers["Content-Length"]))))
        self.answer(b"")

    def answer(self, body: bytes, kind: str = "text/plain") -> None:
        """Sends an answer."""
        self.send_response(200)
        self.send_header("Content-Type", kind)
        self.send_header("Content-Length", str(len(body)))
        self.end_headers()
        self.wfile.write(body)

    def log_message(self, format: str, *args: object) -> None:  # pylint: disable=redefined-builtin # the handler's name for it
        """Says nothing."""


def in_chromium() -> Iterator[Times]:
    """What a page in Chromium tells: the times of the calls, and then of each start, loaded anew."""
    with Server() as server, tempfile.TemporaryDirectory(prefix="browser.", ignore_cleanup_errors=True) as profile:
        threading.Thread(target=server.serve_forever, daemon=True).start()
        words = [tool("chromium"), *BROWSERS["chromium"], f"--user-data-dir={profile}", f"http://127.0.0.1:{server.server_address[1]}{PAGE}"]
        with subprocess.Popen(words, stdout=subprocess.DEVNULL, stderr=subprocess.DEVNULL, env={**os.environ, "HOME": profile}) as run:
            try:
                for _ in range(1 + STARTS):
                    told = server.told.get(timeout=SECONDS)
                    if isinstance(told, str):
                        give_up(told)
                    yield told
            except queue.Empty:
                give_up(f"Chromium told nothing for {SECONDS} seconds")
            finally:
                run.terminate()
                server.shutdown()


def judge_times(where: str, told: Iterator[Times]) -> bool:
    """Shows the times, and says whether each is as short as it has to be."""
    calls, *starts = told
    print(where)
    for name, time in calls.items():
        print(f"{time:8.2f} us  {name}")
    quickest = min(starts, key=lambda parts: sum(parts.values()))
    whole = sum(quickest.values())
    print(f"{whole:8.1f} ms  a start with the tax year 2023: {', '.join(f'{name} {time:.1f}' for name, time in quickest.items())}")
    return whole <= MOST_MILLISECONDS and all(calls[name] <= most for name, most in MOST.items())


def sizes_of(files: list[Path]) -> tuple[int, int]:
    """The bytes of files, and those that gzip makes of each."""
    texts = [path.read_bytes() for path in files]
    return sum(map(len, texts)), sum(len(gzip.compress(text, 9)) for text in texts)


def judge_sizes(library: Path) -> bool:
    """Shows the sizes, and says whether the page is as small as it has to be."""
    with tempfile.TemporaryDirectory(prefix="page.") as folder:
        site = Path(folder, "site")
        path = os.pathsep.join(str(TOP / name) for name in ("python", "service"))
        words = ["/usr/bin/python3", "-B", "-m", "fact_graph", "page", "year 2023", "--out", str(site)]
        subprocess.run(words, env={**os.environ, "PYTHONPATH": path, "FACT_GRAPH_LIBRARY": str(library)}, check=True)
        page = sizes_of([path for path in site.rglob("*") if path.is_file()])
    for name, (plain, packed) in (("the module", sizes_of([MODULE])), ("the whole page of the tax year 2023", page)):
        print(f"{plain:8,} bytes, {packed:,} compressed  {name}")
    return page[1] <= MOST_BYTES


def main(argv: list[str]) -> int:
    """Runs the parts."""
    words = words_of(__doc__)
    add_library(words)
    words.add_argument("parts", nargs="*", metavar="PART")
    given = words.parse_args(argv)
    parts: dict[str, Callable[[], bool]] = {
        "node": lambda: judge_times("node", in_node()),
        "chromium": lambda: judge_times("chromium", in_chromium()),
        "sizes": lambda: judge_sizes(given.library),
    }
    unknown = set(given.parts) - set(parts)
    if unknown:
        words.error(f"no part is called {min(unknown)}")
    if not MODULE.is_file():
        words.error(f"no {MODULE}: javascript/wasm/build_wasm.py makes it")
    held = [parts[name]() for name in given.parts or parts]
    return 0 if all(held) else 1


if __name__ == "__main__":
    sys.exit(main(sys.argv[1:]))
