#!/usr/bin/python3
"""Loads the interview service: wrk, nginx, two workers and a PostgreSQL of its own, on this machine.

    bench/load_service.py [--library PATH] [--visitors N] [--cache N] [--rate N] [--seconds N]

Each request is a change with the page's questions behind it. `--rate` is how many a second are due, at times that stand fast, 200 where
none is given; 0 makes them without a pause. It prints the changes made, within which times from when they were due they were answered, the
processor time of each process for a change, and that of each part of a worker behind HTTP, and how busy the machine was: what other
processes took of it. Nothing is judged: the exit status is 0, and 2 where the library or a tool is wanting.
"""

from __future__ import annotations

import argparse
import json
import os
import re
import secrets
import subprocess
import sys
import tempfile
import time
import urllib.request
from collections.abc import Iterator, Sequence
from contextlib import ExitStack, closing, contextmanager
from pathlib import Path

TOP = Path(__file__).resolve().parent.parent
sys.path[:0] = [str(TOP / folder) for folder in ("tests", "python", "service", "service/tests")]
sys.dont_write_bytecode = True

# pylint: disable=wrong-import-position # found by the path above
from harness import add_library, tool, words_of  # noqa: E402
from service_parts import DICTIONARY, parts_of_a_change, questions  # noqa: E402

# pylint: enable=wrong-import-position
THREADS = 16
NGINX = """
daemon off; error_log {folder}/error.log; pid {folder}/pid; worker_processes 1;
events {{ worker_connections 1024; }}
http {{
  access_log off; client_body_temp_path {folder}/body; proxy_temp_path {folder}/proxy;
  fastcgi_temp_path {folder}/f; uwsgi_temp_path {folder}/u; scgi_temp_path {folder}/s;
  upstream interview {{ {servers} keepalive 32; }}
  server {{
    listen 127.0.0.1:{port};
    location / {{
      proxy_pass http://interview; proxy_http_version 1.1; proxy_set_header Connection ""; proxy_set_header Host $http_host;
      proxy_next_upstream error timeout non_idempotent;
    }}
  }}
}}
"""


def seconds_of(pid: int) -> float:
    """The processor seconds of a process and of its children that have ended."""
    fields = Path(f"/proc/{pid}/stat").read_text(encoding="ascii").rpartition(")")[2].split()
    return sum(int(field) for field in fields[11:15]) / os.sysconf("SC_CLK_TCK")


def tree(pid: int) -> list[int]:
    """A process and all of its children."""
    found = [pid]
    for listed in Path(f"/proc/{pid}/task").glob("*/children"):
        for child in listed.read_text(encoding="ascii").split():
            found += tree(int(child))
    return found


def visitor(address: str) -> str:
    """The cookie and the token of a new visitor."""
    with urllib.request.urlopen(address) as answer:
        cookie = answer.headers["Set-Cookie"].partition(";")[0]
        token = re.search(rb'content="([0-9a-f]{64})"', answer.read())
        assert token is not None
        return f"{cookie} {token[1].decode()}\n"


def busy() -> float:
    """The processor seconds that all processes of the machine took."""
    user, nice, system, _, _, *interrupts = Path("/proc/stat").read_text(encoding="ascii").split("\n", 1)[0].split()[1:]
    return sum(map(int, (user, nice, system, *interrupts[:2]))) / os.sysconf("SC_CLK_TCK")


@contextmanager
def nginx(folder: Path, port: int, workers: Sequence[int]) -> Iterator[int]:
    """nginx before the workers at these ports: the number of its process."""
    servers = " ".join(f"server 127.0.0.1:{worker};" for worker in workers)
    (folder / "nginx.conf").write_text(NGINX.format(folder=folder, port=port, servers=servers), encoding="ascii")
    with subprocess.Popen([tool("nginx", "nginx-light"), "-p", folder, "-c", folder / "nginx.conf"], stderr=subprocess.DEVNULL) as front:
        time.sleep(2)
        yield front.pid
        front.terminate()


def press(address: str, folder: Path, visitors: int, rate: int, seconds: int) -> None:
    """Has wrk make the changes, and prints what it says."""
    (folder / "visitors").write_text("".join(visitor(address) for _ in range(visitors)), encoding="ascii")
    pause = 1000 * THREADS / rate if rate else 0
    own = [str(folder / "visitors"), str(pause), str(THREADS), json.dumps(questions()), address]
    words = [tool("wrk"), f"-t{THREADS}", f"-c{THREADS}", f"-d{seconds}s", "-s", str(TOP / "bench" / "service.lua"), address, "--", *own]
    print(subprocess.run(words, check=True, capture_output=True, text=True).stdout)


def given_by(argv: list[str]) -> argparse.Namespace:
    """What the command line says."""
    words = words_of(__doc__)
    add_library(words)
    for name, default in (("--visitors", 400), ("--cache", 500), ("--rate", 200), ("--seconds", 20)):
        words.add_argument(name, type=int, default=default, metavar="N")
    return words.parse_args(argv)


def spent_by(processes: dict[str, list[int]]) -> dict[str, float]:
    """The processor seconds of each part."""
    return {name: sum(map(seconds_of, pids)) for name, pids in processes.items()}


def main(argv: list[str]) -> int:  # pylint: disable=too-many-locals  # what the load is made of
    """Runs the load once."""
    given = given_by(argv)
    os.environ["FACT_GRAPH_LIBRARY"] = str(given.library)
    # pylint: disable=import-outside-toplevel # the package finds its library when it is imported
    from databases import Postgres
    from fact_graph_service.settings import Settings
    from servers import Worker, held_ports

    with tempfile.TemporaryDirectory(prefix="load_service.") as made, closing(Postgres()) as database, held_ports(3) as (port, *ports), ExitStack() as begun:
        folder, address = Path(made), f"http://127.0.0.1:{port}"
        settings = Settings(DICTIONARY, database.place, secrets.token_bytes(32), origins=(address,), cache=given.cache, rate=1_000_000)
        workers = [Worker(settings, it) for it in ports]
        for worker in workers:
            begun.callback(worker.close)  # also where something fails
            worker.begin()
        with nginx(folder, port, ports) as front:
            began, before = time.monotonic(), busy()
            parts = {"the two workers": [it.pid for it in workers], "PostgreSQL": database.pids(), "nginx": tree(front)}
            earlier = spent_by(parts)
            press(address, folder, given.visitors, given.rate, given.seconds)
            parts["PostgreSQL"] = database.pids()
            took = {name: seconds - earlier[name] for name, seconds in spent_by(parts).items()}
            others, wanted = (busy() - before - sum(took.values())) / (time.monotonic() - began), os.getloadavg()[0]
        changes = max(1, database.count("changes"))
        print(f"{changes} changes in the store, {changes / given.seconds:.0f} a second")
        for name, seconds in took.items():
            print(f"{name:28} {1000 * seconds / changes:.2f} ms of processor for a change")
        for name, milliseconds in parts_of_a_change(database.place).items():
            print(f"  {name:26} {milliseconds:.2f} ms")
        print("memory of the workers:", ", ".join(f"{worker.megabytes():.0f} MB" for worker in workers))
        print(f"{others:.1f} of {os.cpu_count()} processors were taken by wrk and other processes")
        print(f"{wanted:.0f} processes wanted one, in the mean of a minute")
        for worker in workers:
            worker.end()
    return 0


if __name__ == "__main__":
    sys.exit(main(sys.argv[1:]))
