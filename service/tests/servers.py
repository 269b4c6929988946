"""Workers of a service, each a process of its own, over one store."""

from __future__ import annotations

import dataclasses
import os
import signal
import socket
import subprocess
import sys
import urllib.error
import urllib.request
from collections.abc import Iterator
from contextlib import ExitStack, contextmanager
from pathlib import Path
from typing import IO

from fact_graph_service.settings import Settings
from waiting import SECONDS, wait_until

TOP = Path(__file__).resolve().parents[2]


@contextmanager
def held_ports(count: int) -> Iterator[list[int]]:
    """Ports that nobody else gets meanwhile: each is held by a socket that doesn't listen, beside which a server may."""
    with ExitStack() as held:
        ports = []
        for _ in range(count):
            holder = held.enter_context(socket.socket())
            holder.setsockopt(socket.SOL_SOCKET, socket.SO_REUSEADDR, 1)
            holder.bind(("127.0.0.1", 0))
            ports.append(holder.getsockname()[1])
        yield ports


class Worker:
    """A process that serves at a port."""

    def __init__(self, settings: Settings, port: int, log: IO[bytes] | int = subprocess.DEVNULL) -> None:
        self._settings, self.port, self._log = settings, port, log
        self._process: subprocess.Popen[bytes] | None = None

    def begin(self) -> None:
        """Starts the process, and waits until it answers."""
        path = os.pathsep.join([str(TOP / "python"), str(TOP / "service")])
        environment = {**os.environ, **self._settings.environment(), "PYTHONPATH": path, "PYTHONDONTWRITEBYTECODE": "1"}
        words = [sys.executable, "-m", "uvicorn", "--factory", "fact_graph_service.app:application", "--no-access-log", "--port", str(self.port)]
        # pylint: disable-next=consider-using-with # it is ended by `end`
        self._process = subprocess.Popen(words, env=environment, stdout=self._log, stderr=self._log)
        wait_until(f"a worker answers at port {self.port}", lambda: self.is_well() or self.has_ended())
        if self.has_ended():
            raise RuntimeError(f"the worker at port {self.port} has ended")

    def is_well(self) -> bool:
        """Whether the process answers."""
        try:
            with urllib.request.urlopen(f"http://127.0.0.1:{self.port}/health", timeout=5) as answer:
                return bool(answer.status == 200)
        except (OSError, urllib.error.URLError):
            return False

    def has_ended(self) -> bool:
        """Whether the process is there no more."""
        assert self._process is not None
        return self._process.poll() is not None

    @property
    def pid(self) -> int:
        """The number of the process."""
        assert self._process is not None
        return self._process.pid

    def megabytes(self) -> float:
        """The memory that the process holds."""
        pages = int(Path(f"/proc/{self.pid}/statm").read_text(encoding="ascii").split()[1])
        return pages * os.sysconf("SC_PAGE_SIZE") / 1_000_000

    def send(self, which: int) -> None:
        """Sends the process a signal."""
        assert self._process is not None
        self._process.send_signal(which)

    def end(self, how: int = signal.SIGTERM) -> int:
        """Ends the process by a signal, and returns its exit status."""
        self.send(how)
        return self.wait()

    def wait(self) -> int:
        """Waits until the process has ended, and returns its exit status."""
        assert self._process is not None
        return self._process.wait(SECONDS)

    def close(self) -> None:
        """Kills the process, where it was ever started and is still there."""
        if self._process is not None:
            self.end(signal.SIGKILL)


@contextmanager
def served(settings: Settings, count: int = 1, log: IO[bytes] | int = subprocess.DEVNULL) -> Iterator[list[Worker]]:
    """Workers that serve at ports of their own, each of which is a page's address. `settings.origins` is theirs."""
    with held_ports(count) as ports, ExitStack() as begun:
        origins = tuple(f"http://127.0.0.1:{port}" for port in ports)
        workers = [Worker(dataclasses.replace(settings, origins=origins), port, log) for port in ports]
        for worker in workers:
            begun.callback(worker.close)
            worker.begin()
        yield workers
