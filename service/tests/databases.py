"""Databases for the tests: a PostgreSQL of their own, which can be stopped and started, or killed."""

from __future__ import annotations

import os
import pwd
import shutil
import signal
import subprocess
import tempfile
import time
from pathlib import Path

import psycopg

from waiting import SECONDS, wait_until

BIN = max(Path("/usr/lib/postgresql").glob("*/bin"), default=Path("/usr/bin"))
USER = "postgres"


class Failed(Exception):
    """A program of PostgreSQL failed: what it said."""


class Postgres:
    """A PostgreSQL server over a folder of its own, reached by a socket there alone."""

    def __init__(self, folder: Path | None = None) -> None:
        """In a folder that is there, or in one of its own."""
        self.folder = Path(tempfile.mkdtemp(prefix="postgres.", dir=folder))
        # the server doesn't run as root
        account = pwd.getpwnam(USER) if os.geteuid() == 0 else pwd.getpwuid(os.geteuid())
        self._user = account.pw_name
        os.chown(self.folder, account.pw_uid, account.pw_gid)
        self._run("initdb", "--auth=trust", f"--username={USER}", "--encoding=UTF8", "--no-instructions", "-D", self.folder / "data")
        self.start()

    @property
    def place(self) -> str:
        """The store's place."""
        return f"postgresql://{USER}@/postgres?host={self.folder}"

    def start(self) -> None:
        """Starts the server, and waits until it answers. After a crash its other processes have to end first."""
        options = f"-c listen_addresses='' -c unix_socket_directories={self.folder} -c max_connections=120"
        until = time.monotonic() + SECONDS
        while True:
            try:
                return self._control("start", "-l", self.folder / "log", "-o", options)
            except Failed:
                if time.monotonic() > until:
                    raise
                time.sleep(1)

    def stop(self) -> None:
        """Stops the server at once, and with it what is under way."""
        self._control("stop", "-m", "fast")

    def kill(self) -> None:
        """Kills the server, as a crash does."""
        os.kill(self.pids()[0], signal.SIGKILL)
        wait_until("a PostgreSQL that was killed answers no more", lambda: not self.answers())

    def close(self) -> None:
        """Ends the server, where it is still there, and removes its folder."""
        try:
            self._control("stop", "-m", "immediate")
        except Failed:
            if self.answers():
                raise
        shutil.rmtree(self.folder)

    def pids(self) -> list[int]:
        """The numbers of the server's processes."""
        server = int((self.folder / "data" / "postmaster.pid").read_text(encoding="ascii").splitlines()[0])
        return [server, *map(int, Path(f"/proc/{server}/task/{server}/children").read_text(encoding="ascii").split())]

    def count(self, table: str) -> int:
        """How many rows a table has."""
        with psycopg.connect(self.place) as connection:
            row = connection.execute(f"SELECT count(*) FROM {table}".encode()).fetchone()
            return int(row[0]) if row else 0

    def clear(self) -> None:
        """Drops all tables."""
        with psycopg.connect(self.place) as connection:
            connection.execute("DROP TABLE IF EXISTS changes, sessions, dictionaries")

    def answers(self) -> bool:
        """Whether the server takes connections."""
        try:
            psycopg.connect(self.place, connect_timeout=10).close()
        except psycopg.Error:
            return False
        return True

    def _control(self, what: str, *words: object) -> None:
        self._run("pg_ctl", what, "-D", self.folder / "data", "-w", "-t", SECONDS, *words)

    def _run(self, name: str, *words: object) -> None:
        """Runs a program of PostgreSQL. What it says is only of use where it fails: that the file of a killed server's number is
        still there is no fault."""
        command = [str(BIN / name), *map(str, words)]
        if os.geteuid() == 0:
            command = ["setpriv", f"--reuid={self._user}", f"--regid={self._user}", "--clear-groups", *command]
        ran = subprocess.run(command, cwd=self.folder, stdout=subprocess.PIPE, stderr=subprocess.STDOUT, text=True, check=False)
        if ran.returncode:
            raise Failed(f"{name}: status {ran.returncode}\n{ran.stdout}")
