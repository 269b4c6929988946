"""What the benchmarks share: the program that is timed, and what a run of it takes."""
import json
import os
import subprocess
import sys
import tempfile
from argparse import ArgumentParser
from collections.abc import Iterable, Sequence
from pathlib import Path
from typing import NamedTuple, NoReturn

sys.path += [str(Path(__file__).resolve().parent.parent / folder) for folder in ("tests", "dev")]

# pylint: disable=wrong-import-position,wrong-import-order # found by the path above
from crates import Crate, crates  # noqa: E402
from harness import EXAMPLES, TOP, Word, a_program, add_library, add_program, tool, words_of as words_of_runner  # noqa: E402

__all__ = [
    "EXAMPLES", "TOP", "Crate", "Run", "Word", "a_program", "add_library", "add_program", "add_up", "crates", "give_up", "least", "timed", "tool", "words_of",
    "write_dictionary",
]

RUNS = 5
STATUSES = "The exit status is 0 where all was timed, 1 where a run failed or took longer than it may, and 2 where something isn't there."


class Run(NamedTuple):
    """What a run took, and what it wrote."""

    user: float  # processor time in user mode, in seconds
    system: float
    peak: int  # memory, in KiB
    text: bytes


def words_of(doc: str | None) -> ArgumentParser:
    """The words of a benchmark's command line, with its module's text and the exit statuses as the help."""
    words = words_of_runner(doc)
    words.epilog = STATUSES
    return words


def give_up(why: str) -> NoReturn:
    """Ends a benchmark whose runs mean nothing."""
    sys.exit(f"{Path(sys.argv[0]).name}: {why}")


def timed(command: Sequence[Word], folder: Path, script: Path | None = None) -> Run:
    """Runs the command once, over a file as standard input. A run that fails has no time."""
    with open(script or os.devnull, "rb") as source, tempfile.TemporaryFile() as sink:
        started = subprocess.Popen(command, stdin=source, stdout=sink, cwd=folder)  # pylint: disable=consider-using-with  # waited for below
        _, ended, used = os.wait4(started.pid, 0)
        started.returncode = os.waitstatus_to_exitcode(ended)
        if started.returncode:
            give_up(f"{' '.join(map(str, command))}: status {started.returncode}")
        sink.seek(0)
        return Run(used.ru_utime, used.ru_stime, used.ru_maxrss, sink.read())


def least(command: Sequence[Word], folder: Path, script: Path | None = None, runs: int = RUNS) -> Run:
    """The run with the least user time of so many."""
    return min(timed(command, folder, script) for _ in range(runs))


def add_up(first: list[object], count: int) -> list[object]:
    """A node that adds 1 so many times to another."""
    return ["Add", first, *[["Int", "1"]] * count]


def write_dictionary(path: Path, facts: Iterable[dict[str, object]], tables: Sequence[dict[str, object]] = ()) -> None:
    """Writes a dictionary of these facts, in the law profile where it has tables."""
    rest = {"version": "law-1", "tables": list(tables)} if tables else {"version": "1"}
    path.write_text(json.dumps({**rest, "facts": list(facts)}), encoding="utf-8")
