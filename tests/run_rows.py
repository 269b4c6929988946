#!/usr/bin/env python3
"""Runs the stored cases of tests/rows over the program, and compares what it writes with what is due.

    tests/run_rows.py [--program PATH] [FILE..]

Nothing is built. FILE.. are the files of cases, all of tests/rows/*.row and tests/rows/*.py where none is given; tests/README.md
says how they are written. A case passes where the text is the same to the byte, and so are the exit status and the line of the
status on standard error. A dictionary that `check` refuses is also run, and is to be refused by the same line. What is due of `run`
is also due of `run-plain`, but for the replies to `stamp` and `touched`, which are refused there, and of `desk` with one party
alone, whose mark stands before each command and each reply, but where the script watches a slot; a program of cases with
BOTH_ENGINES = False keeps them to `run`. The cases run side by side on all processors. The exit status is 0 where some passed and
none failed, 1 where one failed or a file can't be read, and 2 where there is no such program.
"""
import os
import sys
import tempfile
from concurrent.futures import Future, ThreadPoolExecutor
from pathlib import Path
from threading import Semaphore

import harness
from harness import Ended, Tally, add_program, words_of
from stored_cases import Case, Malformed, also, cases_of, files_of_cases

WIDEST = 200


def short(line: bytes) -> str:
    """A line to be shown."""
    text = line.decode(errors="backslashreplace")
    return text if len(text) <= WIDEST else f"{text[:WIDEST]}.. ({len(line)} bytes)"


def line_at(lines: list[bytes], at: int) -> str:
    """The line at a place, or that there is none."""
    is_end = at >= len(lines) or not lines[at] and at == len(lines) - 1
    return "the end" if is_end else repr(short(lines[at]))


def first_difference(due: bytes, came: bytes) -> str:
    """Which line differs first, with what was expected and what came."""
    wanted, got = due.split(b"\n"), came.split(b"\n")
    at = next((k for k, (a, b) in enumerate(zip(wanted, got)) if a != b), min(len(wanted), len(got)))
    return f"line {at + 1}: expected {line_at(wanted, at)}, came {line_at(got, at)}"


def run(program: Path, case: Case) -> str:
    """What is wrong with the run of the case; nothing where it passes."""
    with tempfile.TemporaryDirectory(prefix="run_rows.") as folder:
        if case.dictionary is not None:
            Path(folder, "d").write_bytes(case.dictionary)
        if case.saved is not None:
            Path(folder, "s").write_bytes(case.saved)
        for word in set(case.words[1:]):
            if word and (case.shared / word).is_file():
                os.symlink(case.shared / word, Path(folder, word))
        came = harness.run([program, *case.words], Path(folder), case.script)
    due = Ended.due(case.due, case.status)
    wrong = []
    if came.text != due.text:
        wrong.append(first_difference(due.text, came.text))
    if came.status != due.status:
        wrong.append(f"expected status {due.status}, came {came.status}")
    if came.error != due.error:
        wrong.append(f"on standard error expected {short(due.error)!r}, came {short(came.error)!r}")
    return "; ".join(wrong)


class Runs:
    """The cases that are run, a bounded number at a time, since some are large."""

    def __init__(self, program: Path) -> None:
        self.program = program
        count = os.cpu_count() or 1
        self.pool = ThreadPoolExecutor(count)
        self.room = Semaphore(2 * count)
        self.begun: list[tuple[str, Future[str]]] = []

    def begin(self, case: Case) -> None:
        """Runs a case as soon as there is room."""
        self.room.acquire()  # pylint: disable=consider-using-with  # let go where the run ends
        ran = self.pool.submit(run, self.program, case)
        ran.add_done_callback(lambda _: self.room.release())
        self.begun.append((case.place, ran))


def main(argv: list[str]) -> int:
    """Runs the cases of the files."""
    words = words_of(__doc__)
    add_program(words)
    words.add_argument("files", nargs="*", type=Path, metavar="FILE")
    given = words.parse_args(argv)
    runs, tally = Runs(given.program), Tally()
    for path in given.files or files_of_cases():
        for case in cases_of(path):
            if isinstance(case, Malformed):
                tally.judge("no case", str(case))
            else:
                for each in also(case):
                    runs.begin(each)
    for place, ran in runs.begun:
        tally.judge(place, ran.result())
    return tally.end()


if __name__ == "__main__":
    sys.exit(main(sys.argv[1:]))
