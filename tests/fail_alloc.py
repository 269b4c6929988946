#!/usr/bin/env python3
"""Makes each allocation of the program fail in turn, and each of the tests of sessions, and checks how they end.

    tests/fail_alloc.py [--program PATH] [--tests PATH | --no-tests]

The tests are crates/session_tests/out/session_tests_tests where none are given; nothing is built. Over each example, over a
session that is saved, loaded and carried, over the short scripts below and for the check of a dictionary, the program runs with
its first allocation failing, then with its second, and so on, until no allocation is left to fail. A run in which one failed
passes where it ended with status 7, the line of this status on standard error, and whole replies to the first lines. A list that
is collected asks for all its room, and where that isn't there for some of it; so such a run passes too where it gave all replies
with status 0. The last run has to.

Each test runs in the same way: a run in which an allocation failed passes where the test ended for want of memory, or passed in
spite of it. In some of them memory has to be wanting for a session that resumes with given answers.

The exit status is 0 where none failed, 1 where some did, and 2 where nothing could be run.
"""
import os
import re
import resource
import subprocess
import sys
import tempfile
from collections.abc import Callable, Iterator
from concurrent.futures import ThreadPoolExecutor
from pathlib import Path
from typing import NamedTuple

from harness import EXAMPLES, TOP, Ended, Tally, a_program, add_program, compiled, run, words_of

TESTS = TOP / "crates" / "session_tests" / "out" / "session_tests_tests"
FAILED_TEST = 101
WANTING = re.compile(rb"^error: .*(NoMemory|no memory|AllocError|AllocFailed)", re.MULTILINE)
RESUMING = b"no memory for the session"

# What is wrong with a run by how it ended and whether an allocation failed; no text where nothing is.
Judge = Callable[[Ended, bool], str]


class Load(NamedTuple):
    """What is run with each of its allocations failing in turn."""

    name: str
    command: list[str | Path]
    script: bytes
    judge: Judge
    least: int  # how many allocations there are, at least


def replies(due: bytes) -> Judge:
    """What is wrong with a run of the program of which these replies are due."""
    whole = Ended.due(due, 0)

    def wrong(ended: Ended, failed: bool) -> str:
        if not due.startswith(ended.text) or ended.text and not ended.text.endswith(b"\n"):
            return f"other replies: {ended.text!r}"
        if failed and ended.status == 7:
            return "" if ended == Ended.due(ended.text, 7) else f"other text on standard error: {ended.error!r}"
        return "" if ended == whole else f"status {ended.status}, {len(ended.text)} of {len(due)} bytes of replies, {ended.error!r}"

    return wrong


def result_of_test(ended: Ended, failed: bool) -> str:
    """What is wrong with a run of a test."""
    if failed and ended.status == FAILED_TEST:
        return "" if WANTING.search(ended.error) else f"another error: {ended.error!r}"
    return "" if ended.status == 0 else f"status {ended.status}: {ended.error!r}"


def loads_of_program(program: Path) -> Iterator[Load]:
    """The examples and the short scripts."""
    def load(name: str, words: list[str], script: bytes, due: bytes) -> Load:
        return Load(name, [program, *words], script, replies(due), 1)

    def example(name: str, words: list[str], script: str, due: str) -> Load:
        return load(name, words, (EXAMPLES / script).read_bytes(), (EXAMPLES / due).read_bytes())

    for script in sorted(EXAMPLES.glob("*.script")):
        yield example(script.stem, ["run", f"{script.stem}.json"], script.name, f"{script.stem}.replies")
    yield load("plain", ["run", "three.json"], b"set /a 5\nget /s\n", b"ok\nincomplete\n")
    yield load("refused", ["run", "three.json"], b"set /a 5\nset /s 5\nget /s\n", b"ok\nrefused 5 WrongKind\nincomplete\n")
    yield load("year", ["year", "2023"], b"set /married false\nget /joint\n", b"ok\ncomplete false\n")
    yield example("desk", ["desk", "screener.json"], "desk/household.script", "desk/household.replies")
    yield example("saved", ["save", "screener.json"], "saved/monday.script", "saved/monday.saved")
    yield example("loaded", ["load", "screener.json", "saved/monday.saved"], "saved/tuesday.script", "saved/tuesday.replies")
    yield example("carried", ["carry", "saved/mended.json", "saved/monday.saved"], "saved/thursday.script", "saved/thursday.replies")
    yield load("checked", ["check", "three.json"], b"", b"dictionary accepted 3 facts 3 nodes\n")


def loads_of_tests(tests: Path) -> Iterator[Load]:
    """The tests of sessions, some of which may take no memory."""
    listed = subprocess.run([tests, "--list"], capture_output=True, text=True, check=True).stdout
    for name in re.findall(r"^(.*): test$", listed, re.MULTILINE):
        yield Load(name, [tests, name], b"", result_of_test, 0)


def fail_each(library: Path, load: Load) -> tuple[int, list[str], bool]:
    """Fails one allocation after another. Returns how many there are, what is wrong with each run, and whether memory was
    wanting for a session that resumes."""
    wrongs, resuming, number = [], False, 0
    with tempfile.TemporaryDirectory(prefix="fail_alloc.") as folder:
        mark = Path(folder, "mark")
        while True:
            number += 1
            mark.unlink(missing_ok=True)
            ended = run(load.command, EXAMPLES, load.script, {"LD_PRELOAD": str(library), "FAILING": str(number), "MARK": str(mark)})
            failed = mark.exists()
            wrong = load.judge(ended, failed)
            wrongs.append(f"allocation {number}: {wrong}" if wrong else "")
            resuming = resuming or RESUMING in ended.error
            if not failed:
                return number - 1, wrongs, resuming


def main(argv: list[str]) -> int:
    """Runs each load."""
    words = words_of(__doc__)
    add_program(words)
    words.add_argument("--tests", type=a_program, default=str(TESTS), metavar="PATH")
    words.add_argument("--no-tests", dest="tests", action="store_const", const=None)
    given = words.parse_args(argv)
    resource.setrlimit(resource.RLIMIT_CORE, (0, 0))
    tally, resuming = Tally(), False
    with tempfile.TemporaryDirectory(prefix="fail_alloc.") as folder, ThreadPoolExecutor(os.cpu_count()) as pool:
        library = compiled(TOP / "tests/preload/failing_allocations.c", Path(folder, "failing.so"), "-O1", "-shared", "-fPIC", "-ldl")
        loads = [*loads_of_program(given.program), *(loads_of_tests(given.tests) if given.tests else ())]
        for load, (count, wrongs, resumes) in zip(loads, pool.map(lambda it: fail_each(library, it), loads)):
            for wrong in wrongs:
                tally.judge(load.name, wrong)
            if count < load.least:
                tally.judge(load.name, "no allocation was made to fail")
            resuming = resuming or resumes
            print(f"{load.name}: {count} allocations", flush=True)
    if given.tests:
        tally.expect("memory was wanting for a session that resumes", resuming, True)
    return tally.end()


if __name__ == "__main__":
    sys.exit(main(sys.argv[1:]))
