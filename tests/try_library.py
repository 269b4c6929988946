#!/usr/bin/env python3
"""Tries the C library that tools/build_library.py linked, from hosts in C and from one in Python.

    tests/try_library.py [--library PATH]

Nothing is built but the hosts.

- tests/library/sessions.c runs each script of examples/ over its dictionary with each allocation failing in turn, after which each
  call has to say the same as ever, and once more under valgrind and with the compiler's sanitizers.
- tests/library/calls.c tries the calls beside lines in the same three ways: what a slot reads, the facts and their descriptions, how many
  changes are kept, a text that is given back, and the dictionaries that come with the library.
- tests/library/desks.c tries the calls of desks in the same three ways: two parties, marks, long replies, and a desk that goes on from a
  saved text.
- tests/library/threads.c does so in eight threads at the same time, with the sanitizers.
- tests/library/resumed.c resumes from saved texts that came from outside, under valgrind, with the sanitizers and with each allocation failing in turn.
- tests/library/cases.c runs the stored cases of tests/rows that the library serves, those of desks among them, under valgrind and with the
  sanitizers, each line and each text in a block of exactly its size: no access may be wild, and nothing may leak. The households of the
  tax years are among them.
- tests/library/interview.py is the program over the library, for run_rows.py: all stored cases, with each reply in pieces.

A line is printed for each part; the exit status is 0 where all passed, 1 where one failed, and 2 where there is no such library, no
C compiler or no valgrind.
"""
import os
import subprocess
import sys
import tempfile
from collections.abc import Iterator
from concurrent.futures import ThreadPoolExecutor
from pathlib import Path

from harness import EXAMPLES, TOP, Word, add_library, compiled, run, tool, words_of
from library import interview
from stored_cases import Served, all_cases, served

HOST = TOP / "tests" / "library"
HEADER = TOP / "crates" / "fact_graph_c"
VALGRIND = ["valgrind", "-q", "--leak-check=full", "--show-leak-kinds=all", "--errors-for-leak-kinds=all", "--error-exitcode=3"]
# Of addresses, leaks and undefined behaviour in the hosts; each ends them.
SANITIZED = ["-fsanitize=address,undefined", "-fno-sanitize-recover=all", "-fno-omit-frame-pointer"]


def say(is_passed: bool, what: str, why: str = "") -> bool:
    """Says whether a part passed."""
    print(f"{'passed' if is_passed else 'failed'}: {what}{': ' + why if why else ''}", flush=True)
    return is_passed


def host(library: Path, folder: str, name: str, source: str, *flags: str) -> Path:
    """A host in C, linked with the library."""
    return compiled(HOST / source, Path(folder, name), library, "-g", f"-I{HEADER}", f"-Wl,-rpath,{library.parent}", *flags)


# ---- the examples

def examples() -> Iterator[tuple[str, Path, Path, Path]]:
    """The examples with a dictionary, a script and replies."""
    for script in sorted(EXAMPLES.glob("*.script")):
        dictionary, replies = script.with_suffix(".json"), script.with_suffix(".replies")
        if dictionary.is_file() and replies.is_file():
            yield script.stem, dictionary, script, replies


def brought() -> Iterator[tuple[str, Path, Path]]:
    """The households of the dictionaries that come with the library: the words, the script and the replies."""
    for word, folder in (("year", "years"), ("income", "income")):
        for script in sorted((EXAMPLES / folder).glob("*.script")):
            yield f"{word} {script.stem}", script, script.with_suffix(".replies")


def runs(what: str, command: list[Word], replies: Path) -> bool:
    """Whether the host ends well, with these replies."""
    ended = run(command, TOP, b"")
    return say((ended.text, ended.status) == (replies.read_bytes(), 0), what, ended.error.decode(errors="replace").strip())


def in_three_ways(library: Path, folder: str, what: str, source: str, *words_of_it: str) -> Iterator[bool]:
    """Whether a host that says nothing ends well under valgrind, with sanitizers, and with each allocation failing in turn."""
    ways: list[tuple[str, list[str], list[str]]] = [
        ("under valgrind", VALGRIND, []), ("with sanitizers", [], SANITIZED), ("with failing allocations", [], ["-DFAILING", "-O1"]),
    ]
    for number, (how, front, flags) in enumerate(ways):
        ended = run([*front, host(library, folder, f"{Path(source).stem}_{number}", source, *flags), *words_of_it], TOP, b"")
        yield say((ended.text, ended.status) == (b"", 0), f"{what} {how}", ended.error.decode(errors="replace").strip())


# ---- the stored cases

def dealt(cases: list[Served], lanes: int) -> list[list[Served]]:
    """The cases in as many groups, the longest first."""
    by_length = sorted(cases, key=lambda it: -len(it.case.script) - len(it.saved or b""))
    return [by_length[lane::lanes] for lane in range(lanes)]


def wrong_in(folder: str, group: list[Served], lines: list[str]) -> Iterator[str]:
    """The cases of a group whose text isn't the one that is due."""
    for n, (line, it) in enumerate(zip(lines, group)):
        refusal, text = interview.refusal(map(int, line.split())), Path(folder, f"{n}.out").read_bytes()
        if (refusal or text) != it.case.due or refusal and text:
            yield it.case.place


def check_group(command: list[Word], group: list[Served]) -> list[str]:
    """Runs a group of cases in one process. Says what is wrong; nothing where all pass."""
    with tempfile.TemporaryDirectory(prefix="try_library.") as folder:
        for n, it in enumerate(group):
            Path(folder, f"{n}.d").write_bytes(it.dictionary)
            Path(folder, f"{n}.script").write_bytes(it.case.script)
            if it.saved is not None:
                Path(folder, f"{n}.s").write_bytes(it.saved)
        ended = subprocess.run([*command, folder, *(it.word for it in group)], capture_output=True, text=True, errors="replace", check=False)
        lines = ended.stdout.splitlines()
        wrong = list(wrong_in(folder, group, lines))
        if ended.returncode or ended.stderr or len(lines) != len(group):
            wrong.append(f"status {ended.returncode} after {len(lines)} of {len(group)} cases: {ended.stderr.strip()[:2000]}")
        return wrong


def stored_cases_pass(how: str, command: list[Word]) -> bool:
    """Whether the stored cases pass, in as many processes as there are processors."""
    every = [it for it in map(served, all_cases()) if it is not None]
    lanes = os.cpu_count() or 1
    with ThreadPoolExecutor(lanes) as pool:
        wrong = [it for found in pool.map(lambda group: check_group(command, group), dealt(every, lanes)) for it in found]
    return say(not wrong, f"{len(every)} stored cases {how}", "; ".join(wrong))


def in_pieces(library: Path) -> bool:
    """Whether each stored case passes, with its replies in pieces."""
    command: list[Word] = [TOP / "tests/run_rows.py", "--program", HOST / "interview.py"]
    return subprocess.run(command, env={**os.environ, "FACT_GRAPH_LIBRARY": str(library)}, check=False).returncode == 0


def main(argv: list[str]) -> int:
    """Tries each part."""
    words = words_of(__doc__)
    add_library(words)
    library = words.parse_args(argv).library
    tool("valgrind")
    passed = []
    with tempfile.TemporaryDirectory(prefix="try_library.") as folder:
        plain, failing = host(library, folder, "sessions", "sessions.c"), host(library, folder, "failing", "sessions.c", "-DFAILING", "-O1")
        sanitized = host(library, folder, "sanitized", "sessions.c", *SANITIZED)
        threads = host(library, folder, "threads", "threads.c", "-pthread", *SANITIZED)
        calls, failing_calls = host(library, folder, "calls", "calls.c"), host(library, folder, "failing_calls", "calls.c", "-DFAILING", "-O1")
        sanitized_calls = host(library, folder, "sanitized_calls", "calls.c", *SANITIZED)
        for name, dictionary, script, replies in examples():
            passed.append(runs(f"{name} under valgrind", [*VALGRIND, plain, dictionary, script], replies))
            passed.append(runs(f"{name} with sanitizers", [sanitized, dictionary, script], replies))
            passed.append(runs(f"{name} in eight threads", [threads, dictionary, script], replies))
            passed.append(runs(f"{name} with failing allocations", [failing, dictionary, script], replies))
        for words_of_it, script, replies in brought():
            passed.append(runs(f"{words_of_it} under valgrind", [*VALGRIND, calls, words_of_it, script], replies))
            passed.append(runs(f"{words_of_it} with sanitizers", [sanitized_calls, words_of_it, script], replies))
            passed.append(runs(f"{words_of_it} with failing allocations", [failing_calls, words_of_it, script], replies))
        passed.extend(in_three_ways(library, folder, "resumed texts", "resumed.c"))
        passed.extend(in_three_ways(library, folder, "desks", "desks.c", "year 2023"))
        passed.append(stored_cases_pass("under valgrind", [*VALGRIND, host(library, folder, "cases", "cases.c")]))
        passed.append(stored_cases_pass("with sanitizers", [host(library, folder, "sanitized_cases", "cases.c", *SANITIZED)]))
    passed.append(in_pieces(library))
    return 0 if all(passed) else 1


if __name__ == "__main__":
    sys.exit(main(sys.argv[1:]))
