#!/usr/bin/python3
"""Times calls of the Python package over the C library, by its compiled module and by ctypes, and shows the memory of a session.

    bench/python.py [--library PATH]

Nothing is built but the compiled module. The least time of many short runs of each call is shown, over the screener with three members. The
exit status is 1 where by the compiled module a `get` of an amount takes more than 2.5 microseconds or a `set` that touches two slots more
than 3.5, and 2 where there is no library or the module can't be built.
"""
import itertools
import os
import sys
import tempfile
import timeit
from collections.abc import Callable
from decimal import Decimal
from pathlib import Path
from typing import Any
from unittest import mock

from timing import EXAMPLES, TOP, add_library, words_of

# pylint: disable-next=wrong-import-order # timing finds it
from compiled_module import build_compiled, load_compiled

sys.path.append(str(TOP / "python"))

GET, SET = "get of an amount", "set that touches two slots"
LIMITS = {GET: 2.5, SET: 3.5}
ROUNDS, CALLS = 60, 50
SESSIONS = 100


def answered(kind: Any) -> Any:
    """A session of the screener, answered so far that the help is known."""
    session = kind.open(EXAMPLES / "screener.json")
    for line in (EXAMPLES / "screener.script").read_text(encoding="utf-8").split("remove")[0].splitlines():
        session.line(line)
    return session


def calls_of(session: Any) -> dict[str, Callable[[], object]]:
    """What is timed, by name."""
    amount, numbers = Decimal("1240.50"), itertools.cycle(["123456789", "123456780"])
    return {
        GET: lambda: session.get("/help"),
        "get of a member's day": lambda: session.get("/people/#1/born"),
        "line of the first get": lambda: session.line("get /help"),
        "final": lambda: session.final("/help"),
        "line of missing": lambda: session.line("missing /help"),
        "missing, with its tree": lambda: session.missing("/help"),
        "why": lambda: session.why("/help"),
        "touched": session.touched,
        "set to the amount that stands": lambda: session.set("/bill", amount),
        SET: lambda: session.set("/caseNumber", next(numbers)),
    }


def least(calls: dict[str, Callable[[], object]]) -> dict[str, float]:
    """By name, the least time of a call in microseconds; the calls take turns."""
    found = dict.fromkeys(calls, float("inf"))
    for _ in range(ROUNDS):
        for name, call in calls.items():
            found[name] = min(found[name], timeit.timeit(call, number=CALLS) / CALLS * 1e6)
    return found


def resident() -> int:
    """The resident memory of this process, in bytes."""
    return int(Path("/proc/self/statm").read_text(encoding="ascii").split()[1]) * os.sysconf("SC_PAGESIZE")


def main(argv: list[str]) -> int:
    """Times the calls."""
    words = words_of(__doc__)
    add_library(words)
    os.environ["FACT_GRAPH_LIBRARY"] = str(words.parse_args(argv).library)
    with tempfile.TemporaryDirectory() as folder:
        load_compiled(build_compiled(Path(folder)))
    from fact_graph import Session, _answering  # pylint: disable=import-outside-toplevel # behind the module that it shall find

    compiled = least(calls_of(answered(Session)))
    with mock.patch.object(_answering, "IS_COMPILED", False):
        session = answered(Session)
    print("compiled    ctypes")
    for name, time in least(calls_of(session)).items():
        print(f"{compiled[name]:5.2f} us  {time:5.2f} us  {name}")
    before = resident()
    kept = [answered(Session) for _ in range(SESSIONS)]
    print(f"{(resident() - before) / len(kept) / 1024:8.0f} KiB of a session of the screener")
    return 1 if any(compiled[name] > limit for name, limit in LIMITS.items()) else 0


if __name__ == "__main__":
    sys.exit(main(sys.argv[1:]))
