#!/usr/bin/env python3
"""Times `missing` of the last fact of two dictionaries, by `interview run` over dictionaries that it makes.

    bench/missing.py [--program PATH]

In one dictionary of 2,000 facts with 39,981 nodes each fact but the first is a sum over the 19 facts before it, or as many as there
are, and the first is unanswered. In the other 1,900 facts of each of 100 members are each the fact before it and 1: 190,101 slots
stand, of which the asked one reads 1,901. Each is asked for once and 101 times, and a time is the difference of the least user times
of three runs each, over 100. The exit status is 1 where the first take over 20 milliseconds each.
"""
import sys
import tempfile
from collections.abc import Iterator
from pathlib import Path

from timing import add_program, add_up, give_up, least, words_of, write_dictionary

ASKED, RUNS = 100, 3
MOST = 0.020


def sums() -> Iterator[dict[str, object]]:
    """2,000 facts, each a sum over the 19 before it."""
    yield {"path": "/x0", "writable": "Int"}
    for k in range(1, 2_000):
        yield {"path": f"/x{k}", "derived": "Int", "is": ["Add", *(["Dependency", f"/x{max(k - back, 0)}"] for back in range(1, 20))]}


def chains() -> Iterator[dict[str, object]]:
    """1,900 facts of each of 100 members, each the one before it and 1."""
    yield {"path": "/c", "writable": "Collection"}
    yield {"path": "/c/*/x0", "writable": "Int"}
    for k in range(1, 1_900):
        yield {"path": f"/c/*/x{k}", "derived": "Int", "is": add_up(["Dependency", f"../x{k - 1}"], 1)}


def seconds_of(program: Path, facts: Iterator[dict[str, object]], front: str, slot: str, due: str) -> float:
    """The user time of one `missing` of a slot of which one answer is missing, behind these lines."""
    with tempfile.TemporaryDirectory(prefix="bench.") as name:
        folder = Path(name)
        write_dictionary(folder / "d", facts)
        times = []
        for count in (1, 1 + ASKED):
            (folder / "script").write_text(front + f"missing {slot}\n" * count, encoding="utf-8")
            run = least([program, "run", "d"], folder, folder / "script", RUNS)
            if not run.text.endswith(f"missing 1\n{due}\n".encode()):
                give_up(f"{run.text[-100:]!r} came of {slot}")
            times.append(run.user)
    return (times[1] - times[0]) / ASKED


def main(argv: list[str]) -> int:
    """Times both."""
    words = words_of(__doc__)
    add_program(words)
    program = words.parse_args(argv).program
    first = seconds_of(program, sums(), "", "/x1999", "/x0")
    print(f"missing of the last of 2,000 facts with 39,981 nodes: {first * 1e3:.2f} ms", flush=True)
    second = seconds_of(program, chains(), "add /c\n" * 100, "/c/#100/x1899", "/c/#100/x0")
    print(f"missing of a slot that reads 1,901 of 190,101: {second * 1e3:.2f} ms")
    return 1 if first > MOST else 0


if __name__ == "__main__":
    sys.exit(main(sys.argv[1:]))
