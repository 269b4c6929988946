#!/usr/bin/env python3
"""Times making the nodes of 2,000 facts with 40,000 nodes, beside reading and accepting them.

    bench/compile.py [--program PATH]

`check` reads and accepts a dictionary, and `run` over a script without lines then makes its nodes, the readers of its facts and the
cells of its slots besides, so the nodes take at most what `run` takes longer. A time is the least user time of 25 runs. The exit
status is 1 where that is longer than `check` takes.
"""
import sys
import tempfile
from collections.abc import Iterator
from pathlib import Path

from timing import add_program, add_up, least, words_of, write_dictionary

FACTS = 2_000
OPERANDS = 19
RUNS = 25


def sums() -> Iterator[dict[str, object]]:
    """Each fact adds 18 constants to the fact before it; the last has 20 more, so that 40,000 nodes stand."""
    yield {"path": "/f1", "writable": "Int"}
    for k in range(2, FACTS + 1):
        yield {"path": f"/f{k}", "derived": "Int", "is": add_up(["Dependency", f"/f{k - 1}"], OPERANDS - 1 + (20 if k == FACTS else 0))}


def main(argv: list[str]) -> int:
    """Times both."""
    words = words_of(__doc__)
    add_program(words)
    program = words.parse_args(argv).program
    with tempfile.TemporaryDirectory(prefix="bench.") as name:
        folder = Path(name)
        write_dictionary(folder / "d", sums())
        reading, beginning = (least([program, word, "d"], folder, runs=RUNS) for word in ("check", "run"))
    print(f"{reading.text.decode().strip()}: {reading.user * 1e3:.1f} ms to read and accept")
    print(f"nodes, readers and cells: {(beginning.user - reading.user) * 1e3:.1f} ms")
    return 0 if beginning.user - reading.user <= reading.user else 1


if __name__ == "__main__":
    sys.exit(main(sys.argv[1:]))
