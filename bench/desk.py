#!/usr/bin/env python3
"""Times the lines of parties at a desk beside the same lines of a session.

    bench/desk.py [--program PATH]

Each load is a script of 1,000,000 lines under `run`, and then under `desk`: by one party, and by sixteen in turn, where the load
lets them take turns. All are the least user time of three runs, less the start, in microseconds a line. Nothing is judged.
"""
import shutil
import sys
import tempfile
from collections.abc import Iterator
from pathlib import Path

from timing import EXAMPLES, add_program, least, words_of

LINES, PARTIES, RUNS = 1_000_000, 16, 3


def loads() -> Iterator[tuple[str, str, bool]]:
    """What is shown; a line of the session; whether parties may take turns without a look."""
    yield "set /a 1, which touches nothing", "set /a 1", False
    yield "get /s", "get /s", True
    yield "final /a", "final /a", True
    yield "a line that is no command", "go", True


def main(argv: list[str]) -> int:
    """Times each load."""
    words = words_of(__doc__)
    add_program(words)
    program = words.parse_args(argv).program
    with tempfile.TemporaryDirectory(prefix="bench.") as name:
        folder = Path(name)
        shutil.copy(EXAMPLES / "three.json", folder / "d")

        def took(word: str, script: str) -> float:
            (folder / "script").write_text(script, encoding="utf-8")
            return least([program, word, "d"], folder, folder / "script", RUNS).user

        started = took("run", "")
        print("microseconds of user time a line: run, desk by one party, desk by sixteen in turn")
        for what, line, in_turn in loads():
            scripts = [("run", f"{line}\n" * LINES), ("desk", f"@1 {line}\n" * LINES)]
            if in_turn:
                scripts.append(("desk", "".join(f"@{party} {line}\n" for party in range(1, PARTIES + 1)) * (LINES // PARTIES)))
            print(f"{what}: {', '.join(f'{(took(*script) - started) * 1e6 / LINES:.2f}' for script in scripts)}", flush=True)
    return 0


if __name__ == "__main__":
    sys.exit(main(sys.argv[1:]))
