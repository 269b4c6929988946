#!/usr/bin/env python3
"""Times the start of `interview year 2023`, and changes of one income of the household in examples/years.

    bench/year.py [--program PATH] [--changes N]

The start is a run over a script without lines: the best and the mean wall time of 50 are printed. N is 100,000 where it isn't given;
a question stands behind each change, and then behind none. Of the changes the best of three runs is printed, the start and the
household's answers taken off. The start of the process is counted. The exit status is 1 where the best start takes longer than 10
milliseconds; else nothing is judged.
"""
import sys
import tempfile
import time
from pathlib import Path

from timing import EXAMPLES, add_program, timed, words_of

STARTS, CHANGED = 50, 3
MOST = 0.010


def seconds_of(program: Path, script: Path, runs: int) -> list[float]:
    """The wall times of so many runs over a script."""
    times = []
    for _ in range(runs):
        began = time.perf_counter()
        timed([program, "year", "2023"], script.parent, script)
        times.append(time.perf_counter() - began)
    return times


def main(argv: list[str]) -> int:
    """Times the starts and the changes."""
    words = words_of(__doc__)
    add_program(words)
    words.add_argument("--changes", type=int, default=100_000, metavar="N")
    given = words.parse_args(argv)
    household = (EXAMPLES / "years/2023.script").read_text(encoding="utf-8")
    with tempfile.TemporaryDirectory(prefix="bench.") as folder:
        script = Path(folder, "script")
        script.touch()
        starts = seconds_of(given.program, script, STARTS)
        print(f"start: best {min(starts) * 1e3:.1f} ms, mean {sum(starts) / len(starts) * 1e3:.1f} ms", flush=True)
        script.write_text(household, encoding="utf-8")
        base = min(seconds_of(given.program, script, CHANGED))
        for what, question in (("changes of an income", ""), ("the same, each with a question", "get /taxableIncome\n")):
            changes = "".join(f"set /earnedIncome {n}\n{question}" for n in range(1, given.changes + 1))
            script.write_text(household + changes, encoding="utf-8")
            spent = min(seconds_of(given.program, script, CHANGED)) - base
            print(f"{given.changes:,} {what}: {spent * 1e3:.0f} ms, {spent / given.changes * 1e6:.1f} microseconds each", flush=True)
    return 1 if min(starts) > MOST else 0


if __name__ == "__main__":
    sys.exit(main(sys.argv[1:]))
