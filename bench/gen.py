#!/usr/bin/env python3
"""Times `interview gen` of 250, 500, 750 and 1,000 sums, as a table.

    bench/gen.py [--program PATH]

`gen N` makes a dictionary of N + 3 facts and a script over it, runs the script over the incremental engine and prints what was
replied by number; nothing is read or fetched. A time is the least user time of three runs. Nothing is judged.
"""
import sys

from timing import TOP, add_program, least, words_of

SUMS = (250, 500, 750, 1_000)
RUNS = 3


def main(argv: list[str]) -> int:
    """Times each number of sums."""
    words = words_of(__doc__)
    add_program(words)
    program = words.parse_args(argv).program
    print("| Sums | Lines | Time | Last reply |\n|---|---|---|---|")
    for count in SUMS:
        run = least([program, "gen", str(count)], TOP, runs=RUNS)
        _, size, _, last = run.text.decode().splitlines()
        print(f"| {count:,} | {int(size.split()[-1]):,} | {run.user:.2f} s | `{last.removeprefix('last ')}` |", flush=True)
    return 0


if __name__ == "__main__":
    sys.exit(main(sys.argv[1:]))
