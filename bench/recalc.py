#!/usr/bin/env python3
"""Times changes over the incremental engine, by `interview run` over dictionaries that it makes.

    bench/recalc.py [--program PATH]

Every derived fact adds 20 things up. The large case has 1,900 such facts for each of 100 members: 190,002 slots stand, and 100,000
sets of a fact that nothing reads touch one slot each. Then a set that touches two slots is timed where 3, 203 and 190,003 stand, and
sets that touch 201 and 190,001 where 190,002 stand. A time is the least user time of three runs, and of a change that of the run
without changes is taken off. The exit status is 1 where the large case takes more than a second or 64 MB.
"""
import sys
import tempfile
from collections.abc import Iterator
from pathlib import Path
from typing import NamedTuple

from timing import Run, add_program, add_up, least, words_of, write_dictionary

MEMBERS, SETS, RUNS = 100, 100_000, 3
MOST_SECONDS, MOST_KIB = 1, 64 * 1024


class Case(NamedTuple):
    """How many facts the members have, how many of them read /y, how many facts of their own read it, and how many sets are made."""

    facts: int
    reading: int
    beside: int
    sets: int

    def dictionary(self) -> Iterator[dict[str, object]]:
        """Its facts."""
        yield {"path": "/y", "writable": "Int"}
        yield {"path": "/c", "writable": "Collection"}
        for k in range(1, self.facts + 1):
            yield {"path": f"/c/*/m{k}", "derived": "Int", "is": add_up(["Dependency", "/y"] if k <= self.reading else ["Int", "1"], 19)}
        for k in range(1, self.beside + 1):
            yield {"path": f"/g{k}", "derived": "Int", "is": add_up(["Dependency", "/y"], 19)}

    def run(self, program: Path, folder: Path, sets: int) -> Run:
        """The least run with so many sets of /y; its last reply says how many slots the last change touched."""
        write_dictionary(folder / "d", self.dictionary())
        script = "add /c\n" * MEMBERS + "".join(f"set /y {1 + k % 2}\n" for k in range(sets)) + "touched\n"
        (folder / "script").write_text(script, encoding="utf-8")
        return least([program, "run", "d"], folder, folder / "script", RUNS)


def main(argv: list[str]) -> int:
    """Times each case."""
    words = words_of(__doc__)
    add_program(words)
    program = words.parse_args(argv).program
    with tempfile.TemporaryDirectory(prefix="bench.") as name:
        folder = Path(name)
        large = Case(1_900, 0, 0, SETS).run(program, folder, SETS)
        print(f"{SETS} sets among 190,002 slots, start included: {large.user:.2f} s, {large.peak / 1024:.0f} MiB", flush=True)
        for case in (Case(0, 0, 1, SETS), Case(2, 0, 1, SETS), Case(1_900, 0, 1, SETS), Case(1_900, 2, 0, 2_000), Case(1_900, 1_900, 0, 10)):
            start, run = case.run(program, folder, 0), case.run(program, folder, case.sets)
            slots, touched = 2 + MEMBERS * case.facts + case.beside, run.text.decode().splitlines()[-1]
            print(f"a set where {slots} slots stand, {touched}: {(run.user - start.user) / case.sets * 1e6:.1f} microseconds", flush=True)
    return 0 if large.user <= MOST_SECONDS and large.peak <= MOST_KIB else 1


if __name__ == "__main__":
    sys.exit(main(sys.argv[1:]))
