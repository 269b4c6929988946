#!/usr/bin/env python3
"""Counts the instructions of one line of each kind, and of one slot with one node of each kind, by valgrind's callgrind.

    bench/instructions.py [--program PATH] [--lines N] [--slots N]

A line's count is that of a script with N of them less that of the script without them, so neither the start nor the reading of the
dictionary is in it. The lines are those of a session over examples/three.json, and of one party at a desk over it. A slot's count is what a
change of one answer takes for each of N facts with that node over the answer. Counts are the same in each run of a program. Nothing is
judged.
"""
import re
import subprocess
import sys
import tempfile
from collections.abc import Iterable
from dataclasses import dataclass
from pathlib import Path
from typing import NamedTuple

from timing import EXAMPLES, add_program, give_up, tool, words_of, write_dictionary

COUNTED = re.compile(r"Collected : (\d+)")
CHANGES = 40

# What comes before the lines that are counted, and these, in turn.
LINES = {
    "set of two values, two slots touched": (["set /b 2.25"], ["set /a 1.50", "set /a 2.50"]),
    "set of the value that stands": (["set /a 1.50"], ["set /a 1.50"]),
    "get": (["set /a 1.50", "set /b 2.25"], ["get /s"]),
    "final": (["set /a 1.50", "set /b 2.25"], ["final /s"]),
    "set and undo of it, by turns": (["set /b 2.25"], ["set /a 1.50", "undo"]),
}

ROWS = [[str(10 * row), str(row)] for row in range(1, 1001)]
READ: list[object] = ["Dependency", "/a"]


class Slot(NamedTuple):
    """Facts with a node over an answer: the answer's type, that of the facts, the node, and two answers in turn."""

    answer: str
    fact: str
    node: list[object]
    answers: tuple[str, str]


DAYS = ("2019-03-05", "2021-04-06")
SLOTS = {
    "Dependency alone": Slot("Int", "Int", READ, ("3", "7")),
    "GreaterThan": Slot("Int", "Boolean", ["GreaterThan", READ, ["Int", "5"]], ("3", "7")),
    "Lookup in 1,000 rows": Slot("Int", "Dollar", ["Lookup", "t", READ], ("3333", "7777")),
    "MonthOf": Slot("Day", "Int", ["MonthOf", READ], DAYS),
    "DayOf": Slot("Day", "Int", ["DayOf", READ], DAYS),
    "AddMonths": Slot("Day", "Day", ["AddMonths", READ, ["Int", "5"]], DAYS),
    "AddYears": Slot("Day", "Day", ["AddYears", READ, ["Int", "5"]], DAYS),
    "DaysBetween": Slot("Day", "Int", ["DaysBetween", READ, ["Day", "2020-01-01"]], DAYS),
    "AgeOn": Slot("Day", "Int", ["AgeOn", READ, ["Day", "2022-01-01"]], DAYS),
    "RoundUp": Slot("Dollar", "Dollar", ["RoundUp", READ, ["Dollar", "1"]], ("3.20", "7.10")),
    "RoundDown": Slot("Dollar", "Dollar", ["RoundDown", READ, ["Dollar", "1"]], ("3.20", "7.10")),
    "RoundNearest": Slot("Dollar", "Dollar", ["RoundNearest", READ, ["Dollar", "1"]], ("3.20", "7.10")),
}


@dataclass(frozen=True)
class Counter:
    """A program under callgrind, and the folder that it runs in."""

    valgrind: str
    program: Path
    folder: Path

    def of_run(self, words: Iterable[str], lines: Iterable[str]) -> int:
        """The instructions of a run over these lines."""
        command: list[str | Path] = [self.valgrind, "--tool=callgrind", "--callgrind-out-file=/dev/null", self.program, *words]
        ran = subprocess.run(command, input="".join(f"{line}\n" for line in lines), capture_output=True, text=True, cwd=self.folder, check=False)
        counted = COUNTED.search(ran.stderr)
        if ran.returncode or counted is None:
            give_up(f"{' '.join(words)}: status {ran.returncode}")
        return int(counted[1])

    def of_line(self, words: list[str], before: list[str], lines: list[str], count: int) -> float:
        """The instructions of one of the lines."""
        repeated = (lines * (count // len(lines) + 1))[:count]
        return (self.of_run(words, before + repeated) - self.of_run(words, before)) / count

    def of_slot(self, slot: Slot, count: int) -> float:
        """The instructions of one slot, when an answer changes that so many read."""
        facts: list[dict[str, object]] = [{"path": "/a", "writable": slot.answer}]
        facts += [{"path": f"/f{at}", "derived": slot.fact, "is": slot.node} for at in range(count)]
        write_dictionary(self.folder / "slots.json", facts, [{"name": "t", "from": "Int", "to": "Dollar", "rows": ROWS, "else": "0"}])
        changes = [f"set /a {slot.answers[at % 2]}" for at in range(CHANGES)]
        return self.of_line(["run", "slots.json"], changes[:2], changes, CHANGES) / count


def marked(lines: list[str]) -> list[str]:
    """The lines as the first party of a desk says them."""
    return [f"@1 {line}" for line in lines]


def main(argv: list[str]) -> int:
    """Counts all."""
    words = words_of(__doc__)
    add_program(words)
    words.add_argument("--lines", type=int, default=20_000, metavar="N")
    words.add_argument("--slots", type=int, default=400, metavar="N")
    given, valgrind = words.parse_args(argv), tool("valgrind")
    with tempfile.TemporaryDirectory(prefix="bench.") as name:
        counter = Counter(valgrind, given.program, Path(name))
        print(f"{'instructions of a line':<44}{'session':>10}{'desk':>10}")
        for title, (before, lines) in LINES.items():
            three = str(EXAMPLES / "three.json")
            alone = counter.of_line(["run", three], before, lines, given.lines)
            desk = counter.of_line(["desk", three], marked(before), marked(lines), given.lines)
            print(f"{title:<44}{alone:>10,.0f}{desk:>10,.0f}", flush=True)
        print(f"\n{'instructions of a slot of one node':<44}")
        for title, slot in SLOTS.items():
            print(f"{title:<44}{counter.of_slot(slot, given.slots):>10,.0f}", flush=True)
    return 0


if __name__ == "__main__":
    sys.exit(main(sys.argv[1:]))
