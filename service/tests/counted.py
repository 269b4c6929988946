"""What was counted in runs of faults: a file has a row for each run, so that many are made in pieces, and a table has their sums."""

from __future__ import annotations

from collections.abc import Iterable, Iterator
from pathlib import Path
from typing import NamedTuple


class Row(NamedTuple):
    """A run: its kind, store and seed, the day on which it was made, and what was counted."""

    kind: str
    store: str
    seed: int
    day: str
    visitors: int
    acknowledged: int
    repeated: int
    lost: int
    others: int
    wrong: int
    seconds: int

    @classmethod
    def of_line(cls, line: str) -> Row:
        """Of its line in a file."""
        kind, store, seed, day, *counts = line.split("\t")
        return cls(kind, store, int(seed), day, *map(int, counts))

    def is_well(self) -> bool:
        """Whether something was acknowledged, and nothing was lost, else or wrong."""
        return self.acknowledged > 0 and not self.lost + self.others + self.wrong


def rows_of(file: Path) -> list[Row]:
    """The rows of a file, below its head; none where there is no file yet."""
    return [Row.of_line(line) for line in file.read_text(encoding="ascii").splitlines()[1:]] if file.exists() else []


def add(file: Path, row: Row) -> None:
    """Writes a row behind those of a file."""
    head = "" if file.exists() else "\t".join(Row._fields) + "\n"
    with file.open("a", encoding="ascii") as kept:
        kept.write(head + "\t".join(map(str, row)) + "\n")


def sums(rows: Iterable[Row]) -> str:
    """The sums of some runs, in words.

    >>> sums([Row("kill", "sqlite", 1, "2024-02-29", 4, 38, 49, 0, 0, 0, 12)])
    '1 runs, 38 changes acknowledged, 49 requests repeated, 0 lost, 0 others, 0 wrong, 12 s'
    """
    runs = list(rows)
    counts = [sum(getattr(row, name) for row in runs) for name in ("acknowledged", "repeated", "lost", "others", "wrong", "seconds")]
    return "{} runs, {} changes acknowledged, {} requests repeated, {} lost, {} others, {} wrong, {} s".format(len(runs), *counts)


def table(rows: list[Row]) -> Iterator[str]:
    """The lines of a table of runs, one for each kind, store and number of visitors, in the order in which they first come."""
    yield "| Fault | Store | Visitors | Runs | Changes acknowledged | Requests repeated | Lost | Others | Wrong | Seconds a run | Made |"
    yield "|---|---|---|---|---|---|---|---|---|---|---|"
    for kind, store, visitors in dict.fromkeys((row.kind, row.store, row.visitors) for row in rows):
        runs = [row for row in rows if (row.kind, row.store, row.visitors) == (kind, store, visitors)]
        counts = [sum(getattr(row, name) for row in runs) for name in ("acknowledged", "repeated", "lost", "others", "wrong")]
        seconds = round(sum(row.seconds for row in runs) / len(runs))
        days = sorted({row.day for row in runs})
        cells = [f"`{kind}`", store, visitors, len(runs), *counts, seconds, days[0] if len(days) == 1 else f"{days[0]} to {days[-1]}"]
        yield f"| {' | '.join(map(str, cells))} |"
