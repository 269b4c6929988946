#!/usr/bin/env python3
"""Times the program over long scripts and over a large dictionary, with both engines, beside three plain engines in Rust.

    bench/lines.py [--program PATH] [--earlier PATH]

The earlier one is the program of an earlier commit. Each case runs five times, and its least time is printed, the start of the
process and the reading of the dictionary counted: the processor time in user mode, and then the system's, of which nearly all is that
of the writes, one for each reply. The last column says how many times the user time of the plain engine that works all out anew the
program takes. The plain engines are baseline/main.rs and differences.rs beside it, which rustc builds into a temporary folder. Their
heads say where they do less than the program. Nothing is judged, but a note says where the engines print other replies.
"""
import shutil
import subprocess
import sys
import tempfile
from collections.abc import Iterable, Iterator
from pathlib import Path
from typing import NamedTuple

from timing import EXAMPLES, TOP, Run, a_program, add_program, least, timed, tool, words_of, write_dictionary

LINES = 1_000_000
PAIRS = 1_000

# As many bytes as a script may have, of lines without a reply, so that little but the cutting is timed. Each kind of
# line is given with its newline.
SCRIPT_BYTES = 67_108_864
SILENT_LINES = {"notes of 64 bytes": b"#" * 63 + b"\n", "notes of 4,096 bytes": b"#" * 4095 + b"\n", "empty lines": b"\n"}

# The large dictionary: floors of sums over a ground of writable facts, each sum over 20 facts of the floor below, and
# the first few over 21, so that there are as many nodes as a dictionary may have.
FACTS = 2_000
NODES = 40_000
OPERANDS = 20
FLOORS = 8
WIDTH = 238
GROUND = FACTS - FLOORS * WIDTH
LONGER = NODES - FLOORS * WIDTH * (OPERANDS + 1)


class Engine(NamedTuple):
    """A program, and its word for an engine."""

    name: str
    program: Path
    word: str

    def command(self, dictionary: str) -> list[str | Path]:
        """What is run over a dictionary."""
        return [self.program, self.word, dictionary]


def large_dictionary() -> Iterator[dict[str, object]]:
    """The large dictionary."""
    for place in range(GROUND):
        yield {"path": f"/f{place}", "writable": "Dollar"}
    below, first = range(GROUND), GROUND
    for _ in range(FLOORS):
        for at in range(WIDTH):
            count = OPERANDS + (1 if first + at - GROUND < LONGER else 0)
            # Each sum begins at another fact of the floor below.
            operands = [["Dependency", f"/f{below[(7 * at + 11 * i) % len(below)]}"] for i in range(count)]
            yield {"path": f"/f{first + at}", "derived": "Dollar", "is": ["Add", *operands]}
        below, first = range(first, first + WIDTH), first + WIDTH


def pairs() -> Iterator[str]:
    """Answers every ground fact, and then, before each get of the last fact, one of them anew."""
    for place in range(GROUND):
        yield f"set /f{place} 1.50\n"
    for pair in range(PAIRS):
        yield f"set /f{pair % GROUND} 1.{pair % 100:02}\nget /f{FACTS - 1}\n"


def write_files(folder: Path) -> None:
    """Writes the dictionaries and the scripts."""
    shutil.copy(EXAMPLES / "three.json", folder)
    write_dictionary(folder / "large.json", large_dictionary())
    scripts: dict[str, Iterable[str]] = {
        "same": ["set /a 1.50\n"] * LINES,
        "set": ["set /b 2.25\n", *["set /a 1.50\n", "set /a 2.50\n"] * (LINES // 2)],
        "get": ["set /a 1.50\nset /b 2.25\n", *["get /s\n"] * LINES],
        "none": [],
        "pairs": pairs(),
    }
    for name, lines in scripts.items():
        with open(folder / f"{name}.script", "w", encoding="utf-8") as out:
            out.writelines(lines)


class Table:
    """The times of the engines, case by case."""

    def __init__(self, engines: list[Engine], folder: Path) -> None:
        self.engines = engines
        self.folder = folder

    def show(self, title: str, texts: list[str]) -> None:
        """Prints a row."""
        print(f"{title:<54}" + "".join(f"{text:>26}" for text in texts), flush=True)

    def least(self, dictionary: str, script: str) -> list[Run]:
        """The least run of each engine, after one that says where their replies differ."""
        replies = [timed(it.command(dictionary), self.folder, self.folder / script).text for it in self.engines]
        if any(text != replies[0] for text in replies):
            print(f"The engines print other replies to {script}.")
        return [least(it.command(dictionary), self.folder, self.folder / script) for it in self.engines]

    def show_times(self, title: str, times: list[tuple[float, float]], unit: float = 1, name: str = "s") -> None:
        """Prints the user time and the system's of each engine, in so many of a unit, and the ratio of the first to the last."""
        ratio = f"{times[0][0] / times[-1][0]:.2f} times" if times[-1][0] else ""
        self.show(title, [*(f"{user * unit:.3f} + {system * unit:.3f} {name}" for user, system in times), ratio])

    def time(self, title: str, dictionary: str, script: str, unit: float = 1, name: str = "s") -> list[tuple[float, float]]:
        """Prints what each engine takes for a script, and returns it."""
        times = [(run.user, run.system) for run in self.least(dictionary, script)]
        if title:
            self.show_times(title, times, unit, name)
        return times


def a_pair(times: list[tuple[float, float]], read: list[tuple[float, float]]) -> list[tuple[float, float]]:
    """What a pair takes, without the reading."""
    return [(max(0, both[0] - alone[0]) / PAIRS, max(0, both[1] - alone[1]) / PAIRS) for both, alone in zip(times, read)]


def main(argv: list[str]) -> int:
    """Builds the plain engines and times all."""
    words = words_of(__doc__)
    add_program(words)
    words.add_argument("--earlier", type=a_program, metavar="PATH")
    given, rustc = words.parse_args(argv), tool("rustc")
    with tempfile.TemporaryDirectory(prefix="bench.") as name:
        folder = Path(name)
        plain = folder / "baseline"
        subprocess.run([rustc, "-O", "--edition", "2021", TOP / "bench/baseline/main.rs", "-o", plain], check=True)
        write_files(folder)
        engines = [Engine("run", given.program, "run"), Engine("run-plain", given.program, "run-plain")]
        engines += [Engine("run of the earlier one", given.earlier, "run")] if given.earlier else []
        beside = {"incremental in Rust": "run-incremental", "by differences in Rust": "run-differences", "plain Rust": "run"}
        engines += [Engine(what, plain, word) for what, word in beside.items()]
        table = Table(engines, folder)
        table.show("least user time of the runs, and the system's", [*(it.name for it in engines), "ratio"])
        table.time(f"{LINES:,} lines set /a 1.50", "three.json", "same.script")
        table.time(f"{LINES:,} lines set /a of two values in turn", "three.json", "set.script")
        table.time(f"{LINES:,} lines get /s", "three.json", "get.script")
        for kind, line in SILENT_LINES.items():
            (folder / "silent.script").write_bytes(line * (SCRIPT_BYTES // len(line)))
            table.time(f"{SCRIPT_BYTES:,} bytes of {kind}", "three.json", "silent.script")
        read = table.time(f"{FACTS:,} facts, {NODES:,} nodes, a script of no lines", "large.json", "none.script", 1e3, "ms")
        paired = table.time("", "large.json", "pairs.script")
        table.show_times("  a pair of set and get there, without the reading", a_pair(paired, read), 1e6, "us")
    return 0


if __name__ == "__main__":
    sys.exit(main(sys.argv[1:]))
