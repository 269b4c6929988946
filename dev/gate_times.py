#!/usr/bin/env python3
"""Runs the gate and writes how long it took, by crate and by phase.

    dev/gate_times.py PAGE [--anew]    runs `rt ci` at the top of the repository and writes the times into the page, as Markdown

The times stand between two marks of the page. With --anew all is proved, and they are those of this run alone, with the minutes that
it took. Else what an earlier run kept takes no time, so the page keeps for each crate and phase what stood there, where this run took
less. Each half second every running `rattle` of the gate is looked at, and its processor time is counted for the crate that it names
and for the phase that its command and folder show, so a row may miss the last half second of a check.

Other pages have minutes of docs/GATE.md: run dev/check_pages.py --write after this. The exit status is that of the gate, and 2 where
the page has no marks.
"""
import argparse
import collections
import os
import re
import subprocess
import sys
import time
from collections.abc import Callable
from pathlib import Path
from typing import NamedTuple

from crates import TOP, crates

PHASES = ("proof", "tests", "edits")
TICKS = os.sysconf("SC_CLK_TCK")
MARKED = re.compile(r"(<!-- written by dev/gate_times\.py -->\n).*?(<!-- end -->)", re.DOTALL)


class Check(NamedTuple):
    """What a check works at."""

    crate: str | None
    phase: str
    is_seed: bool  # a proof of the crate that its wrong bodies are checked over


# The processor seconds of each check, by its process and when it began.
Seen = dict[tuple[int, str], tuple[Check, float]]


def read(path: str | Path) -> str:
    """The text of a file, whatever bytes it has."""
    return Path(path).read_text(encoding="utf-8", errors="replace")


def stat_of(process: int) -> tuple[str, int, float, str]:
    """The name of a process, the one that started it, its processor seconds with those of its ended children, and when it began."""
    text = read(f"/proc/{process}/stat")
    name, fields = text[text.index("(") + 1 : text.rindex(")")], text[text.rindex(")") + 2 :].split()
    return name, int(fields[1]), sum(map(int, fields[11:15])) / TICKS, fields[19]


def check_of(process: int) -> Check:
    """What a check's command and folder show."""
    words, folder = read(f"/proc/{process}/cmdline").split("\0"), os.readlink(f"/proc/{process}/cwd")
    crate = words[words.index("--crate-name") + 1] if "--crate-name" in words else None
    phase = "edits" if "/rt-edit-" in folder else "tests" if "--test" in words else "proof"
    return Check(crate, phase, phase == "edits" and any(it.endswith("/seed") for it in words))


def below(root: int, parents: dict[int, int]) -> Callable[[int], bool]:
    """Whether a process was started below the gate."""

    def is_below(process: int) -> bool:
        while process and process != root:
            process = parents.get(process, 0)
        return process == root

    return is_below


def look(root: int, seen: Seen) -> None:
    """Counts what the checks that run now have taken so far."""
    parents, checks = {}, []
    for process in map(int, filter(str.isdigit, os.listdir("/proc"))):
        try:
            name, parent, seconds, began = stat_of(process)
        except (OSError, ValueError):
            continue
        parents[process] = parent
        if name == "rattle":
            checks.append((process, seconds, began))
    is_below, running = below(root, parents), {process for process, _, _ in checks}
    for process, seconds, began in checks:
        # (a check's own copies are counted in it, once they have ended)
        if not is_below(process) or parents[process] in running:
            continue
        key = process, began
        try:
            seen[key] = seen[key][0] if key in seen else check_of(process), seconds
        except (OSError, ValueError):
            continue


def cells(took: dict[tuple[str, str], float], tries: dict[str, int], name: str, kept: dict[str, list[str]]) -> list[str]:
    """The cells of a crate's row: minutes by phase, and with those of its wrong bodies how many checks they are."""
    anew = [f"{took[name, phase] / 60:.1f}" for phase in PHASES]
    if tries[name]:
        anew[2] += f" ({tries[name]})"
    return [max(pair, key=number) for pair in zip(anew, kept.get(name, anew))]


def rows_of(text: str) -> dict[str, list[str]]:
    """The rows that a page has, by crate."""
    found = re.findall(r"^\| (\w+) \| (.*?) \| (.*?) \| (.*?) \| .*? \|$", text, re.MULTILINE)
    return {name: minutes for name, *minutes in found if name not in ("Crate", "all")}


def number(cell: str) -> float:
    """The minutes of a cell."""
    return float(cell.split(" ", maxsplit=1)[0])


def longest_chain(proofs: dict[str, float]) -> tuple[float, list[str]]:
    """The crates, each of which stands on the one before, whose proofs take the most minutes together: no run is shorter."""
    found: dict[str, tuple[float, list[str]]] = {}
    for crate in crates():
        if not crate.is_of_tests:
            minutes, names = max((found[low] for low in crate.below), default=(0.0, []))
            found[crate.name] = minutes + proofs.get(crate.name, 0.0), [*names, crate.name]
    return max(found.values())


def times(seen: Seen, kept: dict[str, list[str]], minutes: float | None) -> str:
    """The times: the rows that stood there, and in their places what this run took. Of a run from nothing they have the minutes."""
    took: dict[tuple[str, str], float] = collections.defaultdict(float)
    tries: dict[str, int] = collections.defaultdict(int)
    for check, seconds in seen.values():
        if check.crate:
            took[check.crate, check.phase] += seconds
            tries[check.crate] += check.phase == "edits" and not check.is_seed
    names = [it.name for it in crates()]
    rows = {name: cells(took, tries, name, kept) for name in names if name in kept or any(took[name, phase] for phase in PHASES)}
    sums = [sum(number(row[i]) for row in rows.values()) for i in range(3)]
    chain, chained = longest_chain({name: number(row[0]) for name, row in rows.items()})
    kit = subprocess.run(["rt", "version"], capture_output=True, text=True, check=True).stdout.strip()
    return "\n".join([
        f"Written by `dev/gate_times.py`, from runs of `rt ci` with {kit}: each crate's proof, tests and wrong bodies from nothing.",
        f"All together it is {sum(sums):.0f} minutes of one processor, so at least {sum(sums) / 4:.0f} minutes on four."
        + (f" The run took {minutes:.0f} minutes on {os.cpu_count()}." if minutes else ""),
        f"The longest chain of proofs is {chain:.1f} minutes: {', '.join(chained)}.",
        "",
        "Minutes of processor time; in brackets how many checks of wrong bodies that is. A crate's tests are proved over a proof",
        "of the crate itself, and its wrong bodies over one more.",
        "",
        "| Crate | Proof | Tests | Wrong bodies | All |",
        "|---|---|---|---|---|",
        *(f"| {name} | {' | '.join(row)} | {sum(map(number, row)):.1f} |" for name, row in rows.items()),
        f"| all | {' | '.join(f'{it:.1f}' for it in sums)} | {sum(sums):.1f} |",
        "",
    ])


def main(argv: list[str]) -> int:
    """Runs the gate."""
    words = argparse.ArgumentParser(description=__doc__, formatter_class=argparse.RawDescriptionHelpFormatter)
    words.add_argument("page", type=Path, metavar="PAGE", help="docs/GATE.md")
    words.add_argument("--anew", action="store_true", help="proves all, as from nothing")
    given = words.parse_args(argv)
    if not MARKED.search(read(given.page)):
        words.error(f"{given.page} has no marks for the times")
    kept = {} if given.anew else rows_of(read(given.page))
    seen: Seen = {}
    began = time.monotonic()
    with subprocess.Popen(["rt", "ci", *(["--anew"] if given.anew else [])], cwd=TOP) as gate:
        while gate.poll() is None:
            look(gate.pid, seen)
            time.sleep(0.5)
    table = times(seen, kept, (time.monotonic() - began) / 60 if given.anew else None)
    given.page.write_text(MARKED.sub(lambda marked: marked[1] + table + marked[2], read(given.page)), encoding="utf-8")
    return gate.returncode


if __name__ == "__main__":
    sys.exit(main(sys.argv[1:]))
