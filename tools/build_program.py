#!/usr/bin/env python3
"""Proves and builds the program, with all crates that it stands on, on all processors, and runs an example.

    tools/build_program.py                          the program crates/interview/out/interview
    tools/build_program.py --libraries [CRATE..]    the libraries of these crates and of those below them alone; all where none is named

A crate is proved as soon as those below it are, the one with the longest chain of crates above it first, and it gets the processors that
no other waits for. It is said which crate is proved, how far all is, and how long the rest will take: by the minutes of docs/GATE.md, and
by what those took that ended in this run. On a terminal a bar shows it.

What stands already is kept, and `rt` finds it: where this is interrupted, nothing runs on, and the same command goes on from there. A
crate that isn't built is named with the last lines of its check; those that don't stand on it go on. The exit status is 0
where all is built and the example ran, 1 where a crate isn't proved, 2 where a name is no crate's or there is no rt, and 130 where it
was interrupted.
"""
import argparse
import os
import subprocess
import sys
import time
from collections.abc import Sequence
from functools import cache
from typing import Any

from kit import TOP, load_rt
from progress import Screen, in_words
from schedule import Build, Plan, expected
from side_by_side import Command, run_side_by_side

PROGRAM = TOP / "crates" / "interview"
EXAMPLES = TOP / "examples"
SCRIPT = EXAMPLES / "heating.script"
WORDS = ["run", os.path.relpath(EXAMPLES / "heating.json", PROGRAM)]
ONE = TOP / "tools" / "one_crate.py"


@cache
def known_crates() -> dict[str, Any]:
    """The crates of the repository as rt knows them, by name, lowest first."""
    return {it.name: it for it in load_rt().crates_below(str(TOP))}


def libraries(names: Sequence[str]) -> list[str]:
    """The libraries among these crates and those below them; all but those of tests, where none is named."""
    crates = known_crates()
    chosen = [crates[name] for name in names] or [it for it in crates.values() if not it.name.endswith("_tests")]
    below = {it.name for crate in chosen for it in [crate, *crate.below()]}
    return [name for name, it in crates.items() if name in below and it.makes_rlib()]


def stands(crate: Any) -> bool:
    """Whether a crate is built, as the texts are of it and of those below it; rt keeps the same stamp of the program."""
    if crate.makes_rlib():
        return bool(crate.is_built())
    rt, program = load_rt(), f"{crate.folder}/out/{crate.name}"
    return bool(rt.text_of(f"{program}.stamp") == crate.stamp() + rt.sum_of(program))


def plan_of(names: Sequence[str]) -> Plan:
    """The plan for these crates, on all processors that may be used."""
    crates = known_crates()
    due = expected({name: crates[name].count(rb"\n") for name in names}, (TOP / "docs" / "GATE.md").read_text(encoding="utf-8"))
    builds = {name: Build(frozenset(it.name for it in crates[name].below()), due[name]) for name in names}
    return Plan(builds, len(os.sched_getaffinity(0)), {name for name in names if stands(crates[name])})


def command(name: str, jobs: int) -> Command:
    """What builds a crate, and runs the program then over the example. It ends however this process ends."""
    words = [*load_rt().guarded(), sys.executable, str(ONE), str(jobs), name]
    return Command([*words, *WORDS], TOP, SCRIPT) if name == PROGRAM.name else Command(words, TOP)


def build(names: Sequence[str]) -> int:
    """Proves and builds crates, those that each stands on being among them. Returns the exit status."""
    plan, screen = plan_of(names), Screen(sys.stdout)
    left = in_words(plan.seconds_left(time.monotonic()))
    screen.say(f"{len(plan.builds)} crates, of which {len(plan.done)} are built: {left} on {plan.lanes} quiet processors")
    try:
        wanting = run_side_by_side(plan, command, screen)
    except KeyboardInterrupt:
        screen.say("interrupted: what is proved is kept, and the same command goes on from there")
        return 130
    if wanting:
        screen.say(f"not built: {' '.join(wanting)}")
    return 1 if wanting else 0


def show_example() -> int:
    """Runs the example, and shows the command that does."""
    program, dictionary, script = (path.relative_to(TOP) for path in (PROGRAM / "out" / PROGRAM.name, EXAMPLES / "heating.json", SCRIPT))
    print(f"$ {program} run {dictionary} < {script}", flush=True)
    with SCRIPT.open("rb") as source:
        return subprocess.run([program, "run", dictionary], cwd=TOP, stdin=source, check=False).returncode


def main(argv: list[str]) -> int:
    """Builds what the words ask for."""
    words = argparse.ArgumentParser(description=__doc__, formatter_class=argparse.RawDescriptionHelpFormatter)
    words.add_argument("--libraries", nargs="*", metavar="CRATE")
    named = words.parse_args(argv).libraries
    if named is None:
        return build([*libraries([PROGRAM.name]), PROGRAM.name]) or show_example()
    unknown = set(named) - known_crates().keys()
    if unknown:
        words.error(f"no crate {', '.join(sorted(unknown))}")
    return build(libraries(named))


if __name__ == "__main__":
    sys.exit(main(sys.argv[1:]))
