"""Runs the commands of a plan of builds side by side, and says how far they are."""
import signal
import subprocess
import tempfile
import time
from collections.abc import Callable, Iterator
from contextlib import contextmanager
from pathlib import Path
from typing import IO, NamedTuple

from progress import Screen
from schedule import Plan

SHOWN = 12
PAUSE = 0.1


class Command(NamedTuple):
    """What builds a crate: its words, the folder, and the file on its standard input."""

    words: list[str]
    folder: Path
    source: Path = Path("/dev/null")


class Child(NamedTuple):
    """A command that runs, and what it said so far."""

    process: subprocess.Popen[bytes]
    said: IO[bytes]


@contextmanager
def _noted() -> Iterator[list[int]]:
    """The interrupts that came. They are noted and not raised, since one within a wait for a child would leave its lock held."""
    came: list[int] = []
    before = {number: signal.signal(number, lambda which, _: came.append(which)) for number in (signal.SIGINT, signal.SIGTERM)}
    try:
        yield came
    finally:
        for number, handler in before.items():
            signal.signal(number, handler)


def _ended(children: dict[str, Child]) -> None:
    """Ends the commands that run."""
    for child in children.values():
        child.process.terminate()
    for child in children.values():
        child.process.wait()
        child.said.close()


def _started(command: Command) -> Child:
    said = tempfile.TemporaryFile()  # pylint: disable=consider-using-with # closed where the child has ended
    with open(command.source, "rb") as source:
        return Child(subprocess.Popen(command.words, cwd=command.folder, stdin=source, stdout=said, stderr=subprocess.STDOUT), said)


def _last_lines(said: IO[bytes]) -> list[str]:
    said.seek(0)
    return [f"  {line}" for line in said.read().decode(errors="replace").splitlines()[-SHOWN:]]


def _told(plan: Plan, name: str, child: Child, screen: Screen) -> None:
    """Notes a build that has ended, and says so; of one that failed, also its last lines."""
    now, is_built = time.monotonic(), child.process.returncode == 0
    seconds = plan.end(name, now, is_built)
    if is_built:
        screen.ended(plan, f"{name}: proved in {seconds:.0f} s", now)
    else:
        screen.say("\n".join([f"{name}: not built, after {seconds:.0f} s:", *_last_lines(child.said)]))
    child.said.close()


def run_side_by_side(plan: Plan, command: Callable[[str, int], Command], screen: Screen) -> list[str]:
    """Runs a plan to its end: the command of each build, by its name and jobs. Where one fails, those that don't stand on it go on.
    Returns what wasn't built, lowest first. At an interrupt, which is raised then, and however else it is left, no command runs on."""
    children: dict[str, Child] = {}
    with _noted() as interrupts:
        try:
            while not interrupts:
                for name, jobs in plan.start(time.monotonic()):
                    children[name] = _started(command(name, jobs))
                if not children:
                    return plan.not_built()
                screen.draw(plan, time.monotonic())
                time.sleep(PAUSE)
                for name in [name for name, child in children.items() if child.process.poll() is not None]:
                    _told(plan, name, children.pop(name), screen)
        finally:
            screen.clear()
            _ended(children)
    raise KeyboardInterrupt
