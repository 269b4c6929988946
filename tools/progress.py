"""What is said of builds that go on: a line for each that ended, and on a terminal a bar below these lines."""
import os
import shutil
from collections.abc import Iterable
from typing import TextIO

from schedule import Plan

WIDTH = 24


def meter(part: float) -> str:
    """A bar of which a part is done."""
    full = int(WIDTH * min(max(part, 0), 1))
    return f"[{'#' * full}{'-' * (WIDTH - full)}]"


def in_words(seconds: float) -> str:
    """How long something will take, to the minute."""
    minutes = round(seconds / 60)
    return f"about {minutes} minute{'s' * (minutes > 1)} left" if minutes else "less than a minute left"


def how_far(plan: Plan, now: float) -> str:
    """How far the builds are, and how long the rest will take."""
    return f"{len(plan.done)} of {len(plan.builds)} crates, {100 * plan.part():.0f}% of the work, {in_words(plan.seconds_left(now))}"


def drawn(plan: Plan, now: float, columns: int) -> str:
    """The bar, with what is being built, in one line of a terminal."""
    names: Iterable[str] = sorted(plan.running, key=lambda name: plan.running[name].at)
    return f"{meter(plan.part())} {how_far(plan, now)}: {', '.join(names)}"[: max(columns - 1, 0)]


class Screen:
    """Where it is said: lines go on, and the bar, where there is one, is drawn anew each second."""

    def __init__(self, stream: TextIO) -> None:
        self._stream = stream
        self._has_bar = stream.isatty() and os.environ.get("TERM") != "dumb"
        self._drawn_at = float("-inf")

    def _write(self, text: str) -> None:
        self._stream.write(f"\r\x1b[K{text}" if self._has_bar else text)
        self._stream.flush()

    def say(self, line: str) -> None:
        """Writes a line, in the bar's place."""
        self._write(f"{line}\n")
        self._drawn_at = float("-inf")

    def ended(self, plan: Plan, line: str, now: float) -> None:
        """Writes that a build ended; without a bar, also how far they are."""
        self.say(line if self._has_bar else f"{line}; {how_far(plan, now)}")

    def draw(self, plan: Plan, now: float) -> None:
        """Draws the bar, where there is one."""
        if self._has_bar and now - self._drawn_at >= 1:
            self._write(drawn(plan, now, shutil.get_terminal_size().columns))
            self._drawn_at = now

    def clear(self) -> None:
        """Takes the bar away."""
        self._write("")
