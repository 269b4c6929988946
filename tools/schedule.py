"""In which order crates are built, with how many jobs each, and how long that takes: a plan alone, which starts nothing."""
import re
from collections.abc import Iterator, Mapping
from dataclasses import dataclass, field
from math import ceil
from typing import NamedTuple

# A check gains little from more.
MOST_JOBS = 4
# A crate's minutes of one processor for its proof, in docs/GATE.md.
PROOF = re.compile(r"^\| (\w+) \| ([\d.]+) \|", re.MULTILINE)
# What the least of them takes.
LEAST = 6.0


class Build(NamedTuple):
    """A crate that is to be built."""

    below: frozenset[str]  # what has to be built before it
    seconds: float  # what one processor is expected to take


class Started(NamedTuple):
    """A crate that is being built."""

    jobs: int
    at: float  # when it was started


def expected(lines: Mapping[str, int], gate: str) -> dict[str, float]:
    """The seconds that one processor takes for crates of so many lines: those of the page on the gate, and by their lines where it has none."""
    known = {name: max(60 * float(minutes), LEAST) for name, minutes in PROOF.findall(gate) if name in lines}
    a_line = sum(known.values()) / max(sum(lines[name] for name in known), 1) if known else 0.1
    return {name: known.get(name, max(a_line * count, LEAST)) for name, count in lines.items()}


def chains(builds: Mapping[str, Build]) -> dict[str, float]:
    """By name, the seconds of the longest chain of builds that begins with it."""
    longest = {name: it.seconds for name, it in builds.items()}
    for name in sorted(builds, key=lambda name: len(builds[name].below), reverse=True):
        for low in builds[name].below & builds.keys():
            longest[low] = max(longest[low], builds[low].seconds + longest[name])
    return longest


@dataclass
class Plan:
    """Builds side by side, lowest first: which are done, which are at work, and which may start."""

    builds: Mapping[str, Build]
    lanes: int
    done: set[str] = field(default_factory=set)
    failed: set[str] = field(default_factory=set)
    running: dict[str, Started] = field(default_factory=dict)
    measured: list[tuple[float, float]] = field(default_factory=list)  # what each took that ended, and what it was due to take

    def __post_init__(self) -> None:
        self.kept = frozenset(self.done)
        self._chains = chains(self.builds)

    def not_built(self) -> list[str]:
        """Those that aren't built, lowest first."""
        return sorted(self.builds.keys() - self.done, key=lambda name: len(self.builds[name].below))

    def ready(self) -> list[str]:
        """Those that may start, that with the longest chain above it first."""
        left = self.builds.keys() - self.done - self.failed - self.running.keys()
        return sorted((name for name in left if self.builds[name].below <= self.done), key=lambda name: (-self._chains[name], name))

    def start(self, now: float) -> Iterator[tuple[str, int]]:
        """Starts those that there are processors for. Where fewer wait, the first get more of them."""
        ready = self.ready()
        idle = self.lanes - sum(it.jobs for it in self.running.values())
        for at, name in enumerate(ready[: max(idle, 0)]):
            jobs = min(ceil(idle / (len(ready) - at)), MOST_JOBS)
            idle -= jobs
            self.running[name] = Started(jobs, now)
            yield name, jobs

    def end(self, name: str, now: float, is_built: bool) -> float:
        """Notes that a build has ended. Returns the seconds that it took."""
        started = self.running.pop(name)
        (self.done if is_built else self.failed).add(name)
        if is_built:
            self.measured.append((now - started.at, self._due(name, started.jobs)))
        return now - started.at

    def _due(self, name: str, jobs: int) -> float:
        """The seconds of a build: half of a check is shared among its jobs."""
        return self.builds[name].seconds * (1 + 1 / jobs) / 2

    def part(self) -> float:
        """Which part of the work of this run is done."""
        work = sum(it.seconds for name, it in self.builds.items() if name not in self.kept)
        return sum(self.builds[name].seconds for name in self.done - self.kept) / work if work else 1.0

    def seconds_left(self, now: float) -> float:
        """How long the rest will take, by what is expected and how much longer this run took for what has ended."""
        pace = sum(taken for taken, _ in self.measured) / sum(due for _, due in self.measured) if self.measured else 1.0
        rest = Plan(self.builds, self.lanes, set(self.done), set(self.failed), dict(self.running))
        ends: dict[str, float] = {}
        for name, started in rest.running.items():
            due = pace * self._due(name, started.jobs)
            ends[name] = now + max(due - (now - started.at), due / 10)
        clock = now
        while True:
            ends |= {name: clock + pace * self._due(name, jobs) for name, jobs in rest.start(clock)}
            if not ends:
                return clock - now
            name = min(ends, key=ends.__getitem__)
            clock = ends.pop(name)
            rest.end(name, clock, True)
