"""Programs in Rattle that a benchmark builds over the crates, and times."""
import shutil
import subprocess
import tempfile
from collections.abc import Iterator, Mapping
from contextlib import contextmanager
from pathlib import Path
from typing import NamedTuple

from timing import TOP, Crate, crates, give_up, least, timed, tool

# What a program stands on, and what the last check of it kept: with that a crate isn't proved anew.
PARTS = ("src", "specs", "proofs", "out")


def with_those_below(names: list[str]) -> list[Crate]:
    """The crates of the repository below these, and these, each behind those that it stands on."""
    wanted = set(names)
    for crate in reversed(crates()):
        if crate.name in wanted:
            wanted |= set(crate.below)
    return [it for it in crates() if it.name in wanted]


class Built(NamedTuple):
    """A program that was built, in a folder that is deleted at the end."""

    program: Path
    folder: Path

    def show(self, what: str, *words: str) -> None:
        """Prints the least user time of the program's runs with these words."""
        print(f"{what:<50} {least([self.program, *words], self.folder).user:.3f} s", flush=True)

    def show_peak(self, what: str, *words: str) -> None:
        """Prints the memory of a run at its peak."""
        print(f"{what:<50} {timed([self.program, *words], self.folder).peak:,} KiB", flush=True)


@contextmanager
def built(name: str, over: str, source: str, proofs: Mapping[str, str] | None = None) -> Iterator[Built]:
    """Proves and builds a program over these crates and all that they stand on. The proofs are those of invariants, by the
    function. It takes some minutes, fewer where the last checks of these crates are kept on this machine."""
    rt = tool("rt")
    with tempfile.TemporaryDirectory(prefix="bench.") as path:
        top = Path(path)
        home = top / "crates" / name
        (home / "src").mkdir(parents=True)
        (home / "src/main.rt").write_text(source, encoding="utf-8")
        for function, text in (proofs or {}).items():
            (home / "proofs" / function).mkdir(parents=True)
            (home / "proofs" / function / "Invariants.antt").write_text(text, encoding="utf-8")
        those_below = with_those_below(over.split())
        for crate in those_below:
            for part in PARTS:
                if (crate.folder / part).is_dir():
                    shutil.copytree(crate.folder / part, top / "crates" / crate.name / part)
        (top / "crates.txt").write_text("\n".join([*(it.row for it in those_below), f"{name}: {over}", ""]), encoding="utf-8")
        shutil.copy(TOP / "HANDLES", top)
        # It is run once, whatever it answers to a word that it doesn't know.
        ran = subprocess.run([rt, "run", "--", "none"], cwd=home, capture_output=True, text=True, errors="replace", check=False)
        program = home / "out" / name
        if not program.is_file():
            give_up(f"rt builds no program:\n{ran.stdout}{ran.stderr}")
        yield Built(program, top)
