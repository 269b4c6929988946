#!/usr/bin/env python3
"""Holds docs/ARCHITECTURE.md to the tree: each file of definitions and of code is named in a row of its table of rules, and each
file that a row names is there, also those of its column of proofs, which are named without their suffix.

    dev/check_map.py

A row names a crate by the folder of its first definition or source, as `answers/specs/Change.antt`, and further files of the crate by
their names alone. Left out are the roots lib.rt, main.rt and Lib.antt, and the modules of the crates of tests; a file of tests that a
row names stands in one of these. It prints each file that no row names and each name that is no file, and the exit status is 1 where
there is one.
"""
import argparse
import re
import sys
from collections.abc import Iterator
from pathlib import Path

from crates import TOP, crates

ROOTS = {"lib.rt", "main.rt", "Lib.antt"}
PROOFS = 4  # the place of the column of proofs, in a row of seven parts
CRATES = TOP / "crates"
HOMES = {it.name for it in crates() if not it.is_of_tests}


def rows() -> Iterator[str]:
    """The rows of the tables of the page."""
    for line in (TOP / "docs" / "ARCHITECTURE.md").read_text(encoding="utf-8").split("\n"):
        if line.startswith("| "):
            yield line


def files(crate: str) -> Iterator[Path]:
    """The files of a crate that a row has to name."""
    for part, suffix in (("src", ".rt"), ("specs", ".antt")):
        yield from (path for path in sorted((CRATES / crate / part).glob(f"**/*{suffix}")) if path.name not in ROOTS)


class Row:
    """A row: the names in it, and the crates that it is about."""

    def __init__(self, text: str) -> None:
        self.text = text
        self.words = re.findall(r"`([A-Za-z0-9_/.]+)`", text)
        self.homes = {it.split("/")[0] for it in self.words if "/" in it} & HOMES

    def wrong(self, what: str, homes: set[str]) -> str:
        """Says that a row names what isn't there."""
        return f"no {what} in {', '.join(sorted(homes)) or 'any crate of its row'}: {self.text[:60]}.."

    def wrong_proofs(self) -> Iterator[str]:
        """The names in the column of proofs that are no files."""
        cells = self.text.split("|")
        for name in re.findall(r"`([A-Z][A-Za-z0-9]*)`", cells[PROOFS]) if len(cells) == 7 else []:
            if not any(any((CRATES / home).glob(f"proofs/**/{name}.antt")) for home in self.homes):
                yield self.wrong(f"proofs {name}", self.homes)

    def named(self) -> Iterator[tuple[str, set[str], set[str]]]:
        """Each file that it names, with the crates in which it is looked for, and those that have it."""
        for word in self.words:
            name = word.rsplit("/", maxsplit=1)[-1]
            if name.endswith((".rt", ".antt")) and not name.endswith("tests.rt"):
                within = {word.split("/")[0]} & HOMES if "/" in word else self.homes
                yield name, within, {home for home in within if any((CRATES / home).glob(f"*/**/{name}"))}

    def wrong_tests(self) -> Iterator[str]:
        """The files of tests that it names and no crate of tests has."""
        for word in self.words:
            if word.endswith("tests.rt") and not any(CRATES.glob(f"*_tests/src/{word}")):
                yield f"no tests {word} in any crate of tests: {self.text[:60]}.."


def main(argv: list[str]) -> int:
    """Checks each row, and then each crate."""
    argparse.ArgumentParser(description=__doc__, formatter_class=argparse.RawDescriptionHelpFormatter).parse_args(argv)
    named: dict[str, set[str]] = {it: set() for it in HOMES}
    wrong: list[str] = []
    for row in map(Row, rows()):
        wrong += [*row.wrong_proofs(), *row.wrong_tests()]
        for name, within, found in row.named():
            wrong += [] if found else [row.wrong(f"file {name}", within)]
            for home in found:
                named[home].add(name)
    for crate in sorted(HOMES):
        wrong += [f"no row names {path.relative_to(CRATES)}" for path in files(crate) if path.name not in named[crate]]
    print("\n".join([*wrong, f"check_map: {len(wrong)} wrong"]))
    return 1 if wrong else 0


if __name__ == "__main__":
    sys.exit(main(sys.argv[1:]))
