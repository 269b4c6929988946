"""crates.txt, the one list of the crates, lowest first."""
from pathlib import Path
from typing import NamedTuple

TOP = Path(__file__).resolve().parent.parent


class Crate(NamedTuple):
    """A row of crates.txt."""

    name: str
    row: str
    below: list[str]  # the crates of the repository that it names
    kit: list[str]  # and those of the kit

    @property
    def folder(self) -> Path:
        """Where it stands."""
        return TOP / "crates" / self.name

    @property
    def is_of_tests(self) -> bool:
        """Whether it has nothing but tests of other crates."""
        return self.name.endswith("_tests")


def crates() -> list[Crate]:
    """The crates, each behind those that it stands on."""
    found: list[Crate] = []
    for row in (TOP / "crates.txt").read_text(encoding="utf-8").splitlines():
        if row and not row.startswith("#"):
            head, _, tail = row.partition(":")
            names, known = tail.split(), {it.name for it in found}
            found.append(Crate(head.split()[0], row, [it for it in names if it in known], [it for it in names if it not in known]))
    return found
