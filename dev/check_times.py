#!/usr/bin/env python3
"""Says which functions a check spent its time on.

    dev/check_times.py CRATE..    after `rt check --jobs 1` of each from nothing (delete its out/ first)

A check writes each module of a proof as it ends, one after another; the seconds between two of these files are counted for the
function, lemma file or definition of the later one. What was kept from before isn't written and isn't counted. Nothing is judged: the
exit status is 0, and 2 where a name is no crate's.
"""
import argparse
import collections
import re
import sys
from itertools import pairwise
from pathlib import Path

from crates import crates

PARTS = r"\.(Lts|Proof|Met|Statement|Code|Answers|Invariants|Goals|Given|Kinds|Key)$"


def written(folder: Path) -> list[tuple[float, str]]:
    """When each module of the crate in a folder was written, and its name."""
    files = (folder / "out" / "incremental").rglob("*")
    return sorted((path.stat().st_mtime, path.name) for path in files if path.is_file())


def owner(crate: str, name: str) -> str:
    """The function, or the file of specs/ or proofs/, that a module is part of."""
    found = re.match(rf"Rattle-{crate}-(specs|proofs)\.(.*?)(\.decls)?\.oantt$", name)
    return f"{found[1]}: {re.sub(PARTS, '', found[2])}" if found else "the crate as a whole"


def main(argv: list[str]) -> int:
    """Prints the twenty longest of each crate."""
    words = argparse.ArgumentParser(description=__doc__, formatter_class=argparse.RawDescriptionHelpFormatter)
    folders = {it.name: it.folder for it in crates()}
    words.add_argument("crates", nargs="+", choices=folders, metavar="CRATE")
    for crate in words.parse_args(argv).crates:
        took: dict[str, float] = collections.defaultdict(float)
        for (before, _), (after, name) in pairwise(written(folders[crate])):
            took[owner(crate, name)] += after - before
        print(f"{crate}: {sum(took.values()):.0f} seconds")
        for name, seconds in sorted(took.items(), key=lambda it: -it[1])[:20]:
            print(f"{seconds:8.1f}  {name}")
    return 0


if __name__ == "__main__":
    sys.exit(main(sys.argv[1:]))
