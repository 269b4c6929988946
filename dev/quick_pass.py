#!/usr/bin/env python3
"""Reads crates with the sources of all crates below them, and says what is wrong before any proof. Nothing has to be built.

    dev/quick_pass.py [CRATE..]      interview and fact_graph_c, which stand on nearly all others, where none is named

It takes some ten seconds for a name that isn't there, an import that is private, or a type that doesn't fit; behind these the
check goes on through all definitions of the crate, which takes a minute and more and finds what is wrong with them. It also says
which folder of proofs names no function, since no check reads such a folder until the crate itself is proved.

The exit status is 0 where nothing is wrong, and else 1.
"""
import argparse
import re
import subprocess
import sys
from collections.abc import Iterator
from pathlib import Path
from typing import Any

TOP = Path(__file__).resolve().parent.parent
sys.path.insert(0, str(TOP / "tools"))

from kit import load_rt  # pylint: disable=wrong-import-position # found by the path above

ANSWERS = {"Answers.antt", "Invariants.antt", "Proof.antt"}


def orphans(folder: Path) -> Iterator[str]:
    """The folders of proofs that name no function of the crate. Those of recursive functions begin with a plus, and one of a drop
    is the compiler's."""
    code = "\n".join(path.read_text(encoding="utf-8") for path in (folder / "src").glob("*.rt"))
    functions = set(re.findall(r"\bfn (\w+)", code))
    for place in sorted({path.parent for path in (folder / "proofs").rglob("*.antt") if path.name in ANSWERS}):
        if place.name not in functions and not place.name.startswith("+") and "drop" not in place.name:
            yield f"{place.relative_to(TOP)}: no such function"


def errors(rt: Any, crate: Any) -> Iterator[str]:
    """What the front end and the definitions of a crate are refused for."""
    words = crate.words(["--jobs", "1", "--only", ""], tests=crate.name.endswith("_tests"), as_source=True)
    ran = subprocess.run([rt.RATTLE, "check", *words], cwd=crate.folder, capture_output=True, text=True, errors="replace", check=False)
    found = [line for line in (ran.stdout + ran.stderr).splitlines() if re.search(r"\berror\b[\[:]", line)]
    yield from found
    if ran.returncode and not found:
        yield f"{crate.name}: {(ran.stdout + ran.stderr).strip().splitlines()[-1:]}"


def main(argv: list[str]) -> int:
    """Reads the crates that are named."""
    words = argparse.ArgumentParser(description=__doc__, formatter_class=argparse.RawDescriptionHelpFormatter)
    words.add_argument("crates", nargs="*", metavar="CRATE", default=["interview", "fact_graph_c"])
    named = words.parse_args(argv).crates
    rt = load_rt()
    rt.guarded()
    wrong = [line for folder in sorted((TOP / "crates").iterdir()) if (folder / "src").is_dir() for line in orphans(folder)]
    for crate in rt.crates_below(str(TOP)):
        if crate.name in named:
            wrong += errors(rt, crate)
    print("\n".join([*wrong, f"quick_pass: {len(wrong)} wrong"]))
    return 1 if wrong else 0


if __name__ == "__main__":
    sys.exit(main(sys.argv[1:]))
