#!/usr/bin/env python3
"""Tries the wrong bodies of crates: the prover has to refuse each, for what its clause says.

    tests/try_wrong_bodies.py [CRATE..]      those of all crates where none is named

The crates below those have to be proved: `rt ci` leaves what is needed of them. As many wrong bodies of a crate as speak of different
functions are put in together, and these functions alone are checked: of another function each knows the contract and nothing else, so each is
judged by itself. A body is refused where a goal stays open in a function that it changes or that its clause names. Where a
proof only misses a step that the edit took away, that says nothing of the clause, and counts as a failure; so does an edit that can't be
applied or compiled.

The exit status is 0 where all were refused, 1 where one wasn't, and 2 where there is no such crate, no rt, or a library is wanting.
"""
import os
import re
import shutil
import subprocess
import sys
import tempfile
from collections.abc import Iterator
from concurrent.futures import ThreadPoolExecutor
from pathlib import Path
from typing import Any, NamedTuple

from harness import TOP, Tally, words_of
from wrong_body import BadEdit, Round, Texts, WrongBody, read, rounds

sys.path.insert(0, str(TOP / "tools"))

from kit import load_rt  # pylint: disable=wrong-import-position # found by the path above

FOLDER = "must-fail"
PARTS = ("src", "specs", "proofs")
# What a check of the largest crates takes of the memory, in bytes.
LARGEST = 7 << 30
# How a proof misses a step that the code has no more.
MISSING = re.compile(r"has no field|is not in scope|has no `|was not admitted")
# What the prover says of a goal that stays open, and of a proof that doesn't fit the code.
OPEN = re.compile(r"^note: (src/\S+?):(\d+):\d+: it is not proved that", re.MULTILINE)
UNFIT = re.compile(r"^\./(proofs/\S+?):\d+:\d+: error: (.*)", re.MULTILINE)
# What stands in a check that came to an end.
VERDICT = re.compile(r"^(only=\d+ proved=\d+|logic=(not-)?proved)", re.MULTILINE)


class Unproved(NamedTuple):
    """What a check leaves unproved."""

    goals: set[str]  # the folders of the proofs of functions with an open goal
    unfit: set[str]  # the files of proofs that don't fit the code
    missing: set[str]  # those that miss a step


def lanes() -> int:
    """How many crates are tried side by side."""
    return max(1, min(os.cpu_count() or 1, os.sysconf("SC_PAGE_SIZE") * os.sysconf("SC_PHYS_PAGES") // LARGEST))


def check(rt: Any, crate: Any, tried: Round, kept: str) -> str:
    """What a check says of the functions of a round's bodies; of all functions where a body may break any."""
    names = sorted({it.name for body in tried.bodies for it in body.functions}) if all(it.functions for it in tried.bodies) else []
    with tempfile.TemporaryDirectory(prefix="wrong-bodies-") as room:
        for part in PARTS:
            if Path(crate.folder, part).is_dir():
                shutil.copytree(Path(crate.folder, part), Path(room, part))
        for file, text in tried.texts.items():
            Path(room, file).write_text(text, encoding="utf-8")
        words = [rt.RATTLE, "check", *crate.words(["--jobs", "1"], keeps=False), "--incremental", kept, *(f"--only={name}" for name in names)]
        ran = subprocess.run(words, cwd=room, stdin=subprocess.DEVNULL, capture_output=True, text=True, errors="replace", check=False)
    return ran.stdout + ran.stderr


def proofs_at(texts: Texts, file: str, line: int) -> set[str]:
    """The folder of the proof of the function that a line is in."""
    return {it.proof for it in texts.at(file, len("".join(texts[file].splitlines(keepends=True)[: line - 1])))}


def unproved(said: str, texts: Texts) -> Unproved:
    """What a check leaves unproved, by what it says."""
    goals = {it for file, line in OPEN.findall(said) for it in proofs_at(texts, file, int(line))}
    errors = UNFIT.findall(said)
    return Unproved(goals, {it for it, why in errors if not MISSING.search(why)}, {it for it, why in errors if MISSING.search(why)})


def wrong_with(body: WrongBody, left: Unproved) -> str:
    """What is wrong with how a body was judged. One that names no function may be refused in any proof of the crate."""
    goals, unfit, missing = ({it for it in part if not body.functions or any(f"{it}/".startswith(f"{proof}/") for proof in body.proofs)} for part in left)
    if unfit or goals and not missing:
        return ""
    return f"refused only because {min(missing)} misses a step" if missing else "not refused"


def judged(rt: Any, crate: Any, tried: Round, kept: str) -> Iterator[tuple[str, str]]:
    """The bodies of a round, and what is wrong with how each was judged. Where they don't compile, each is tried by itself."""
    said = check(rt, crate, tried, kept)
    if VERDICT.search(said):
        left = unproved(said, tried.texts)
        yield from ((it.name, wrong_with(it, left)) for it in tried.bodies)
    elif len(tried.bodies) == 1:
        yield tried.bodies[0].name, "\n".join(["no verdict", *[line for line in said.splitlines() if "error" in line][:3]])
    else:
        for body in tried.bodies:
            alone = Round(tried.texts.crate)
            alone.take(body)
            yield from judged(rt, crate, alone, kept)


def tried_of(rt: Any, crate: Any) -> list[tuple[str, str]]:
    """The wrong bodies of a crate, and what is wrong with how each was judged."""
    bodies, found = [], []
    for path in sorted(Path(crate.folder, FOLDER).glob("*.edit")):
        try:
            bodies.append(read(path))
        except BadEdit as why:
            found.append((path.stem, str(why)))
    with tempfile.TemporaryDirectory(prefix="wrong-bodies-kept-") as kept:
        for tried in rounds(Path(crate.folder), bodies):
            found += judged(rt, crate, tried, kept)
    return found


def main(argv: list[str]) -> int:
    """Tries the wrong bodies of the crates that are named, several crates at a time."""
    words = words_of(__doc__)
    rt = load_rt()
    rt.guarded()
    known = {it.name: it for it in rt.crates_below(str(TOP)) if Path(it.folder, FOLDER).is_dir()}
    words.add_argument("crates", nargs="*", choices=[*known, []], metavar="CRATE")
    chosen = [known[name] for name in words.parse_args(argv).crates or known]
    wanting = sorted({low.name for crate in chosen for low in crate.below() if not os.path.isdir(low.rlib)})
    if wanting:
        words.error(f"not proved yet: {' '.join(wanting)}")
    tally = Tally()
    with ThreadPoolExecutor(lanes()) as pool:
        for crate, found in zip(chosen, pool.map(lambda it: tried_of(rt, it), chosen)):
            for name, wrong in found:
                tally.judge(f"{crate.name}/{name}", wrong)
    return tally.end()


if __name__ == "__main__":
    sys.exit(main(sys.argv[1:]))
