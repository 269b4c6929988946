#!/usr/bin/env python3
"""Compares `interview check` with the plain reader of plain_check.rs, which was written apart, from the rules, over dictionaries
that are changed at random.

    tests/compare_readers.py [--program PATH] [--count N] [--seed S]

Nothing is built but the plain reader, by rustc. Each dictionary is one of the stored cases of tests/rows or of examples/, in which
one to three places are changed: a path, a type, an operator, a text or a key is another one, or a part is left out, doubled, moved
or taken from another dictionary. Both readers have to print the same line and end with the same status. N is 4,000 and S is 1 where
they aren't given; with the same seed the dictionaries are the same.

A line is printed for each dictionary that they read otherwise, with its bytes. The exit status is 0 where none failed, 1 where one
did, and 2 where there is no such program or no rustc.
"""
import collections
import copy
import json
import os
import random
import subprocess
import sys
import tempfile
from collections.abc import Iterator, Sequence
from concurrent.futures import ThreadPoolExecutor
from pathlib import Path
from typing import Any

from harness import EXAMPLES, TOP, Ended, Tally, add_program, run, tool, words_of
from stored_cases import Case, cases_of, files_of_cases

LARGE = 20_000
# A value of JSON.
Json = Any
Key = str | int

NAMES = """All Any Not Add Subtract Multiply Divide GreaterOf LesserOf Equal NotEqual GreaterThan LessThan GreaterThanOrEqual
LessThanOrEqual Round YearOf AddDays AddMonths AddYears DaysBetween AgeOn MonthOf DayOf RoundUp RoundDown RoundNearest Lookup Filter Find
Dependency IsComplete CollectionSize CollectionSum Count Switch Case True False
Int Dollar Rational Day Text Enum""".split()
TYPES = """Int Dollar Rational Day Text Boolean Collection Enum(color) Enum(x) Collection(/c) Item(/c) Collection(/l) Item(/p)
Nothing""".split()
TEXTS = """0 1 -1 007 1.50 1.5 2024-02-29 2023-02-29 1799-12-31 2199-12-31 1/2 2/4 1/0 red green digits trimmed 999999999999999
1000000000000000 9999999999999.99 law-1 2""".split() + ["", "a b", "x" * 1_001]
PATHS = "/nope ../nope nope /c/*/nope /c/nope ../c/nope // /a/* /1".split()
KEYS = "path writable derived is placeholder conditional limits description name options tables from to rows else other".split()
PARTS: list[Json] = [
    [], "Int", ["True"], ["Int", "1"], [["Dependency", "/a"], ["Int", "2"]], [["Min", "1"]], [["Check", "digits"]], [["1", "2"]],
    None, 1, True, {},
]


def written_cases() -> Iterator[Case]:
    """The stored cases that are written as text."""
    for path in files_of_cases():
        if path.suffix == ".row":
            yield from (case for case in cases_of(path) if isinstance(case, Case))


def stored() -> Iterator[dict[str, Json]]:
    """The dictionaries that are JSON objects, of the stored cases and of the examples."""
    texts = {case.dictionary for case in written_cases()} | {path.read_bytes() for path in EXAMPLES.glob("*.json")}
    for text in sorted(it for it in texts if it and len(it) <= LARGE):
        try:
            dictionary = json.loads(text)
        except ValueError:
            continue
        if isinstance(dictionary, dict):
            yield dictionary


def parts_of(value: Json, place: tuple[Key, ...] = ()) -> Iterator[tuple[tuple[Key, ...], Json]]:
    """Each part of a value, with the keys and numbers that lead to it."""
    yield place, value
    keys: Sequence[Key] = list(value) if isinstance(value, dict) else range(len(value)) if isinstance(value, list) else ()
    for key in keys:
        yield from parts_of(value[key], (*place, key))


def uses_of(dictionary: Json) -> Iterator[str]:
    """Paths that name the facts of a dictionary, in each form."""
    paths = [part for place, part in parts_of(dictionary) if place[-1:] == ("path",) and isinstance(part, str)]
    for path in paths:
        collection, _, name = path.partition("/*/")
        yield path
        if name:
            yield from (f"../{name}", name, f"{collection}/{name}")


class Changer:
    """Changes dictionaries, by a random choice at each step. `places` has those that were changed last."""

    def __init__(self, choice: random.Random) -> None:
        self.choice = choice
        self.places: list[tuple[Key, ...]] = []

    def text(self, key: Key, text: str, uses: list[str]) -> str:
        """Another text."""
        if key in ("writable", "derived", "from", "to"):
            return self.choice.choice(TYPES)
        if text in NAMES:
            return self.choice.choice(NAMES)
        return self.choice.choice(uses + PATHS if key == "path" or "/" in text or self.choice.random() < 0.4 else TEXTS)

    def array(self, array: list[Json], others: list[Json]) -> Json:
        """Another array, or this one changed."""
        at = self.choice.randrange(len(array)) if array else 0
        match self.choice.randrange(6):
            case 0:
                return array[:at] + array[at + 1 :]
            case 1:
                return array[:at] + copy.deepcopy(array[at : at + 1]) + array[at:]
            case 2:
                return ["Not", array]
            case 3:
                return self.choice.sample(array, len(array))
        return self.choice.choice([it for it in others if isinstance(it, list)] or [[]])

    def object(self, members: dict[str, Json], others: list[Json]) -> Json:
        """The same of an object."""
        match self.choice.randrange(4):
            case 0:
                dropped = self.choice.choice([*members, None])
                return {key: value for key, value in members.items() if key != dropped}
            case 1:
                return {**members, self.choice.choice(KEYS): self.choice.choice(PARTS)}
            case 2:
                return self.choice.choice(PARTS)
        return self.choice.choice([it for it in others if isinstance(it, dict)] or [{}])

    def changed(self, dictionary: Json, other: Json) -> Json:
        """The dictionary with one to three parts changed, some by parts of another one."""
        dictionary = copy.deepcopy(dictionary)
        self.places = []
        for _ in range(self.choice.choice([1, 1, 1, 2, 3])):
            places = [it for it in parts_of(dictionary) if it[0]]
            if not places:
                break
            place, part = self.choice.choice(places)
            self.places.append(place)
            others = [copy.deepcopy(part) for _, part in parts_of(other)]
            if isinstance(part, str):
                part = self.text(place[-1], part, [*uses_of(dictionary), *uses_of(other)])
            elif isinstance(part, list):
                part = self.array(part, others)
            elif isinstance(part, dict):
                part = self.object(part, others)
            else:
                part = self.choice.choice(PARTS)
            holder = dictionary
            for key in place[:-1]:
                holder = holder[key]
            holder[place[-1]] = copy.deepcopy(part)
        return dictionary


def compare(programs: tuple[Path, Path], folder: Path, number: int, text: str) -> tuple[Ended, Ended]:
    """How both readers of a dictionary end."""
    name = folder / f"{number}.json"
    name.write_text(text, encoding="utf-8")
    first, second = (run([program, "check", name], folder, b"") for program in programs)
    name.unlink()
    return first, second


def kind(ended: Ended) -> str:
    """What kind of line a reader prints: the fault without its place."""
    line = ended.text.decode().strip().removeprefix("dictionary ")
    return "accepted" if line.startswith("accepted") else line.split(" fact")[0]


def main(argv: list[str]) -> int:
    """Compares the readers."""
    words = words_of(__doc__)
    add_program(words)
    words.add_argument("--count", type=int, default=4_000, metavar="N")
    words.add_argument("--seed", type=int, default=1, metavar="S")
    given = words.parse_args(argv)
    dictionaries, choice, tally = list(stored()), random.Random(given.seed), Tally()
    changer = Changer(choice)
    with tempfile.TemporaryDirectory(prefix="compare_readers.") as name, ThreadPoolExecutor(os.cpu_count()) as pool:
        folder = Path(name)
        plain = folder / "plain_check"
        subprocess.run([tool("rustc"), "-O", "--edition", "2021", TOP / "tests/plain_check.rs", "-o", plain], check=True)
        texts = [json.dumps(changer.changed(choice.choice(dictionaries), choice.choice(dictionaries))) for _ in range(given.count)]
        ends = list(pool.map(lambda it: compare((given.program, plain), folder, *it), enumerate(texts)))
    for text, (first, second) in zip(texts, ends):
        tally.expect(text, first, second)
    kinds = collections.Counter(kind(first) for first, _ in ends)
    print("; ".join(f"{count} {line}" for line, count in kinds.most_common()))
    return tally.end()


if __name__ == "__main__":
    sys.exit(main(sys.argv[1:]))
