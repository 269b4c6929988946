#!/usr/bin/env python3
"""Tries what the Python package says of the faults of dictionaries that are changed at random, as tests/compare_readers.py changes
them.

    tests/try_faults.py [--library PATH] [--count N] [--seed S]

Nothing is built. The first fault that the package finds has to be the one that the engine names, by all of its numbers. Then the
answer is held beside the places that were changed. It names one of them, or tells of one as the other end of what doesn't fit, as
the fact that an operand names. Or the fault stood there before the change. Or it stands elsewhere, since what was changed is right in
itself: a fact whose path is another one now is missed where it is used. N is 4,000 and S is 1 where they aren't given. How many
answers are of which kind is printed, by the names of the faults; the exit status is 1 where a fault isn't the engine's, or where
fewer than nine tenths of the faults that a change made are told at it.
"""
import collections
import json
import os
import random
import sys

from compare_readers import Changer, Key, stored
from harness import TOP, Tally, add_library, words_of

sys.path.insert(0, str(TOP / "python"))

from fact_graph import DictionaryRefused, Session  # pylint: disable=wrong-import-position # found by the path above
from fact_graph.faults import Examined, Finding, findings  # pylint: disable=wrong-import-position # found by the path above

NAMED, OTHER_END = "name what was changed", "tell of it as the other end"
BEFORE, ELSEWHERE = "stood there before the change", "stand elsewhere"
LEAST_TOLD = 0.9

Places = list[tuple[Key, ...]]


def fault_of(text: bytes) -> DictionaryRefused | None:
    """The fault that the engine names."""
    try:
        Session(text).close()
    except DictionaryRefused as refused:
        return refused
    return None


def differs(examined: Examined, refused: DictionaryRefused | None) -> str:
    """How the package's first fault isn't the engine's; no text where it is."""
    first = examined.findings[0].line if examined.findings else "accepted"
    due = "accepted" if refused is None else str(refused).removeprefix("dictionary refused ")
    return "" if first == due else f"the engine says {due}, and the package {first}"


def meet(pointer: tuple[Key, ...], place: tuple[Key, ...]) -> bool:
    """Whether a part is within what was changed, or has it within the same fact or outside of the facts."""
    if pointer[: len(place)] == place:
        return True
    return place[: len(pointer)] == pointer and (len(pointer) > 1 or place[0] != "facts")


def told(finding: Finding, places: Places, before: list[Finding]) -> str:
    """How an answer tells of the places that were changed."""
    if any(meet(finding.pointer, place) for place in places):
        return NAMED
    if any(meet(it, place) for it in finding.related for place in places):
        return OTHER_END
    return BEFORE if any((it.name, it.reason) == (finding.name, finding.reason) for it in before) else ELSEWHERE


def main(argv: list[str]) -> int:
    """Tries the faults."""
    words = words_of(__doc__)
    add_library(words)
    words.add_argument("--count", type=int, default=4_000, metavar="N")
    words.add_argument("--seed", type=int, default=1, metavar="S")
    given = words.parse_args(argv)
    os.environ["FACT_GRAPH_LIBRARY"] = str(given.library)
    dictionaries, choice, tally = list(stored()), random.Random(given.seed), Tally()
    changer = Changer(choice)
    kinds: collections.Counter[tuple[str, str]] = collections.Counter()
    for _ in range(given.count):
        dictionary = choice.choice(dictionaries)
        text = json.dumps(changer.changed(dictionary, choice.choice(dictionaries))).encode()
        refused, examined = fault_of(text), Examined(text)
        tally.judge(text.decode(), differs(examined, refused))
        finding = examined.finding_of(refused) if refused else None
        if finding:
            kinds[told(finding, changer.places, findings(dictionary)), finding.name] += 1
    count_of = {kind: sum(count for (it, _), count in kinds.items() if it == kind) for kind in (NAMED, OTHER_END, BEFORE, ELSEWHERE)}
    for kind, total in count_of.items():
        print(f"{total} answers {kind}: {', '.join(f'{count} {name}' for (it, name), count in kinds.most_common() if it == kind)}")
    is_told = count_of[NAMED] + count_of[OTHER_END] >= LEAST_TOLD * (sum(count_of.values()) - count_of[BEFORE])
    tally.judge("the faults that a change made are told at it", "" if is_told else f"fewer than {LEAST_TOLD:.0%}")
    return tally.end()


if __name__ == "__main__":
    sys.exit(main(sys.argv[1:]))
