#!/usr/bin/env python3
"""Counts the steps of the built program, change by change, and compares them with what was worked out by hand.

    tests/count_steps.py [--program PATH]

Nothing is built. A step is a visit of a node: one call of `node_eval::evaluating::visit`, or of `node_eval::reads::see_dependency`
or `see_constant` for an operand that is read where it stands. The operands of a node that are all facts which stand once are read in one loop,
without a call each: no dictionary here has such a node, and that each of them is a step is proved alone (`eval_globals`: `steps`).
How many a change takes is proved (`Recalc::refresh`: `visits`), of a counter that has no bytes, so a run can't read it: this shows
it of the built program. valgrind's callgrind counts the calls of each function, and begins anew after each call of `write`:
standard output has no buffer, so each line of a reply is one write, and what is counted before the last is what its command took.
The first command asks, so before its reply stands the first evaluation of all slots.

What `missing` walks is evaluated as it is written: a node of it is a call of `source_eval::evaluating::eval`, and of no other command
there is one. A conditional has a Switch and a True of its own, which are no calls.

Each case below has a dictionary, and a script whose lines stand with the reply and the steps that are due, and behind them the nodes
that are walked. Behind a line stands what it touches: the slots, each with the nodes that are visited where there are any. A slot
without a node is one that is answered or overridden.

Work of any other kind is bounded: a command of the large dictionary that takes few steps, walks none, and takes no member away, takes
fewer instructions than there are slots, so that nothing in it goes through all of them: no second engine is begun, and no table is
copied. One that takes a member away drops the slots of that member. In the dictionary with a table of a thousand rows there are fewer
than two for each row that its reads would go through.

The exit status is 0 where none failed, 1 where one did, and 2 where there is no such program or no valgrind.
"""
import json
import re
import sys
import tempfile
from collections.abc import Iterator
from concurrent.futures import ThreadPoolExecutor
from pathlib import Path
from typing import Any, NamedTuple

from harness import Tally, add_program, run, tool, words_of

VISITS = ("node_eval::evaluating::visit", "node_eval::reads::see_dependency", "node_eval::reads::see_constant")
WALKED = ("source_eval::evaluating::eval",)
# A command with fewer steps goes through no list of slots.
FEW = 100


class Line(NamedTuple):
    """A command, its reply, its steps, the nodes that it walks as they are written, and whether it takes a member away."""

    command: str
    reply: str
    steps: int
    walked: int = 0
    drops: bool = False


class Counts(NamedTuple):
    """What was counted of a run, or of a part of it."""

    steps: int
    walked: int
    instructions: int


# ---- a small dictionary, counted in full

SMALL: dict[str, Any] = {"version": "2", "facts": [
    {"path": "/p", "writable": "Boolean", "placeholder": ["False"]},
    {"path": "/a", "writable": "Int"},
    {"path": "/x", "derived": "Int", "is": [
        "Switch", ["Case", ["Dependency", "/p"], ["Int", "1"]], ["Case", ["True"], ["Add", ["Dependency", "/a"], ["Int", "1"]]]]},
    {"path": "/i", "derived": "Boolean", "is": ["IsComplete", "/a"]},
    # its node is a Switch: where /i is true 7, else, where True is, /x
    {"path": "/w", "derived": "Int", "is": ["Dependency", "/x"], "conditional": [["Dependency", "/i"], ["Int", "7"]]},
    {"path": "/c", "writable": "Collection"},
    {"path": "/c/*/k", "writable": "Boolean"},
    {"path": "/c/*/n", "derived": "Int", "is": ["Switch", ["Case", ["Dependency", "../k"], ["Int", "1"]], ["Case", ["True"], ["Int", "0"]]]},
    {"path": "/l", "derived": "Collection(/c)", "is": ["Filter", "/c", ["Dependency", "k"]]},
    {"path": "/f", "derived": "Item(/c)", "is": ["Find", "/c", ["Dependency", "k"]]},
    {"path": "/g", "derived": "Int", "is": ["Dependency", "/f/n"]},
    {"path": "/t", "derived": "Int", "is": ["CollectionSum", "/l/*/n"]},
]}

SMALL_LINES: list[Line] = [
    # all slots: /p 1, its placeholder; /x 6: Switch, /p, True, Add, /a, 1; /i 1; /w 4: Switch, /i, True, /x; /l 1 and /f 1, of
    # no members; /g 1; /t 1
    Line("get /x", "incomplete", 16),
    # walked: /w 2: /i, /x; /x 6; /i 1; /p 1, its placeholder; /a
    Line("missing /w", "missing 2\n/p\n/a", 0, 10),
    # /c; /l 1, now of no members, and so /t 1; /f 1, still incomplete, so not /g
    Line("open /c", "ok", 3),
    # /c; k and n of #1, 2: Switch, ../k; /l 2: Filter, k of #1; it is incomplete now, so /t 1; /f 2: Find, k of #1
    Line("add /c", "ok #1", 7),
    # /c; k and n of #2, 2; /l 3: Filter, k of both; it was incomplete, so not /t; /f 2: Find, k of #1, which isn't answered
    Line("add /c", "ok #2", 7),
    # k of #2; its n 3: Switch, ../k, 1; /l 3; /f 2; /g 1 and /t 1, since n has another result
    Line("set /c/#2/k true", "ok", 10),
    # k of #1; its n 4: Switch, ../k, True, 0; /l 3; /f 3: Find, k of #1, which is false, and of #2; /g 1; /t 1
    Line("set /c/#1/k false", "ok", 12),
    # nothing: that value stands
    Line("set /c/#1/k false", "ok", 0),
    Line("get /t", "complete 1", 0),
    # walked: /t 1; /l 3: Filter, k of both; /c; n of #2, 3: Switch, ../k, 1; k of both
    Line("missing /t", "missing 0", 0, 7),
    # walked: /g 1; /f 3: Find, k of both; /c; n of #2, 3; k of both
    Line("missing /g", "missing 0", 0, 7),
    # k of #1; its n 3: Switch, ../k, 1; /l 3; /f 2, k of #1 alone; /g 1; /t 1
    Line("set /c/#1/k true", "ok", 10),
    # as when it was set to false; and to true
    Line("undo", "ok", 12),
    Line("redo", "ok", 10),
    # /p, whose placeholder isn't asked; /x 3: Switch, /p, 1; /w 4
    Line("set /p true", "ok", 7),
    # /a; not /x, whose result is final; /i 1; /w 3: Switch, /i, 7
    Line("set /a 5", "ok", 4),
    # /x, without a node; /w 3
    Line("override /x 9", "ok", 3),
    # walked: /x, which is overridden
    Line("missing /x", "missing 0", 0, 0),
    # walked: /w 2: /i, 7; /i 1; /a
    Line("missing /w", "missing 0", 0, 3),
    # /a; /x, without a node; /i 1, still true
    Line("set /a 6", "ok", 1),
    Line("get /x", "complete 9", 0),
    # /x 3: Switch, /p, 1; /w 3
    Line("release /x", "ok", 6),
    # /p 1, its placeholder; /x 6; /w 3
    Line("clear /p", "ok", 10),
    Line("get /x", "placeholder 7", 0),
    # /c; /l 2: Filter, k of #1; /t 1; /f 2: Find, k of #1; it finds the same, so not /g
    Line("remove /c #2", "ok", 5),
    Line("get /t", "complete 1", 0),
    # /c; k and n of #2, 3: Switch, ../k, 1; /l 3; /t 1; /f 2
    Line("undo", "ok", 9),
    # what is refused, and what asks
    Line("set /c/#9/k true", "refused 4 NoMember", 0),
    Line("final /w", "open", 0),
    Line("touched", "touched 6", 0),
]

# ---- a large one: 1,902 facts, and 189,804 slots once there are 100 members

MEMBERS = 100
IDLE = 1_895
ONES = [["Int", "1"]] * 19


def large() -> Iterator[dict[str, Any]]:
    """The facts of the large dictionary."""
    yield {"path": "/y", "writable": "Int"}
    yield {"path": "/g", "derived": "Int", "is": ["Add", ["Dependency", "/y"]] + ONES}
    yield {"path": "/c", "writable": "Collection"}
    yield {"path": "/c/*/a", "writable": "Int"}
    yield {"path": "/c/*/b", "derived": "Int", "is": ["Add", ["Dependency", "../a"], ["Int", "1"]]}
    yield {"path": "/c/*/d", "derived": "Int", "is": ["Multiply", ["Dependency", "../a"], ["Int", "2"]]}
    yield {"path": "/t", "derived": "Int", "is": ["CollectionSum", "/c/*/b"]}
    for k in range(1, IDLE + 1):
        yield {"path": f"/c/*/m{k}", "derived": "Int", "is": ["Add", ["Int", "1"]] + ONES}


# The fields of a member that comes: each m 21, b 3, d 3; and /t 1.
COMES = 21 * IDLE + 3 + 3 + 1
# How many slots there are at least, where one member is gone: each m, a, b and d; /y, /g, /c and /t.
SLOTS = (MEMBERS - 1) * (IDLE + 3) + 4

LARGE_LINES: list[Line] = [
    # all slots: /g 21: Add, its 20 operands; /t 1
    Line("get /g", "incomplete", 22),
    *(Line("add /c", f"ok #{k}", COMES) for k in range(1, MEMBERS + 1)),
    # walked: /t 1; /c; b of each member, 3: Add, ../a, 1; a of each
    Line("missing /t", "\n".join([f"missing {MEMBERS}", *(f"/c/#{k}/a" for k in range(1, MEMBERS + 1))]), 0, 1 + 3 * MEMBERS),
    # /y; /g 21
    Line("set /y 1", "ok", 21),
    Line("set /y 1", "ok", 0),
    # a of #7; its b 3: Add, ../a, 1; its d 3: Multiply, ../a, 2; /t 1
    Line("set /c/#7/a 5", "ok", 7),
    Line("set /c/#7/a 5", "ok", 0),
    Line("set /c/#7/a 6", "ok", 7),
    Line("undo", "ok", 7),
    Line("redo", "ok", 7),
    Line("clear /c/#7/a", "ok", 7),
    # b of #8, without a node; /t 1
    Line("override /c/#8/b 9", "ok", 1),
    Line("override /c/#8/b 9", "ok", 0),
    # a of #8; its d 3; not its b, whose result is final
    Line("set /c/#8/a 4", "ok", 3),
    # a of #8; its d 3; its b, without a node
    Line("set /c/#8/a 5", "ok", 3),
    # b of #8, 3; /t 1
    Line("release /c/#8/b", "ok", 4),
    # b of #8, without a node; /t 1
    Line("undo", "ok", 1),
    Line("redo", "ok", 4),
    # /c; /t 1
    Line("remove /c #7", "ok", 1, drops=True),
    Line("undo", "ok", COMES),
    Line("redo", "ok", 1, drops=True),
    Line("add /c", "ok #101", COMES),
    Line("undo", "ok", 1, drops=True),
    Line("set /c/#7/a 5", "refused 4 NoMember", 0),
    Line("get /c/#100/m1", "complete 20", 0),
    Line("stamp /c/#1/m1", "stamp 1", 0),
]


# ---- tables, in which a row is found without a look at most others

ROWS = 1_000
LOOKUPS = 40


def tabled() -> dict[str, Any]:
    """A dictionary of a table of a thousand rows, and a sum of what forty reads of it give."""
    rows = [[str(row), str(row)] for row in range(ROWS)]
    return {
        "version": "law-1",
        "tables": [{"name": "t", "from": "Int", "to": "Int", "rows": rows, "else": "-1"}],
        "facts": [
            {"path": "/n", "writable": "Int"},
            {"path": "/x", "derived": "Int", "is": ["Lookup", "t", ["Lookup", "t", ["Add", ["Dependency", "/n"], ["Int", "1"]]]]},
            {"path": "/s", "derived": "Int", "is": ["Add", *[["Lookup", "t", ["Dependency", "/n"]]] * LOOKUPS]},
        ],
    }


OF_X, OF_S = 5, 1 + 2 * LOOKUPS
TABLED_LINES: list[Line] = [
    # all slots: /x 5: two Lookups, Add, /n, 1; /s: Add, and a Lookup and /n forty times
    Line("get /x", "incomplete", OF_X + OF_S),
    # walked: the same of /x
    Line("missing /x", "missing 1\n/n", 0, OF_X),
    Line("set /n 0", "ok", OF_X + OF_S),
    Line("get /s", "complete 0", 0),
    Line(f"set /n {ROWS - 1}", "ok", OF_X + OF_S),
    Line("get /s", f"complete {LOOKUPS * (ROWS - 1)}", 0),
    Line("set /n -5", "ok", OF_X + OF_S),
    Line("get /s", f"complete {-LOOKUPS}", 0),
    Line("get /x", "complete -1", 0),
    Line("undo", "ok", OF_X + OF_S),
]
# A command that reads the table takes fewer instructions than two for each row that it would go through.
THROUGH = 2 * ROWS * LOOKUPS


# ---- counting

def counts_in(part: Path) -> Counts:
    """How often the functions were called, and how many instructions there were, by a part of what callgrind wrote."""
    names: dict[str, str] = {}
    callee, steps, walked, instructions = "", 0, 0, 0
    for line in part.read_text().split("\n"):
        named = re.match(r"c?fn=(\(\d+\))(?: (.*))?$", line)
        if named:
            names.setdefault(named[1], named[2])
            if line.startswith("c"):
                callee = names[named[1]]
        elif line.startswith("calls="):
            count = int(line[6:].split(" ")[0])
            steps += count * is_among(VISITS, callee)
            walked += count * is_among(WALKED, callee)
        elif line.startswith("totals: "):
            instructions = int(line[8:])
    return Counts(steps, walked, instructions)


def is_among(functions: tuple[str, ...], name: str) -> bool:
    """Whether it is one of the functions, at whichever types, or a clone of it, within however many calls of its own."""
    return re.match(f"({'|'.join(map(re.escape, functions))})" + r"(::<[^>]*>)?(\.[\w.]+)?('\d+)?$", name) is not None


class NotCounted(Exception):
    """Why nothing was counted."""


def counted(program: Path, folder: Path, dictionary: dict[str, Any], script: str) -> tuple[str, list[Counts], Counts]:
    """The text that the program writes, what is counted up to each of its writes, and behind the last."""
    folder.mkdir()
    (folder / "d").write_text(json.dumps(dictionary))
    valgrind = [tool("valgrind"), "--tool=callgrind", "--dump-after=write", "--callgrind-out-file=counts"]
    ran = run([*valgrind, program, "run", "d"], folder, script.encode())
    if ran.status != 0:
        raise NotCounted(f"status {ran.status}: {ran.error.decode(errors='replace')[-300:]}")
    parts = sorted(folder.glob("counts.*"), key=lambda path: int(path.suffix[1:]))
    return ran.text.decode(), [counts_in(part) for part in parts], counts_in(folder / "counts")


def wrong_with(line: Line, reply: str, came: Counts, most: int | None) -> str:
    """What is wrong with a line's reply and its counts, where it takes fewer than so many instructions; no text where nothing is."""
    wrong = [] if reply == line.reply else [f"expected {line.reply!r}, came {reply!r}"]
    wrong += [] if came.steps == line.steps else [f"expected {line.steps} steps, came {came.steps}"]
    wrong += [] if came.walked == line.walked else [f"expected a walk of {line.walked} nodes, came {came.walked}"]
    wrong += [f"expected fewer than {most} instructions, came {came.instructions}"] if most and came.instructions >= most else []
    return ", ".join(wrong)


def wrong_lines(program: Path, folder: Path, dictionary: dict[str, Any], lines: list[Line], slots: int | None) -> Iterator[str]:
    """For each line what is wrong with it; nothing where its reply and its counts are those that are due."""
    text, counts, left = counted(program, folder, dictionary, "".join(f"{line.command}\n" for line in lines))
    due = sum(line.reply.count("\n") + 1 for line in lines)
    written = text.split("\n")[:-1]
    if not len(written) == len(counts) == due:
        raise NotCounted(f"{due} lines are due, {len(written)} came, in {len(counts)} writes")
    if left.steps + left.walked:
        raise NotCounted(f"{left.steps} steps and a walk of {left.walked} nodes behind the last reply")
    at = 0
    for k, line in enumerate(lines, 1):
        end = at + line.reply.count("\n") + 1
        came = Counts(*map(sum, zip(*counts[at:end])))
        # (before the first reply the program begins)
        is_bounded = k > 1 and line.steps < FEW and not line.walked and not line.drops
        wrong = wrong_with(line, "\n".join(written[at:end]), came, slots if is_bounded else None)
        yield f"line {k}, {line.command}: {wrong}" if wrong else ""
        at = end


def judged(program: Path, folder: Path, dictionary: dict[str, Any], lines: list[Line], slots: int | None) -> list[str]:
    """What is wrong with each line, or why nothing was counted."""
    try:
        return list(wrong_lines(program, folder, dictionary, lines, slots))
    except NotCounted as why:
        return [str(why)]


def main(argv: list[str]) -> int:
    """Counts the steps of each dictionary."""
    words = words_of(__doc__)
    add_program(words)
    program = words.parse_args(argv).program
    tool("valgrind")
    tally = Tally()
    with tempfile.TemporaryDirectory(prefix="count_steps.") as folder, ThreadPoolExecutor(2) as pool:
        cases = [
            ("small", SMALL, SMALL_LINES, None),
            ("large", {"version": "1", "facts": list(large())}, LARGE_LINES, SLOTS),
            ("tables", tabled(), TABLED_LINES, THROUGH),
        ]
        ran = [(name, pool.submit(judged, program, Path(folder, name), dictionary, lines, slots)) for name, dictionary, lines, slots in cases]
        for name, wrongs in ran:
            for wrong in wrongs.result():
                tally.judge(name, wrong)
    return tally.end()


if __name__ == "__main__":
    sys.exit(main(sys.argv[1:]))
