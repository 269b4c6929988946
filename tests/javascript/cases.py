"""Cases that are run over the engine in JavaScript, as bytes: four sizes, and behind them word, dictionary, saved text and script. What
comes back is the status, the size of the text, and the text."""

import struct
from collections.abc import Iterator
from pathlib import Path
from subprocess import PIPE, Popen
from typing import NamedTuple

from harness import TOP, Tally
from stored_cases import Served, all_cases, also, served

RUNNERS = TOP / "javascript" / "tests" / "cases"
HEAD, ANSWER = struct.Struct("<4I"), struct.Struct("<2I")


class Given(NamedTuple):
    """A case, and what is due of it."""

    place: str
    sent: bytes
    status: int
    due: bytes


def given(place: str, word: str, texts: tuple[bytes, bytes, bytes], status: int, due: bytes) -> Given:
    """A case of a word with dictionary, saved text and script."""
    parts = [word.encode(), *texts]
    return Given(place, HEAD.pack(*map(len, parts)) + b"".join(parts), status, due)


def of_served(it: Served) -> Given:
    """A stored case."""
    return given(it.case.place, it.word, (it.dictionary, it.saved or b"", it.case.script), it.case.status, it.case.due)


def stored() -> Iterator[Given]:
    """All stored cases that a library serves, the refused checks among them as runs, but for those at a desk, which this package hasn't."""
    for first in all_cases():
        yield from (of_served(it) for it in map(served, also(first)) if it is not None and it.word != "desk")


def wrong_in(case: Given, answer: bytes) -> str:
    """What is wrong with an outcome; no text where it is right."""
    status, size = ANSWER.unpack(answer[: ANSWER.size])
    text = answer[ANSWER.size :]
    if size != len(text):
        return f"{len(text)} bytes in place of {size}"
    if status == 255:
        return text.decode(errors="replace")
    if status != case.status:
        return f"status {status}, and {case.status} is due"
    return "" if text == case.due else difference(case.due, text)


def difference(due: bytes, text: bytes) -> str:
    """The first line that differs."""
    for number, (wanted, came) in enumerate(zip([*due.split(b"\n"), b""], [*text.split(b"\n"), b""]), 1):
        if wanted != came:
            return f"line {number} is {came[:80]!r}, and {wanted[:80]!r} is due"
    return f"{len(text)} bytes, and {len(due)} are due"


def judge_in_node(tally: Tally, node: str, module: Path, cases: Iterator[Given], name: str, runner: str = "host.js") -> None:
    """Runs cases in Node over a module, by a runner of theirs."""
    with Popen([node, RUNNERS / runner, module], stdin=PIPE, stdout=PIPE) as host:
        assert host.stdin is not None and host.stdout is not None
        for case in cases:
            host.stdin.write(case.sent)
            host.stdin.flush()
            head = host.stdout.read(ANSWER.size)
            if len(head) < ANSWER.size:
                tally.judge(f"{case.place}, {name}", "the host ended")
                return
            tally.judge(f"{case.place}, {name}", wrong_in(case, head + host.stdout.read(ANSWER.unpack(head)[1])))
        host.stdin.close()
