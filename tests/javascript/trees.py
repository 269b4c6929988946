"""Random answers, and the trees of each slot behind them as the Python package prints them."""

from collections.abc import Iterator
from pathlib import Path
from typing import TYPE_CHECKING

from javascript.cases import Given, given
from javascript.random_lines import Script

if TYPE_CHECKING:
    from fact_graph import Session

RUNNER = "trees.js"
SCRIPTS, LINES = 100, 100


def tree_cases(files: list[Path]) -> Iterator[Given]:
    """Scripts over these dictionaries, in turn, and what is due behind each."""
    from fact_graph import Session  # pylint: disable=import-outside-toplevel # once it is said where the library is

    for seed in range(SCRIPTS):
        file = files[seed % len(files)]
        dictionary = file.read_bytes()
        # (a line of JavaScript is a text)
        script = Script(seed, dictionary).lines(LINES).decode(errors="replace")
        with Session(dictionary) as session:
            for line in script.split("\n"):
                session.line(line)
            yield given(f"trees of seed {seed} of {file.name}", "trees", (dictionary, b"", script.encode()), 0, shown(session).encode())


def shown(session: "Session") -> str:
    """The trees of each slot that stands, and what they say beside their texts."""
    lines = []
    for slot in session:
        why, missing = session.why(slot), session.missing(slot)
        lines += [str(why), str(session.why(slot, depth=1)), str(missing), " ".join(missing)]
        lines += [f"{it.slot} {it.type.name} {it.result.kind} {it.result.fault or '-'} {' '.join(it.below)}" for it in why]
    return "\n".join(lines)
