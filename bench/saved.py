#!/usr/bin/env python3
"""Times a session of 190,000 answered slots that is saved, loaded and carried: 100 members of 1,900 writable fields.

    bench/saved.py [--program PATH]

The session is made by a script of 100 `add` and 190,000 `set`, whose answers are then written: `save` is shown with the script and
without it, that is less what the same script takes under `run`. `load` and `carry` are shown with the start of the session, and less
what `run` takes to start without answers. All are the least user time of three runs. The exit status is 1 where `load`, `carry` or
`save` by itself takes longer than a second.
"""
import sys
import tempfile
from collections.abc import Iterator
from pathlib import Path

from timing import add_program, give_up, least, words_of, write_dictionary

MEMBERS, FIELDS, RUNS = 100, 1_900, 3


def fields() -> Iterator[dict[str, object]]:
    """The facts of the dictionary."""
    yield {"path": "/c", "writable": "Collection"}
    for field in range(FIELDS):
        yield {"path": f"/c/*/f{field}", "writable": "Int"}


def slots() -> Iterator[tuple[str, int]]:
    """Each slot of a member, and its answer."""
    return ((f"/c/#{member}/f{field}", member) for field in range(FIELDS) for member in range(1, MEMBERS + 1))


def script() -> str:
    """The commands that answer all."""
    return "add /c\n" * MEMBERS + "".join(f"set {slot} {value}\n" for slot, value in slots())


def saved() -> str:
    """The text that is due, by its rules."""
    members = "".join(f" #{member}" for member in range(1, MEMBERS + 1))
    values = "".join(f"value {slot} {value}\n" for slot, value in slots())
    return f"saved 1\nnext {MEMBERS + 1}\nlist /c{members}\n{values}end\n"


def main(argv: list[str]) -> int:
    """Times each word."""
    words = words_of(__doc__)
    add_program(words)
    program = words.parse_args(argv).program
    with tempfile.TemporaryDirectory(prefix="bench.") as name:
        folder = Path(name)
        write_dictionary(folder / "d", fields())
        for file, text in (("script", script()), ("s", saved()), ("nothing", "")):
            (folder / file).write_text(text, encoding="utf-8")

        def took(command: list[str], source: str, due: str | None) -> float:
            run = least([program, *command], folder, folder / source, RUNS)
            if due is not None and run.text.decode() != due:
                give_up(f"{' '.join(command)}: other text than is due")
            return run.user

        started = took(["run", "d"], "nothing", "")
        ran = took(["run", "d"], "script", None)
        saving = took(["save", "d"], "script", saved())
        loading = took(["load", "d", "s"], "nothing", "")
        carrying = took(["carry", "d", "s"], "nothing", "")
    print(f"{MEMBERS * FIELDS:,} answered slots, user time in seconds")
    print(f"start without answers {started:.2f}")
    print(f"the script under run {ran:.2f}, under save {saving:.2f}, so the text {max(saving - ran, 0):.2f}")
    print(f"load {loading:.2f}, less the start {loading - started:.2f}")
    print(f"carry {carrying:.2f}, less the start {carrying - started:.2f}")
    return int(max(saving - ran, loading, carrying) > 1)


if __name__ == "__main__":
    sys.exit(main(sys.argv[1:]))
