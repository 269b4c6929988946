#!/usr/bin/env python3
"""Times calls of the C library from a host in C, and shows the memory of sessions.

    bench/c_library.py [--library PATH]

Nothing is built but the hosts, bench/c_library.c, bench/c_openings.c and bench/c_memory.c. The least time of many short runs of each call
is shown, over the screener with three members; how long a session takes to open, and a further one over the same dictionary, of the
screener, of `income 2023` and of 2,000 facts with 40,000 nodes; and the bytes of the blocks of the heap that a session has: opened, changed,
with a hundred members, with 1,000 watches. The exit status is 1 where a `get` of an amount with its read takes more than a microsecond,
`income 2023` more than a millisecond to open or a further session more than a tenth of one, and 2 where there is no library.
"""
import re
import subprocess
import sys
import tempfile
from pathlib import Path

from compile import sums
from timing import EXAMPLES, TOP, add_library, words_of, write_dictionary

# pylint: disable-next=wrong-import-order # timing finds it
from harness import compiled

GET, OPENED, FURTHER = 1.0, 1_000.0, 100.0
INCOME = "income 2023"


def openings(host: Path, folder: Path) -> str:
    """How long sessions take to open, a line for each."""
    write_dictionary(folder / "facts", sums())
    shown = ""
    cases: list[tuple[str, str, int]] = [
        ("the screener", str(EXAMPLES / "screener.json"), 100), (INCOME, INCOME, 0), ("2,000 facts with 40,000 nodes", str(folder / "facts"), 10),
    ]
    for name, dictionary, rounds in cases:
        run = subprocess.run([host, dictionary, str(rounds)], check=True, stdout=subprocess.PIPE, text=True).stdout
        shown += "".join(f"{line}, {name}\n" for line in run.splitlines())
    return shown


def least(shown: str, what: str) -> float:
    """The greatest of the least times of what is called so, in microseconds."""
    return max(map(float, re.findall(rf"([\d.]+) us  {re.escape(what)}", shown)))


def main(argv: list[str]) -> int:
    """Times the calls."""
    words = words_of(__doc__)
    add_library(words)
    library = words.parse_args(argv).library
    with tempfile.TemporaryDirectory() as folder:
        script = Path(folder, "script")
        script.write_text((EXAMPLES / "screener.script").read_text(encoding="utf-8").split("remove")[0], encoding="utf-8")
        flags = ["-O2", f"-I{TOP / 'crates' / 'fact_graph_c'}", f"-Wl,-rpath,{library.parent}"]
        host = compiled(TOP / "bench" / "c_library.c", Path(folder, "host"), library, *flags)
        shown = subprocess.run([host, EXAMPLES / "screener.json", script], check=True, stdout=subprocess.PIPE, text=True).stdout
        shown += openings(compiled(TOP / "bench" / "c_openings.c", Path(folder, "openings"), library, *flags), Path(folder))
        counting = compiled(TOP / "bench" / "c_memory.c", Path(folder, "memory"), library, *flags)
        shown += subprocess.run([counting, EXAMPLES / "screener.json"], check=True, stdout=subprocess.PIPE, text=True).stdout
    print(shown, end="")
    is_slow = least(shown, "get of an amount") > GET or least(shown, f"opened and closed, {INCOME}") > OPENED or least(shown, "a further one") > FURTHER
    return 1 if is_slow else 0


if __name__ == "__main__":
    sys.exit(main(sys.argv[1:]))
