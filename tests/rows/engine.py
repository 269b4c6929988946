"""A hundred members with 1,900 fields each, of which 100,000 changes touch none."""
import json
from collections.abc import Iterator

from stored_cases import Made

NAMES = range(1, 1_901)
MEMBERS = range(1, 101)
SETS = 100_000

# the plain engine, which evaluates all slots at each change, would take hours
BOTH_ENGINES = False


def facts() -> Iterator[dict[str, object]]:
    yield {"path": "/y", "writable": "Int"}
    yield {"path": "/c", "writable": "Collection"}
    for k in NAMES:
        yield {"path": f"/c/*/m{k}", "derived": "Int", "is": ["Add"] + [["Int", "1"]] * 20}


def cases() -> Iterator[Made]:
    # Each set touches /y alone. A field was touched last when its member came, so m1900 of the first member by change 1.
    dictionary = json.dumps({"version": "1", "facts": list(facts())}).encode()
    script = b"add /c\n" * len(MEMBERS) + b"set /y 1\nset /y 2\n" * (SETS // 2) + b"touched\nstamp /y\nstamp /c/#1/m1900\nget /c/#100/m1\n"
    added = b"".join(b"ok #%d\n" % k for k in MEMBERS)
    text = added + b"ok\n" * SETS + b"touched 1\nstamp 100100\nstamp 1\ncomplete 20\n"
    yield "a set of what nothing reads touches one of 190,002 slots", "run d", dictionary, script, text, 0
