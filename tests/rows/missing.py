"""The missing answers of a chain in which each fact mentions the last one twice."""
import json
from collections.abc import Iterator

from stored_cases import Made

def cases() -> Iterator[Made]:
    """A walk that follows each mention anew would take 2^40 steps."""
    facts: list[dict[str, object]] = [{"path": "/x0", "writable": "Int"}]
    for k in range(1, 41):
        before = ["Dependency", f"/x{k - 1}"]
        facts.append({"path": f"/x{k}", "derived": "Int", "is": ["Add", before, before]})
    yield (
        "forty facts that each mention the last one twice",
        "run d",
        json.dumps({"version": "1", "facts": facts}).encode(),
        b"missing /x40\nset /x0 0\nmissing /x40\nget /x40\n",
        b"missing 1\n/x0\nok\nmissing 0\ncomplete 0\n",
        0,
    )
