"""A hundred members, which are too many lines to be written out."""
from collections.abc import Iterator

from stored_cases import Made

DICTIONARY = b'{"version":"1","facts":[{"path":"/c","writable":"Collection"}]}'


def cases() -> Iterator[Made]:
    added = b"".join(b"ok #%d\n" % k for k in range(1, 101))
    members = b" ".join(b"#%d" % k for k in range(1, 101))
    yield "a collection has 100 members at most", "run d", DICTIONARY, b"add /c\n" * 101 + b"get /c\n", added + b"refused 9 Full\ncomplete [" + members + b"]\n", 0
    yield "after a hundred undone adds it is closed", "run d", DICTIONARY, b"add /c\n" * 100 + b"undo\n" * 100 + b"get /c\nadd /c\n", added + b"ok\n" * 100 + b"incomplete\nok #1\n", 0
