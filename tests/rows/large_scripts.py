"""Scripts as long as they may be, lines as long as they may be, and bytes that a row can't show."""
from collections.abc import Iterator

from stored_cases import Made

AMOUNTS = (
    b'{"version":"1","facts":[{"path":"/a","writable":"Dollar"},{"path":"/b","writable":"Dollar"},'
    b'{"path":"/s","derived":"Dollar","is":["Add",["Dependency","/a"],["Dependency","/b"]]}]}'
)
COLLECTION = b'{"version":"1","facts":[{"path":"/c","writable":"Collection"}]}'
LONGEST_SCRIPT = 67_108_864
USAGE = b"usage: interview COMMAND ARGUMENTS\n"


def run(name: str, script: bytes, text: bytes, status: int = 0, dictionary: bytes = AMOUNTS) -> Made:
    return name, "run d", dictionary, script, text, status


def filled(script: bytes, length: int) -> bytes:
    return script + b"x" * (length - len(script))


def cases() -> Iterator[Made]:
    # the whole script
    yield "no words", [], None, b"", USAGE, 2
    yield run("the longest script", filled(b"get /a\n", LONGEST_SCRIPT), b"incomplete\nrefused 2 LongLine\n")
    yield run("one byte past the longest script", filled(b"", LONGEST_SCRIPT + 1), b"", 6)
    yield run("what ends within it is answered", filled(b"get /a\n", LONGEST_SCRIPT + 1), b"incomplete\n", 6)
    yield run("quit comes before", filled(b"get /a\nquit\n", LONGEST_SCRIPT + 1), b"incomplete\n")

    # single lines
    yield run(
        "the last line has no newline",
        b"set /a 9999999999999.99\nset /b 0.01\nget /s",
        b"ok\nok\nfault overflow\n",
    )
    yield run("a last quit has no newline", b"get /a\nquit", b"incomplete\n")
    yield run("one byte 13 is dropped", b"\r\nset /a 5\r\nget /a\nset /a 5\r\r\n", b"ok\ncomplete 5.00\nrefused 6 BadValue\n")
    yield run("blanks are of the value", b"set /a 1 \nset /a \nset /a  1\n", b"refused 6 BadValue\n" * 3)
    yield run(
        "lines of 4,096 bytes and of one more",
        b"".join(
            [
                b"set /a " + b"1" * 4089 + b"\n",
                b"set /a " + b"1" * 4090 + b"\n",
                b"0" * 4096 + b"\n",
                b"#" * 4096 + b"\n",
                b"#" * 4097 + b"\n",
                b"#" * 4096 + b"\r\n",
                b"get /a",
            ]
        ),
        b"refused 6 BadValue\nrefused 2 LongLine\nrefused 1 BadLine\nrefused 2 LongLine\nrefused 2 LongLine\nincomplete\n",
    )
    yield run("a line that isn't UTF-8", b"get /a\xff\nget /a\n", b"refused 1 BadLine\nincomplete\n")

    # a collection
    members = range(1, 101)
    yield run(
        "a collection has 100 members at most, and no number is given out twice",
        b"add /c\n" * 101 + b"get /c\nremove /c #1\nadd /c\n",
        b"".join(b"ok #%d\n" % k for k in members)
        + b"refused 9 Full\ncomplete [%s]\nok\nok #101\n" % b" ".join(b"#%d" % k for k in members),
        dictionary=COLLECTION,
    )
