"""Lines that no text shows: long ones, bytes that are no UTF-8, and a last line without a newline."""
from collections.abc import Iterator

from stored_cases import Made

DICTIONARY = b'{"version":"1","facts":[{"path":"/text","writable":"Text"},{"path":"/number","writable":"Int"}]}'


def case(name: str, script: bytes, text: bytes) -> Made:
    return name, "run d", DICTIONARY, script, text, 0


def cases() -> Iterator[Made]:
    longest = b"set /number " + b"1" * 4084
    note = b"#" + b"1" * 4095
    yield case("a line of 4096 bytes is read, and one of 4097 is long", longest + b"\n" + longest + b"1\nget /number", b"refused 6 BadValue\nrefused 2 LongLine\nincomplete\n")
    yield case("a line of 4096 bytes and a byte 13 is long", longest + b"\r\n", b"refused 2 LongLine\n")
    yield case("a note of 4096 bytes has no reply, and one of 4097 is long", note + b"\n" + note + b"1\n", b"refused 2 LongLine\n")
    yield case("the rest of a long line is no line of its own", longest * 2 + b"\nundo\n", b"refused 2 LongLine\nrefused 13 NothingToUndo\n")
    yield case("a long line may be the last, without a newline", longest * 2, b"refused 2 LongLine\n")
    yield case("the last line needs no newline", b"set /number 5\nget /number", b"ok\ncomplete 5\n")
    yield case("a line that is no UTF-8 is refused", b"get /number\xff\n\xffget /number\nget /number\n", b"refused 1 BadLine\nrefused 1 BadLine\nincomplete\n")
    yield case("a note need be no UTF-8", b"#\xff\xfe\nget /number\n", b"incomplete\n")
    controls = [b"\0", b"a\x1f", b"\x7f", b"\xc2\x85"]
    yield case("a text has no control character", b"".join(b"set /text " + text + b"\n" for text in controls), b"refused 6 BadValue\n" * len(controls))
    text = b"a" * 1000
    yield case("a text has 1000 bytes at most", b"set /text " + text + b"\nset /text " + text + b"a\nget /text\n", b"ok\nrefused 6 BadValue\ncomplete " + text + b"\n")
    yield case("a line of 4096 bytes, of which the last is a byte 13", longest[:-1] + b"\r\n", b"refused 6 BadValue\n")
    yield case("the first and the last control character of two bytes, and what stands behind them", b"set /text \xc2\x80\nset /text \xc2\x9f\nset /text \xc2\xa0\nget /text\n", b"refused 6 BadValue\nrefused 6 BadValue\nok\ncomplete \xc2\xa0\n")
    yield case("a text is counted in bytes", b"set /text " + b"a" * 999 + b"\xc3\xa9\nset /text " + b"a" * 998 + b"\xc3\xa9\n", b"refused 6 BadValue\nok\n")
    yield case("a name has 64 bytes at most", b"get /" + b"b" * 64 + b"\nget /" + b"b" * 65 + b"\n", b"refused 3 UnknownFact\nrefused 1 BadLine\n")
