"""Saved texts at the limits of their bytes, lines, lists and members, and one that is cut at every byte."""
import string
from collections.abc import Iterable, Iterator
from itertools import islice, product

from stored_cases import Made

LIMIT = 67_108_864
DICTIONARY = b'{"version":"1","facts":[{"path":"/t","writable":"Text"}]}'
FRONT = b"saved 1\nnext 1\n"


def refused(line: int) -> bytes:
    return b"saved refused line %d\n" % line


# over two_collections.json: a list, an answer and an override of its member
LINES = [b"saved 1", b"next 3", b"list /c #2", b"value /c/#2/v 7", b"override /c/#2/w 9", b"end"]
# What stands of a line that is cut, where it may be a line by itself: it is judged as if it had its newline. A list without
# members may be loaded, and a carried value may be any text, also none.
FRONTS = {"load": {2: [b"list /c"]}, "carry": {2: [b"list /c"], 3: [b"value /c/#2/v "], 4: [b"override /c/#2/w "]}}


def cut(word: str) -> Iterator[Made]:
    """The text up to each byte: refused at the line that is cut, or one past it where only more is wanting."""
    text = b"".join(line + b"\n" for line in LINES)
    words = [word, "two_collections.json", "s"]
    for size in range(len(text)):
        lines = text[:size].split(b"\n")
        whole, last = len(lines) - 1, lines[-1]
        is_line = bool(last) and (last == LINES[whole] or last in FRONTS[word].get(whole, []))
        yield f"{word} of a text that is cut behind {size} bytes", words, None, b"get /c\n", refused(whole + 1 + is_line), 8, text[:size]
    yield f"{word} of the whole text", words, None, b"get /c/#2/w\nget /c\n", b"complete 9\ncomplete [#2]\n", 0, text
    for more in (b"\n", b" ", b"e", b"end\n"):
        yield f"{word} of a text with {more!r} behind it", words, None, b"get /c\n", refused(7), 8, text + more


def of_lines(*lines: str) -> bytes:
    return b"".join(line.encode() + b"\n" for line in lines)


def listed(numbers: Iterable[int]) -> str:
    return "list /c" + "".join(f" #{number}" for number in numbers)


def limits() -> Iterator[Made]:
    """What a text names of lists, members and numbers, at the most and one more."""
    words = {word: [word, "two_collections.json", "s"] for word in ("load", "carry")}
    for word in words:
        for number, line in ((0, 2), (1_000_002, 2), (1_000_001, 0), (1, 0)):
            due, status = (refused(line), 8) if line else (b"incomplete\n", 0)
            yield f"{word} with the next number {number}", words[word], None, b"get /c\n", due, status, of_lines("saved 1", f"next {number}", "end")
        most = of_lines("saved 1", "next 101", listed(range(1, 101)), "end")
        yield f"{word} of a hundred members", words[word], None, b"add /c\nget /c/#100/v\n", b"refused 9 Full\nincomplete\n", 0, most
        more = of_lines("saved 1", "next 102", listed(range(1, 102)), "end")
        yield f"{word} of a hundred and one", words[word], None, b"get /c\n", refused(3), 8, more
        for name, lines, line in (
            ("a member that isn't below the next number", ["next 2", "list /c #2"], 3),
            ("a member that stands twice in a list", ["next 3", "list /c #1 #1"], 3),
            ("a member that stands in two lists", ["next 3", "list /c #1", "list /d #1"], 4),
            ("a list that stands twice", ["next 3", "list /c #1", "list /c #2"], 4),
            ("a slot that is answered twice", ["next 2", "list /c #1", "value /c/#1/v 1", "value /c/#1/v 2"], 5),
            ("a slot that is overridden twice", ["next 2", "list /c #1", "override /c/#1/w 1", "override /c/#1/w 1"], 5),
            ("a slot whose member is in no list", ["next 2", "list /d #1", "value /c/#1/v 1"], 4),
            ("a slot whose member is another", ["next 3", "list /c #2", "value /c/#1/v 1"], 4),
            ("an answer behind an override", ["next 2", "list /c #1", "override /c/#1/w 1", "value /c/#1/v 1"], 5),
            ("a list behind an override", ["next 3", "list /c #1", "override /c/#1/w 1", "list /d #2"], 5),
            ("a next number that stands twice", ["next 2", "next 2"], 3),
            ("no next number", ["list /c"], 2),
            ("a member with a leading zero", ["next 3", "list /c #02"], 3),
            ("two blanks", ["next  2"], 2),
            ("a blank behind the line", ["next 2 "], 2),
            ("a line of another kind", ["next 2", "answer /c/#1/v 1"], 3),
            ("a path that is none", ["next 2", "list c"], 3),
            ("an empty line", ["next 2", "", "list /c"], 3),
        ):
            yield f"{word} of {name}", words[word], None, b"get /c\n", refused(line), 8, of_lines("saved 1", *lines, "end")
    # a dictionary has 32 collections at most, and so has a text lists
    for count, due, status in ((32, b"".join(b"dropped list /x%d\n" % n for n in range(32)) + b"incomplete\n", 0), (33, refused(35), 8)):
        lists = [f"list /x{n}" for n in range(count)]
        yield f"carry of {count} lists", words["carry"], None, b"get /c\n", due, status, of_lines("saved 1", "next 1", *lists, "end")
    # what can't stand over this dictionary is refused by `load`, and dropped by `carry`
    for name, lines, line, dropped in (
        ("a fact that there isn't", ["list /c #1", "value /c/#1/z 1"], 4, b"dropped value /c/#1/z\n"),
        ("a list that there isn't", ["list /c #1", "list /z"], 4, b"dropped list /z\n"),
        ("an answer of a derived fact", ["list /c #1", "value /c/#1/w 1"], 4, b"dropped value /c/#1/w\n"),
        ("an override of a writable one", ["list /c #1", "override /c/#1/v 1"], 4, b"dropped override /c/#1/v\n"),
        ("a list as an answer", ["list /c #1", "value /d []"], 4, b"dropped value /d\n"),
        ("a value of another type", ["list /c #1", "value /c/#1/v true"], 4, b"dropped value /c/#1/v\n"),
        ("a list of what is no collection", ["list /c #1", "list /v"], 4, b"dropped list /v\n"),
    ):
        text = of_lines("saved 1", "next 2", *lines, "end")
        yield f"load of {name}", words["load"], None, b"get /c\n", refused(line), 8, text
        yield f"carry of {name}", words["carry"], None, b"get /c\n", dropped + b"complete [#1]\n", 0, text
    # the order of a saved text is its own, that of a carried one within a kind isn't
    turned = of_lines("saved 1", "next 3", "list /d #2", "list /c #1", "end")
    yield "load of lists in another order", words["load"], None, b"get /c\n", refused(4), 8, turned
    yield "carry of lists in another order", words["carry"], None, b"get /c\nget /d\n", b"complete [#1]\ncomplete [#2]\n", 0, turned


def shortest_names(room: int, more: int) -> list[str]:
    """The shortest names for which there is room, where each takes so many bytes more than its own."""
    behind = string.ascii_letters + string.digits + "_-"
    found: list[str] = []
    for length in range(1, 5):
        names = list(islice(map("".join, product(string.ascii_letters, *[behind] * (length - 1))), room // (length + more)))
        room -= (length + more) * len(names)
        found += names
    return found


def most_dropped() -> Made:
    """A text with as many lines as its greatest length has room for. All are dropped: no fact of 2023 has a name of so few bytes."""
    before, after = "value /", " \n"
    dropped = shortest_names(LIMIT - len(FRONT) - len("end\n"), len(before) + len(after))
    text = FRONT + (before + (after + before).join(dropped) + after).encode() + b"end\n"
    due = ("dropped value /" + "\ndropped value /".join(dropped)).encode() + b"\nok\ncomplete false\n"
    return "carry of as many lines as there may be", ["carry-year", "2023", "s"], None, b"set /married false\nget /joint\n", due, 0, text


def cases() -> Iterator[Made]:
    yield most_dropped()
    yield from cut("load")
    yield from cut("carry")
    yield from limits()
    text = FRONT + b"end\n"
    for word in ("load", "carry"):
        words = [word, "d", "s"]
        filler = text + b"\n" * (LIMIT - len(text))
        yield f"{word} of a text of the greatest length is judged", words, DICTIONARY, b"get /t\n", refused(4), 8, filler
        yield f"{word} of a text that is longer", words, DICTIONARY, b"get /t\n", refused(0), 8, filler + b"\n"
        yield f"{word} of bytes that are no text", words, DICTIONARY, b"get /t\n", refused(3), 8, FRONT + b"value /t \xff\nend\n"
        yield f"{word} of a line that ends in a return", words, DICTIONARY, b"get /t\n", refused(1), 8, b"saved 1\r\nnext 1\nend\n"
    # a line of a carried text has at most 4,096 bytes
    for length, text, status in ((4096, b"dropped value /u\nincomplete\n", 0), (4097, refused(3), 8)):
        line = b"value /u ".ljust(length, b"a")
        yield f"carry of a line of {length} bytes", ["carry", "d", "s"], DICTIONARY, b"get /t\n", text, status, FRONT + line + b"\nend\n"
