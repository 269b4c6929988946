"""Dictionaries as large as they may be, and larger by one."""
from collections.abc import Iterable, Iterator

from stored_cases import Made

AMOUNTS = (
    b'{"version":"1","facts":[{"path":"/a","writable":"Dollar"},{"path":"/b","writable":"Dollar"},'
    b'{"path":"/s","derived":"Dollar","is":["Add",["Dependency","/a"],["Dependency","/b"]]}]}'
)
LONGEST = 8_388_608


def dictionary(facts: Iterable[str], declared: Iterable[str] = ()) -> bytes:
    lists = ',"enums":[%s]' % ",".join(declared) if declared else ""
    return ('{"version":"1","facts":[%s]%s}' % (",".join(facts), lists)).encode()


def booleans(count: int) -> bytes:
    return dictionary('{"path":"/f%d","writable":"Boolean"}' % k for k in range(1, count + 1))


def collections(count: int) -> bytes:
    return dictionary('{"path":"/c%d","writable":"Collection"}' % k for k in range(1, count + 1))


def sums(last: int) -> bytes:
    """Twenty sums of 1,999 constants, the last of this many."""
    return dictionary(
        '{"path":"/f%d","derived":"Int","is":["Add"%s]}' % (k, ',["Int","1"]' * (1999 if k < 20 else last))
        for k in range(1, 21)
    )


def nots(count: int) -> bytes:
    return dictionary(['{"path":"/x","derived":"Boolean","is":%s["True"]%s}' % ('["Not",' * count, "]" * count)])


def limits(count: int) -> bytes:
    return dictionary(['{"path":"/z","writable":"Text","limits":[%s]}' % ",".join(['["Check","digits"]'] * count)])


def enums(lists: int, options: int) -> bytes:
    """So many lists of one option, and one of so many."""
    small = ['{"name":"e%d","options":["o"]}' % k for k in range(lists - 1)]
    large = '{"name":"e","options":[%s]}' % ",".join('"o%d"' % k for k in range(options))
    return dictionary([], [*small, large])


def chain() -> bytes:
    """Two thousand facts, each one more than the next."""
    facts = ['{"path":"/f%d","derived":"Int","is":["Add",["Dependency","/f%d"],["Int","1"]]}' % (k, k + 1) for k in range(1, 2000)]
    return dictionary([*facts, '{"path":"/f2000","derived":"Int","is":["Int","1"]}'])


def crowd() -> bytes:
    """Two thousand facts, each a sum of nineteen of those behind it, the next one again behind the last."""
    def behind(k: int) -> str:
        return ",".join('["Dependency","/f%d"]' % (k + 1 + j % (2000 - k)) for j in range(19))

    facts = ['{"path":"/f%d","derived":"Int","is":["Add",%s]}' % (k, behind(k)) for k in range(1, 2000)]
    return dictionary([*facts, '{"path":"/f2000","derived":"Int","is":["Int","1"]}'])


def chain_to_itself() -> bytes:
    """Two thousand facts, each the next one, and the last itself."""
    return dictionary('{"path":"/f%d","derived":"Int","is":["Dependency","/f%d"]}' % (k, min(k + 1, 2000)) for k in range(1, 2001))


def accepted(name: str, of: bytes, facts: int, nodes: int) -> Made:
    return name, "check d", of, b"", b"dictionary accepted %d facts %d nodes\n" % (facts, nodes), 0


def refused(name: str, of: bytes, line: bytes) -> Made:
    return name, "check d", of, b"", b"dictionary refused " + line + b"\n", 1


def cases() -> Iterator[Made]:
    yield accepted("2,000 facts", booleans(2000), 2000, 0)
    yield refused("2,001 facts", booleans(2001), b"4 TooMany what 1")
    yield accepted("40,000 nodes", sums(1999), 20, 40000)
    yield refused("40,001 nodes", sums(2000), b"4 TooMany what 2")
    yield accepted("32 collections", collections(32), 32, 0)
    yield refused("33 collections", collections(33), b"4 TooMany what 3")
    yield accepted("200 lists of options, one of 100", enums(200, 100), 0, 0)
    yield refused("201 lists of options", enums(201, 100), b"4 TooMany what 4")
    yield refused("a list of 101 options", enums(200, 101), b"4 TooMany what 5")
    yield accepted("8 limits", limits(8), 1, 0)
    yield refused("9 limits", limits(9), b"4 TooMany what 6")
    yield accepted("48 nodes deep", nots(47), 1, 48)
    yield refused("49 nodes deep", nots(48), b"5 TooDeep fact 1")
    yield refused("128 brackets deep", b"[" * 128 + b"]" * 128, b"2 NotJson")
    yield accepted("8,388,608 bytes", AMOUNTS.ljust(LONGEST), 3, 3)
    yield refused("8,388,609 bytes", AMOUNTS.ljust(LONGEST + 1), b"1 TooLong")
    yield refused("an empty file", b"", b"2 NotJson")
    yield accepted("2,000 facts in a row", chain(), 2000, 5998)
    yield "2,000 facts in a row, run", "run d", chain(), b"get /f1\n", b"complete 2000\n", 0
    yield accepted("2,000 facts that each mention nineteen", crowd(), 2000, 1999 * 20 + 1)
    yield refused("2,000 facts in a row, of which the last mentions itself", chain_to_itself(), b"14 Cycle fact 2000")
