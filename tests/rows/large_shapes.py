"""Dictionaries at the limits of what is read, and past them by one."""
from collections.abc import Iterable

from stored_cases import Made

FACT = '{"path":"/a","writable":"Int"}'


def dictionary(facts: Iterable[str], enums: Iterable[str] = ()) -> bytes:
    return ('{"version":"2","enums":[%s],"facts":[%s]}' % (",".join(enums), ",".join(facts))).encode()


def writable(count: int, kind: str = "Int") -> list[str]:
    return ['{"path":"/f%d","writable":"%s"}' % (k, kind) for k in range(count)]


def wide(nodes: int) -> str:
    """An expression of so many nodes."""
    return '["All",%s]' % ",".join(['["True"]'] * (nodes - 1))


def deep(depth: int) -> str:
    """An expression so deep."""
    return '["Not",' * (depth - 1) + '["True"]' + "]" * (depth - 1)


def switched(depth: int) -> str:
    """An expression so deep, of Switches: a Case is no node."""
    return '["Switch",["Case",["True"],' * (depth - 1) + '["True"]' + "]]" * (depth - 1)


def of_nodes(last: int) -> bytes:
    """So many nodes more than 38,000, of which the last are those of a placeholder."""
    facts = ['{"path":"/f%d","derived":"Boolean","is":%s}' % (k, wide(2000)) for k in range(19)]
    return dictionary([*facts, '{"path":"/p","writable":"Boolean","placeholder":%s}' % wide(last)])


def of_lists(count: int) -> bytes:
    return dictionary([FACT], ['{"name":"n%d","options":["a"]}' % k for k in range(count)])


def of_options(count: int) -> bytes:
    return dictionary([FACT], ['{"name":"n","options":[%s]}' % ",".join('"o%d"' % k for k in range(count))])


def of_limits(count: int) -> bytes:
    limits = ",".join(['["Check","digits"]'] * count)
    return dictionary([FACT, '{"path":"/b","writable":"Text","limits":[%s]}' % limits])


def of_bytes(count: int) -> bytes:
    front, back = b'{"version":"1","facts":[],"description":"', b'"}'
    return front + b"x" * (count - len(front) - len(back)) + back


# The expressions of a fact, and how many nodes stand in the others.
PLACES = [
    ("a main expression", '{"path":"/b","derived":"Boolean","is":%s}', 0),
    ("the test of a conditional", '{"path":"/b","derived":"Boolean","is":["True"],"conditional":[%s,["True"]]}', 2),
    ("the value of a conditional", '{"path":"/b","derived":"Boolean","is":["True"],"conditional":[["True"],%s]}', 2),
    ("a placeholder", '{"path":"/b","writable":"Boolean","placeholder":%s}', 0),
]


# Facts with a fault each: that of each is to be named before those of the facts above it.
LADDER = [
    ('{"path":"/a","derived":"Int","is":["Dependency","/a"]}', b"14 Cycle fact 1"),
    ('{"path":"/b","writable":"Int","limits":[["Min","x"]]}', b"13 BadLimit fact 2"),
    ('{"path":"/d","derived":"Int","is":["Int","x"]}', b"12 IllTyped fact 3 node 1"),
    ('{"path":"/e","writable":"Text","limits":[["Check","x"]]}', b"11 UnknownCheck fact 4"),
    ('{"path":"/f","derived":"Int","is":["Dependency","x"]}', b"10 WrongPlace fact 5"),
    ('{"path":"/g","derived":"Int","is":["Dependency","/x"]}', b"9 UnknownPath fact 6"),
    ('{"path":"/x/*/h","writable":"Int"}', b"8 NoCollection fact 7"),
    ('{"path":"/a","writable":"Int"}', b"7 DuplicatePath fact 8"),
    ('{"path":"i","writable":"Int"}', b"6 BadPath fact 9"),
    ('{"path":"/j","derived":"Boolean","is":%s}' % deep(49), b"5 TooDeep fact 10"),
    ('{"path":"/k","writable":"Text","limits":[%s]}' % ",".join(['["Check","digits"]'] * 9), b"4 TooMany what 6"),
    ("{}", b"3 Shape fact 12"),
]


def accepted(name: str, of: bytes, facts: int, nodes: int) -> Made:
    return name, "check d", of, b"", b"dictionary accepted %d facts %d nodes\n" % (facts, nodes), 0


def refused(name: str, of: bytes, line: bytes) -> Made:
    return name, "check d", of, b"", b"dictionary refused " + line + b"\n", 1


def cases() -> list[Made]:
    too_deep = PLACES[0][1] % deep(49)
    found = [
        refused("no bytes are no JSON", b"", b"2 NotJson"),
        accepted("2,000 facts", dictionary(writable(2000)), 2000, 0),
        refused("2,001 facts", dictionary(writable(2001)), b"4 TooMany what 1"),
        accepted("40,000 nodes", of_nodes(2000), 20, 40000),
        refused("40,001 nodes", of_nodes(2001), b"4 TooMany what 2"),
        accepted("32 collections", dictionary([FACT, *writable(32, "Collection")]), 33, 0),
        refused("33 collections", dictionary([FACT, *writable(33, "Collection")]), b"4 TooMany what 3"),
        accepted("200 enums", of_lists(200), 1, 0),
        refused("201 enums", of_lists(201), b"4 TooMany what 4"),
        accepted("100 options", of_options(100), 1, 0),
        refused("101 options", of_options(101), b"4 TooMany what 5"),
        accepted("8 limits", of_limits(8), 2, 0),
        refused("9 limits", of_limits(9), b"4 TooMany what 6"),
        accepted("8,388,608 bytes", of_bytes(8_388_608), 0, 0),
        refused("8,388,609 bytes", of_bytes(8_388_609), b"1 TooLong"),
        refused("127 arrays in each other", b"[" * 127 + b"]" * 127, b"3 Shape fact 0"),
        refused("128 arrays in each other", b"[" * 128 + b"]" * 128, b"2 NotJson"),
        refused("a wrong shape before too many", dictionary([FACT, "{}", *writable(1999)]), b"3 Shape fact 2"),
        refused("too many before too deep", dictionary([FACT, too_deep, *writable(1999)]), b"4 TooMany what 1"),
        refused("too many facts before too many collections", dictionary([FACT, FACT, *writable(1999, "Collection")]), b"4 TooMany what 1"),
        refused("a wrong shape before too deep", dictionary([FACT, too_deep, "{}"]), b"3 Shape fact 3"),
    ]
    for where, form, others in PLACES:
        found.append(accepted("depth 48 in " + where, dictionary([FACT, form % deep(48)]), 2, 48 + others))
        found.append(refused("depth 49 in " + where, dictionary([FACT, form % deep(49)]), b"5 TooDeep fact 2"))
    found.append(accepted("depth 48 of Switches", dictionary([FACT, PLACES[2][1] % switched(48)]), 2, 97))
    found.append(refused("depth 49 of Switches", dictionary([FACT, PLACES[2][1] % switched(49)]), b"5 TooDeep fact 2"))
    facts = [fact for fact, _ in LADDER]
    for count, (_, line) in enumerate(LADDER, 1):
        found.append(refused(f"the first of {count} faults", dictionary(facts[:count]), line))
    found.append(refused("what is no JSON comes before all other faults", dictionary(facts)[:-1], b"2 NotJson"))
    found.append(refused("a byte behind the dictionary", dictionary([FACT]) + b"x", b"2 NotJson"))
    found.append(refused("a description that isn't UTF-8", b'{"version":"1","facts":[],"description":"\xff"}', b"2 NotJson"))
    return found
