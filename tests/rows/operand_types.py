"""Each operation over each type of its operands: which have a type, and which are refused at their node. Those of version law-1 are
refused in the versions before it."""
from collections.abc import Iterable, Iterator

from stored_cases import Made

OPERANDS = {
    "Boolean": '["True"]',
    "Int": '["Int","1"]',
    "Dollar": '["Dollar","1"]',
    "Rational": '["Rational","1"]',
    "Day": '["Day","2000-01-01"]',
    "Text": '["Text","1"]',
    "Enum(n)": '["Enum","n","a"]',
    "Enum(m)": '["Enum","m","a"]',
}
ORDERED = ("Int", "Dollar", "Rational", "Day")


Pairs = dict[str, dict[tuple[str, str], str]]
Singles = dict[str, dict[str, str]]


def same(types: Iterable[str], of: str | None = None) -> dict[tuple[str, str], str]:
    """Two operands of one of the types, and what they give: that type where no other is told."""
    return {(kind, kind): of or kind for kind in types}


# of two operands
SUMS, EXTREMES = same(("Int", "Dollar", "Rational")), same(ORDERED)
EQUALITY, ORDER, TESTS = same(OPERANDS, "Boolean"), same(ORDERED, "Boolean"), same(["Boolean"])
PAIRS = {
    "Add": SUMS,
    "Subtract": SUMS,
    "Multiply": {
        ("Int", "Int"): "Int",
        ("Int", "Dollar"): "Dollar",
        ("Dollar", "Int"): "Dollar",
        ("Dollar", "Rational"): "Dollar",
        ("Rational", "Dollar"): "Dollar",
        ("Int", "Rational"): "Rational",
        ("Rational", "Int"): "Rational",
        ("Rational", "Rational"): "Rational",
    },
    "Divide": {
        ("Int", "Int"): "Rational",
        ("Rational", "Rational"): "Rational",
        ("Dollar", "Dollar"): "Rational",
        ("Dollar", "Int"): "Dollar",
        ("Dollar", "Rational"): "Dollar",
    },
    "AddDays": {("Day", "Int"): "Day"},
    "GreaterOf": EXTREMES,
    "LesserOf": EXTREMES,
    "Equal": EQUALITY,
    "NotEqual": EQUALITY,
    "GreaterThan": ORDER,
    "LessThan": ORDER,
    "GreaterThanOrEqual": ORDER,
    "LessThanOrEqual": ORDER,
    "All": TESTS,
    "Any": TESTS,
}

# those that version law-1 alone has
LATER, BETWEEN = {("Day", "Int"): "Day"}, {("Day", "Day"): "Int"}
MULTIPLES = {("Dollar", "Dollar"): "Dollar", ("Rational", "Dollar"): "Dollar"}
LAW_PAIRS = {
    "AddMonths": LATER,
    "AddYears": LATER,
    "DaysBetween": BETWEEN,
    "AgeOn": BETWEEN,
    "RoundUp": MULTIPLES,
    "RoundDown": MULTIPLES,
    "RoundNearest": MULTIPLES,
}
LAW_SINGLES = {"MonthOf": {"Day": "Int"}, "DayOf": {"Day": "Int"}}

# of one
EXTREME = {kind: kind for kind in ORDERED}
SINGLES = {
    "Add": {"Int": "Int", "Dollar": "Dollar"},
    "GreaterOf": EXTREME,
    "LesserOf": EXTREME,
    "All": {"Boolean": "Boolean"},
    "Any": {"Boolean": "Boolean"},
    "Not": {"Boolean": "Boolean"},
    "Round": {"Dollar": "Dollar"},
    "YearOf": {"Day": "Int"},
}

# what takes a condition: its type and its nodes
CONDITIONS = {
    '["Filter","/c",%s]': ("Collection(/c)", 2),
    '["Find","/c",%s]': ("Item(/c)", 2),
    '["Switch",["Case",%s,["Int","1"]]]': ("Int", 3),
}


def written(expression: str, kind: str, version: str) -> bytes:
    """A dictionary with the expression."""
    return (
        '{"version":"%s","enums":[{"name":"n","options":["a"]},{"name":"m","options":["a"]}],"facts":'
        '[{"path":"/c","writable":"Collection"},{"path":"/a","derived":"%s","is":%s}]}' % (version, kind, expression)
    ).encode()


def case(name: str, kind: str | None, nodes: int, expression: str, version: str = "1") -> Made:  # pylint: disable=too-many-arguments
    """An expression that has this type, or none."""
    text = b"dictionary accepted 2 facts %d nodes\n" % nodes if kind else b"dictionary refused 12 IllTyped fact 2 node 1\n"
    return name, "check d", written(expression, kind or "Boolean", version), b"", text, 0 if kind else 1


def misformed(name: str, expression: str, version: str) -> Made:
    """An expression that has no form in this version."""
    return name, "check d", written(expression, "Int", version), b"", b"dictionary refused 3 Shape fact 2\n", 1


def of_one_and_two(pairs: Pairs, singles: Singles, version: str) -> Iterator[Made]:
    """Operations over all types of operands."""
    for name, types in pairs.items():
        for a, first in OPERANDS.items():
            for b, second in OPERANDS.items():
                yield case(f"{name} of {a} and {b}", types.get((a, b)), 3, '["%s",%s,%s]' % (name, first, second), version)
    for name, gives in singles.items():
        for a, first in OPERANDS.items():
            yield case(f"{name} of {a}", gives.get(a), 2, '["%s",%s]' % (name, first), version)


def of_law() -> Iterator[Made]:
    """Operations of version law-1 in the versions before it, and over too few operands and too many."""
    counts = {**{name: 2 for name in LAW_PAIRS}, **{name: 1 for name in LAW_SINGLES}}
    for name, count in counts.items():
        for operands in range(4):
            expression = '["%s"%s]' % (name, "".join(f",{OPERANDS['Day']}" for _ in range(operands)))
            for version in ("1", "2") if operands == count else ("law-1",):
                yield misformed(f"{name} of {operands} operands in version {version}", expression, version)


def cases() -> Iterator[Made]:
    yield from of_one_and_two(PAIRS, SINGLES, "1")
    yield from of_one_and_two(LAW_PAIRS, LAW_SINGLES, "law-1")
    yield from of_law()
    for form, (kind, nodes) in CONDITIONS.items():
        for a, first in OPERANDS.items():
            yield case(form % a, kind if a == "Boolean" else None, nodes, form % first)
