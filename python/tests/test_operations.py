"""Each operation over random operands: the engine comes to what exact arithmetic does, rounded once, or to its fault."""

from __future__ import annotations

import json
from datetime import date
from fractions import Fraction
from typing import Any

from hypothesis import example, given
from hypothesis import strategies as st
from oracle.session import Session as Plain
from oracle.values import FIRST_DAY, LAST_DAY, MOST, MOST_OF_RATIONAL, Content, Value

from fact_graph import Session
from fact_graph.expressions import LAW

TYPES = ("Int", "Dollar", "Rational", "Day")
ORDERS = ("Equal", "NotEqual", "LessThan", "LessThanOrEqual", "GreaterThan", "GreaterThanOrEqual")
# By a node, the types of its operands and of what it gives.
NODES = [
    *((node, (kind, kind), "Boolean") for node in ORDERS for kind in TYPES),
    *((node, (kind, kind), kind) for node in ("GreaterOf", "LesserOf") for kind in TYPES),
    *((node, (kind, kind), kind) for node in ("Add", "Subtract") for kind in ("Int", "Dollar", "Rational")),
    *(("Multiply", (one, other), kind) for one, other, kind in (("Int", "Int", "Int"), ("Int", "Dollar", "Dollar"), ("Dollar", "Int", "Dollar"))),
    *(("Multiply", (one, "Rational"), kind) for one, kind in (("Int", "Rational"), ("Dollar", "Dollar"), ("Rational", "Rational"))),
    *(("Multiply", ("Rational", one), kind) for one, kind in (("Int", "Rational"), ("Dollar", "Dollar"))),
    *(("Divide", (one, other), kind) for one, other, kind in (("Int", "Int", "Rational"), ("Dollar", "Int", "Dollar"), ("Dollar", "Rational", "Dollar"))),
    *(("Divide", (kind, kind), "Rational") for kind in ("Rational", "Dollar")),
    ("Round", ("Dollar",), "Dollar"),
    *((node, (kind, "Dollar"), "Dollar") for node in ("RoundUp", "RoundDown", "RoundNearest") for kind in ("Dollar", "Rational")),
    *((node, ("Day",), "Int") for node in ("YearOf", "MonthOf", "DayOf")),
    *((node, ("Day", "Day"), "Int") for node in ("DaysBetween", "AgeOn")),
    *((node, ("Day", "Int"), "Day") for node in ("AddDays", "AddMonths", "AddYears")),
]
KEYED_BY = ("Int", "Dollar", "Day")
SLOTS = [f"/{name}{kind}" for kind in TYPES for name in ("a", "b")]
DICTIONARY = json.dumps(
    {
        "version": LAW,
        "facts": [
            *({"path": path, "writable": path[2:]} for path in SLOTS),
            *(
                {"path": f"/n{number}", "derived": kind, "is": [node, *(["Dependency", f"/{'ab'[at]}{operand}"] for at, operand in enumerate(operands))]}
                for number, (node, operands, kind) in enumerate(NODES)
            ),
        ],
    }
)


def numbers(most: int) -> st.SearchStrategy[int]:
    """Whole numbers: small ones, those near the ends, and any."""
    return st.integers(-20, 20) | st.integers(-most, most) | st.sampled_from((-most, 1 - most, most - 1, most))


WHOLE = numbers(MOST)
RATIOS = st.builds(Fraction, numbers(MOST_OF_RATIONAL), st.integers(1, 20) | st.integers(1, MOST_OF_RATIONAL))
DAYS = st.dates(FIRST_DAY, LAST_DAY)
OPERANDS = st.tuples(WHOLE, WHOLE, WHOLE, WHOLE, RATIOS, RATIOS, DAYS, DAYS)


@given(OPERANDS)
@example((3, 2, 1, -1, Fraction(1, 2), Fraction(-1, 2), date(2000, 2, 29), date(2000, 2, 29)))
@example((-3, 0, -350, 250, Fraction(0), Fraction(1, 3), LAST_DAY, FIRST_DAY))
@example((12, 1, 1250, 500, Fraction(25, 2), Fraction(1, 2), date(2000, 2, 29), date(2018, 2, 28)))
@example((1, 18, -1250, 500, Fraction(-25, 2), Fraction(1, 2), date(2024, 1, 31), date(2000, 2, 29)))
def test_the_engine_and_exact_arithmetic_agree(operands: tuple[Content, ...]) -> None:
    plain = Plain(DICTIONARY)
    with Session(DICTIONARY) as session:
        for slot, operand in zip(SLOTS, operands):
            line = f"set {slot} {Value(slot[2:], operand)}"
            assert session.line(line) == plain.line(line.encode()) == "ok\n"
        for number, node in enumerate(NODES):
            assert session.line(f"get /n{number}") == plain.line(f"get /n{number}".encode()), node


def tabled(kind: str, keys: list[Content]) -> str:
    """A dictionary with a table of these keys, each with the number of its row."""
    rows = [[str(Value(kind, key)), str(row)] for row, key in enumerate(keys, 1)]
    facts = [{"path": "/key", "writable": kind}, {"path": "/row", "derived": "Int", "is": ["Lookup", "t", ["Dependency", "/key"]]}]
    return json.dumps({"version": LAW, "tables": [{"name": "t", "from": kind, "to": "Int", "rows": rows, "else": "0"}], "facts": facts})


@given(st.sampled_from(KEYED_BY), st.data())
def test_the_last_row_whose_key_is_at_most_what_is_asked_for(kind: str, data: st.DataObject) -> None:
    values: st.SearchStrategy[Any] = DAYS if kind == "Day" else WHOLE
    keys = sorted(data.draw(st.sets(values, max_size=40)))
    dictionary = tabled(kind, keys)
    plain = Plain(dictionary)
    with Session(dictionary) as session:
        for asked in [*keys, *data.draw(st.lists(values, max_size=20))]:
            session["/key"] = str(Value(kind, asked))
            plain.line(f"set /key {Value(kind, asked)}".encode())
            row = max((row for row, key in enumerate(keys, 1) if key <= asked), default=0)
            assert session.line("get /row") == plain.line(b"get /row") == f"complete {row}\n"
