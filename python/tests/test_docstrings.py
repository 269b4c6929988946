"""Each public name of the package has a docstring with an example, which runs where the modules themselves are tested."""

from __future__ import annotations

import inspect
from collections.abc import Iterator

import pytest

import fact_graph

# Names of types and of a text, which can have no docstring.
PLAIN = {"Answer", "Kind", "Value", "__version__"}
OPERATORS = {"__getitem__", "__setitem__", "__delitem__", "__contains__", "__iter__"}


def documented() -> Iterator[tuple[str, object]]:
    """The public names and those of their own members."""
    for name in sorted(set(fact_graph.__all__) - PLAIN):
        public = getattr(fact_graph, name)
        yield name, public
        for member, value in vars(public).items():
            is_call = inspect.isroutine(value) or isinstance(value, property)
            if is_call and (member in OPERATORS or not member.startswith("_")):
                yield f"{name}.{member}", value


@pytest.mark.parametrize("value", [pytest.param(value, id=name) for name, value in documented()])
def test_it_has_an_example(value: object) -> None:
    assert ">>> " in (inspect.getdoc(value) or "")
