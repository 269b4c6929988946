"""Random dictionaries that are accepted, each with random answers."""

from __future__ import annotations

import json
from collections.abc import Callable, Iterator
from typing import Any, NamedTuple

from hypothesis import strategies as st

from .dictionaries import VALUES, dictionaries


class Interview(NamedTuple):
    """A dictionary, and the lines of a script that answer it, as far as they aren't refused."""

    dictionary: bytes
    lines: list[str]


@st.composite
def interviews(draw: Callable[..., Any]) -> Interview:
    """A dictionary with answers to most of what it asks."""
    text = draw(dictionaries())
    return Interview(text.encode(), list(_lines(draw, json.loads(text)["facts"])))


def _lines(draw: Callable[..., Any], facts: list[dict[str, Any]]) -> Iterator[str]:
    members: dict[str, list[int]] = {}
    for fact in facts:
        if fact.get("writable") == "Collection":
            before = sum(map(len, members.values()))
            members[fact["path"]] = [before + at for at in range(1, draw(st.integers(0, 3)) + 1)]
            yield from [f"add {fact['path']}"] * len(members[fact["path"]]) or [f"open {fact['path']}"] * draw(st.integers(0, 1))
    for fact in facts:
        if fact.get("writable") in VALUES:
            front, star, name = fact["path"].partition("/*/")
            for slot in [f"{front}/#{at}/{name}" for at in members[front]] if star else [front]:
                if draw(st.integers(0, 5)):
                    yield f"set {slot} {draw(st.sampled_from(VALUES[fact['writable']]))}"
