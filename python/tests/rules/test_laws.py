"""The laws between rules as text and the JSON of their dictionaries."""

from __future__ import annotations

import json
import re
from pathlib import Path
from random import Random
from typing import Any

import pytest
from hypothesis import given, settings
from hypothesis import strategies as st

from fact_graph import built_in
from fact_graph.rules import NotRules, formatted, parse, text_of

from ..dictionaries import dictionaries as accepted
from ..places import TOP
from ..test_built_in import FACTS
from .random_forms import Forms

STORED = sorted([*(TOP / "examples").rglob("*.json"), *(TOP / "tests" / "dictionaries").glob("*.json")])
WRITTEN = sorted((TOP / "examples").rglob("*.facts"))
REMARKS = ["a remark", 'say "x"', "`", "/a = 1"]
WORD = re.compile(r'"(?:[^"\\]|\\.)*"|`(?:[^`\\]|\\.)*`|#.*|[^\s"`]+')


def name_of(path: Path) -> str:
    """A file's name below the top."""
    return str(path.relative_to(TOP))


def without_empty(dictionary: dict[str, Any]) -> dict[str, Any]:
    """A dictionary without its empty lists of limits and of options, which mean what is meant where there is none."""
    facts = [{key: value for key, value in fact.items() if value != []} for fact in dictionary["facts"]]
    return {key: value for key, value in dictionary.items() if value != []} | {"facts": facts}


def holds(dictionary: dict[str, Any]) -> None:
    """A dictionary's text says that dictionary, and has its form."""
    text = text_of(dictionary)
    read = parse(text)
    assert read.value == without_empty(dictionary)
    assert json.loads(read.json) == read.value
    assert text_of(read.value) == text
    assert formatted(text) == text


@pytest.mark.parametrize("path", STORED, ids=name_of)
def test_stored_dictionaries(path: Path) -> None:
    """The laws hold of each dictionary that is stored here."""
    holds(json.loads(path.read_bytes()))


@pytest.mark.parametrize("words", FACTS)
def test_dictionaries_that_come_along(words: str) -> None:
    """They hold of the rules of the tax years."""
    holds(json.loads(built_in.text_of(words)))


@settings(max_examples=1_000, deadline=None)
@given(accepted())
def test_accepted_dictionaries(dictionary: str) -> None:
    """They hold of random dictionaries that are accepted."""
    holds(json.loads(dictionary))


@settings(max_examples=10_000, deadline=None)
@given(st.randoms(use_true_random=True))
def test_forms(random: Random) -> None:
    """They hold of random dictionaries that have the form of one, and else any fault."""
    holds(Forms(random).dictionary())


@pytest.mark.parametrize("path", WRITTEN, ids=name_of)
def test_examples_are_written(path: Path) -> None:
    """The JSON beside each example is that of its text, and the text has its form."""
    text = path.read_text()
    assert formatted(text) == text
    assert path.with_suffix(".json").read_bytes() == parse(text).json


def test_each_example_is_written() -> None:
    """Each example of JSON stands there as text, too."""
    assert [path.with_suffix(".facts") for path in STORED if "examples" in path.parts] == WRITTEN


class Remarking:
    """Puts comments behind words of a text, and on lines of their own."""

    def __init__(self, random: Random) -> None:
        self.random = random
        self.comments: list[str] = []

    def comment(self) -> str:
        """Another comment."""
        self.comments.append(f"# {len(self.comments)}: {self.random.choice(REMARKS)}")
        return self.comments[-1]

    def text(self, text: str) -> str:
        """The text with some comments."""
        out: list[str] = []
        for line in text.split("\n"):
            if self.random.random() < 0.2:
                out.append((self.random.choice(["", "  ", "      "]) if out else "") + self.comment())
            words = list(WORD.finditer(line))
            if words and self.random.random() < 0.3:
                cut = self.random.choice(words).end()
                indent, rest = " " * self.random.randint(1, 4), line[cut:].strip()
                out += [line[:cut] + self.random.choice(["  ", f"\n{indent}"]) + self.comment(), *([indent + rest] if rest else [])]
            else:
                out.append(line)
        return "\n".join(out)


@settings(max_examples=1_000, deadline=None)
@given(st.randoms(use_true_random=True))
def test_comments_are_kept(random: Random) -> None:
    """Each comment is kept once, wherever it stands, and the form of the text is its own form."""
    remarking = Remarking(random)
    bare = text_of(Forms(random).dictionary()) if random.random() < 0.7 else random.choice(WRITTEN).read_text()
    text = remarking.text(bare)
    assert parse(text).value == parse(bare).value
    form = formatted(text)
    assert parse(form).value == parse(bare).value
    assert [it for it in remarking.comments if form.count(it) != text.count(it)] == []
    assert formatted(form) == form


PIECES = ["", " ", "\n", "\n  ", "(", ")", '"', "`", "#", "=", ",", "/", "-", "$", "%", " is ", " and ", " if ", "x", "1", "\\", "\t", "é", "\x00"]


def changed(text: str, random: Random) -> str:
    """A text in which a few pieces are taken out and others put in."""
    for _ in range(random.randint(1, 3)):
        at = random.randint(0, len(text))
        text = text[:at] + random.choice(PIECES) + text[at + random.randint(0, 3) :]
    return text


@settings(max_examples=1_000, deadline=None)
@given(st.randoms(use_true_random=True))
def test_any_text_is_read_or_told(random: Random) -> None:
    """A text is either one of rules, and then has its form, or it is told where it isn't, at a place that it has."""
    text = changed(random.choice(WRITTEN).read_text(), random)
    try:
        rules = parse(text)
    except NotRules as wrong:
        lines = text.split("\n")
        assert wrong.faults
        assert all(place.line <= len(lines) and place.column <= len(lines[place.line - 1]) + 1 and reason for place, reason in wrong.faults)
    else:
        form = formatted(text)
        assert parse(form).value == rules.value
        assert formatted(form) == form
