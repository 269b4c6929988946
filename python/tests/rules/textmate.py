"""The part of TextMate's grammars that the one of rules uses: matches with captures, and spans from a begin to an end."""

from __future__ import annotations

import json
import re
from collections.abc import Iterator
from pathlib import Path
from typing import Any, NamedTuple


class Scoped(NamedTuple):
    """A piece of a text with the name of its scope, from one character up to another."""

    start: int
    end: int
    scope: str


class TextMate:
    """A grammar."""

    def __init__(self, path: Path) -> None:
        grammar = json.loads(path.read_bytes())
        self.rules: list[dict[str, Any]] = grammar["patterns"]
        for rule in self.rules:
            unknown = set(rule) - {"name", "match", "captures", "begin", "end", "patterns"}
            assert not unknown, f"this reader knows no {unknown}"

    def scopes(self, text: str) -> Iterator[Scoped]:
        """The pieces of a text that have scopes, line by line, as an editor finds them."""
        start = 0
        for line in text.splitlines(keepends=True):
            for it in self._line(line.rstrip("\n")):
                yield Scoped(start + it.start, start + it.end, it.scope)
            start += len(line)

    def _line(self, line: str) -> Iterator[Scoped]:
        at = 0
        while at < len(line):
            found = [(match, rule) for rule in self.rules if (match := re.compile(rule.get("match", rule.get("begin"))).search(line, at))]
            if not found:
                return
            match, rule = min(found, key=lambda it: it[0].start())
            at = match.end()
            if "begin" in rule:
                at = self._end(rule, line, at)
            yield from self._named(rule, match, at)

    @staticmethod
    def _end(rule: dict[str, Any], line: str, at: int) -> int:
        """Where what begins so ends, once what may stand within is passed."""
        while True:
            end = re.compile(rule["end"]).search(line, at)
            assert end, "an end of the line ends it at last"
            within = [match for inner in rule["patterns"] if (match := re.compile(inner["match"]).search(line, at))]
            first = min(within, key=lambda it: it.start(), default=None)
            if first is None or first.start() >= end.start():
                return end.end()
            at = first.end()

    @staticmethod
    def _named(rule: dict[str, Any], match: re.Match[str], end: int) -> Iterator[Scoped]:
        if "name" in rule:
            yield Scoped(match.start(), end, rule["name"])
        for number, capture in rule.get("captures", {}).items():
            yield Scoped(*match.span(int(number)), capture["name"])
