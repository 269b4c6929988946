"""What a dictionary and its maker say of a page, as the page reads it.

Beside a dictionary `NAME.json` a file `NAME.page` may say what the page shows, and `NAME.es.page` its words in another language:
service/README.md has the keys. The rules of a tax year come with a page of their own.
"""

from __future__ import annotations

import json
from collections.abc import Iterator
from pathlib import Path
from typing import Any

from fact_graph import Fact, Session
from fact_graph.built_in import is_built_in, text_of
from fact_graph.graph import facts
from fact_graph.page import CHOICES, Beside, misstated, page_beside, words_of

LANGUAGES = CHOICES["language"]


class FormWrong(ValueError):
    """What the maker says of the page isn't right, in words for the maker."""


class Form:
    """A dictionary, and the page over it."""

    def __init__(self, dictionary: bytes, pages: dict[str, dict[str, Any]] | None = None) -> None:
        self.text = dictionary
        with Session(dictionary) as session:  # a dictionary with a fault ends here
            self.dictionary = session.dictionary
        self._pages = pages or {"en": {}}
        self._page = next(iter(self._pages.values()))
        self._mentions = {path: list(drawn.rests_on) for path, drawn in facts(dictionary).items()}
        self._groups = self._page.get("groups", {})
        stated = [{"groups": self._groups, **page} for page in self._pages.values()]
        wrong = [": ".join([".".join(map(str, it.pointer)), it.reason]) for page in stated for it in misstated(page, self.dictionary)]
        if wrong:
            raise FormWrong("; ".join(wrong))

    @classmethod
    def open(cls, name: str | Path) -> Form:
        """Of the rules that a name stands for, as `year 2023` or a file of JSON or of rules as people read them, and what is said of
        their page."""
        return cls(_dictionary(str(name)), pages_of(str(name)))

    def described(self) -> dict[str, Any]:
        """All that the page needs to know of the form."""
        return {
            "layout": self._page.get("layout", "all"),
            "figures": self._figures(),
            "questions": self._questions(),
            "groups": list(self._groups.items()),
            "facts": {path: self._fact(self.dictionary.facts[path]) for path in self._ordered()},
            "languages": {language: self._words(page) for language, page in self._pages.items()},
        }

    def _figures(self) -> list[str]:
        """The facts that are shown: what the maker says, or the derived facts that no other fact mentions."""
        return list(self._page.get("figures") or [fact.path for fact in self._unmentioned() if not fact.is_writable])

    def _questions(self) -> list[str]:
        """The facts that are asked for whatever the figures want: those of the maker, or the writable ones that nothing mentions."""
        if "figures" in self._page or "questions" in self._page:
            return list(self._page.get("questions", []))
        return [fact.path for fact in self._unmentioned() if fact.is_writable]

    def _ordered(self) -> Iterator[str]:
        """The paths of all facts, in the order in which they are asked for: those of the groups first."""
        grouped = [path for paths in self._groups.values() for path in paths]
        yield from grouped
        yield from (path for path in self.dictionary.facts if path not in grouped)

    def _unmentioned(self) -> Iterator[Fact]:
        mentioned = {path for paths in self._mentions.values() for path in paths}
        return (fact for fact in self.dictionary.facts.values() if fact.path not in mentioned)

    def _fact(self, fact: Fact) -> dict[str, Any]:
        """What the page needs to make a field of a fact, or to show it."""
        return {
            "type": fact.type.name,
            "of": fact.path if fact.type == ("Collection", None) else fact.type.of,
            "collection": fact.collection,
            "isWritable": fact.is_writable,
            "hasPlaceholder": fact.has_placeholder,
            "purpose": self._page.get("purposes", {}).get(fact.path, ""),
            "limits": [list(limit) for limit in fact.limits],
            "mentions": self._mentions[fact.path],
            **({"options": list(self.dictionary.options[fact.type.of])} if fact.type.name == "Enum" and fact.type.of else {}),
        }

    def _words(self, page: dict[str, Any]) -> dict[str, Any]:
        """The words of the form in a language."""
        labels, helps, sources = page.get("labels", {}), page.get("help", {}), page.get("sources", {})
        facts = {
            fact.path: {
                "label": labels.get(fact.path) or words_of(fact.path.split("/")[-1]),
                "help": helps.get(fact.path, fact.description),
                "source": sources.get(fact.path, ""),
            }
            for fact in self.dictionary.facts.values()
        }
        named = page.get("options", {})
        return {
            "title": page.get("title") or self.dictionary.description or "Interview",
            "introduction": page.get("introduction", []),
            "headings": {name: page.get("headings", {}).get(name) or words_of(name) for name in self._groups},
            "facts": facts,
            "members": {path: label for path, label in labels.items() if path.endswith("/*")},
            "options": {
                name: {option: named.get(name, {}).get(option) or words_of(option) for option in options}
                for name, options in self.dictionary.options.items()
            },
        }


def pages_of(name: str) -> dict[str, dict[str, Any]]:
    """What is said of the page of the rules of a name, by language. Raises `FormWrong`."""
    pages = {}
    base = page_beside(name)
    if base:
        page = _read(base)
        pages[page.get("language", "en")] = page
    for language in LANGUAGES:
        other = page_beside(name, language)
        if other:
            pages[language] = _read(other)
    return pages


def _dictionary(name: str) -> bytes:
    """The JSON of the rules that a name stands for."""
    if is_built_in(name):
        return text_of(name)
    text = Path(name).read_bytes()
    if not name.endswith(".facts"):
        return text
    from fact_graph.rules import NotRules, parse  # pylint: disable=import-outside-toplevel # JSON is read without the parser

    try:
        return parse(text.decode()).json
    except (NotRules, UnicodeDecodeError) as wrong:
        raise FormWrong(f"{name}: {wrong}") from wrong


def _read(beside: Beside) -> dict[str, Any]:
    try:
        page = json.loads(beside.text)
    except ValueError as wrong:
        raise FormWrong(f"{beside}: {wrong}") from wrong
    if not isinstance(page, dict):
        raise FormWrong(f"{beside} is no object")
    return page
