"""What a maker says of an interview's page: its title, which figures it shows, and the words by which it asks.

Beside the rules in `NAME.json` a file `NAME.page` says so, and so does a file of the package for the rules that come with it. Where
there is none, or it is silent, the figures are the derived facts on which no other rests, and the words are made of the facts' names.

    >>> page = Page("Help with the bill", ("/help",), {"/help": "Amount of help"}, {})
    >>> page.label("/help"), page.label("/people/#2/bornOn")
    ('Amount of help', 'Born on')
"""

from __future__ import annotations

import json
import re
from collections.abc import Iterable, Iterator
from pathlib import Path
from typing import Any, NamedTuple

from .built_in import is_built_in, page_of
from .dictionary import Dictionary, Fact, path_of
from .faults.finding import listed, nearest, shown
from .graph import facts, figures
from .located import Pointer

KEYS = ("title", "introduction", "language", "layout", "figures", "questions", "groups", "headings", "purposes", "labels", "help", "sources", "options")
CHOICES = {"language": ("en", "es"), "layout": ("all", "one")}
"""What is one of a few words."""
PURPOSES = {
    "Day": ("bday",),
    "Text": (
        "name", "given-name", "additional-name", "family-name", "organization", "organization-title", "address-line1", "address-line2",
        "address-level2", "address-level1", "postal-code", "country-name", "email", "tel",
    ),
}  # fmt: skip
"""What a question may ask of the person who answers, by its type, in the words by which browsers fill it in."""


class Page(NamedTuple):
    """A title, the paths of the figures, labels by path, where that of `/people/*` is the word for a member of `/people`, and what stands
    below them."""

    title: str
    figures: tuple[str, ...]
    labels: dict[str, str]
    helps: dict[str, str]

    @classmethod
    def over(cls, text: bytes, stated: dict[str, Any]) -> Page:
        """That of a dictionary, with what is stated of it."""
        title = stated.get("title") or json.loads(text).get("description") or "Interview"
        return cls(title, tuple(stated.get("figures") or figures(facts(text))), stated.get("labels", {}), stated.get("help", {}))

    def label(self, slot: str) -> str:
        """The words for a slot."""
        path = path_of(slot)
        return self.labels.get(path) or words_of(path.rpartition("/")[2])

    def help(self, fact: Fact) -> str:
        """What stands below the label of a fact: what is said of it, or its description."""
        return self.helps.get(fact.path, fact.description)

    def member(self, collection: str) -> str:
        """The word for a member of a collection."""
        return self.labels.get(f"{collection}/*") or f"Member of {words_of(collection[1:]).lower()}"


class Beside(NamedTuple):
    """The text of a page, and the name by which its maker knows it."""

    name: str
    text: bytes

    def __str__(self) -> str:
        return self.name


def page_beside(name: str, language: str = "") -> Beside | None:
    """The page beside the rules of a name, or of those that come along, where there is one; in a language its words alone.

    >>> print(page_beside("screener.json", "es"), page_beside("year 2024"), sep="; ")
    screener.es.page; the page of year 2024
    """
    if is_built_in(name):
        text = page_of(name, language)
        return Beside(f"the page of {name}", text) if text is not None else None
    if name == "-":
        return None
    path = Path(name).with_suffix(f".{language}.page" if language else ".page")
    return Beside(str(path), path.read_bytes()) if path.is_file() else None


def words_of(name: str) -> str:
    """A name as words.

    >>> words_of("bornOn")
    'Born on'
    """
    words = re.sub(r"[_-]+|(?<=[a-z0-9])(?=[A-Z])", " ", name).split()
    return " ".join(word if word.isupper() else word.lower() for word in words).capitalize()


class Misstated(NamedTuple):
    """What is wrong with a page, and where."""

    pointer: Pointer
    reason: str
    hint: str = ""
    is_key: bool = False


def misstated(stated: Any, dictionary: Dictionary) -> Iterator[Misstated]:
    """What is wrong with what is stated of a page over a dictionary.

    >>> nothing = Dictionary({}, {}, "", {})
    >>> [(it.reason, it.hint) for it in misstated({"titel": "Help"}, nothing)]
    [('a page has no key `titel`', '`title` is like it')]
    """
    if not isinstance(stated, dict):
        yield Misstated((), f"a page is an object in braces, and this is {shown(stated)}")
        return
    for key in stated:
        if key not in KEYS:
            like = nearest(key, KEYS)
            yield Misstated((key,), f"a page has no key `{key}`", f"`{like}` is like it" if like else f"it has {listed(KEYS, 'and')}", True)
    if not isinstance(stated.get("title", ""), str):
        yield Misstated(("title",), "a title is a text")
    if not _is_list_of_texts(stated.get("introduction", [])):
        yield Misstated(("introduction",), "an introduction is a list of texts, one for each paragraph")
    for key, words in CHOICES.items():
        if stated.get(key, words[0]) not in words:
            yield Misstated((key,), f"the {key} is {listed(words, 'or')}, and not {shown(stated[key])}")
    for key in ("figures", "questions"):
        yield from _paths((key,), stated.get(key, []), dictionary)
    groups = stated.get("groups", {})
    yield from _groups(groups, dictionary)
    yield from _texts(("headings",), stated.get("headings", {}), "group", groups if isinstance(groups, dict) else {})
    members = [f"{path}/*" for path, fact in dictionary.facts.items() if fact.type == ("Collection", None)]
    others: dict[str, list[str]] = {"labels": members, "help": [], "sources": []}
    for key, more in others.items():
        yield from _texts((key,), stated.get(key, {}), "fact", [*dictionary.facts, *more])
    yield from _purposes(stated.get("purposes", {}), dictionary)
    yield from _options(stated.get("options", {}), dictionary)


def _is_list_of_texts(stated: Any) -> bool:
    return isinstance(stated, list) and all(isinstance(text, str) for text in stated)


def _paths(at: Pointer, stated: Any, dictionary: Dictionary) -> Iterator[Misstated]:
    if not isinstance(stated, list):
        yield Misstated(at, f"the {at[0]} are a list of paths" if len(at) == 1 else "a group is a list of paths")
        return
    for number, path in enumerate(stated):
        if not isinstance(path, str) or path not in dictionary.facts:
            yield Misstated((*at, number), f"there is no fact {shown(path)}", _like(path, dictionary.facts))


def _groups(stated: Any, dictionary: Dictionary) -> Iterator[Misstated]:
    """What is wrong with the groups of questions."""
    if not isinstance(stated, dict):
        yield Misstated(("groups",), "the groups are an object of lists of paths by group")
        return
    seen: set[str] = set()
    for name, paths in stated.items():
        yield from _paths(("groups", name), paths, dictionary)
        for number, path in enumerate(paths if _is_list_of_texts(paths) else []):
            reason = _why_not_in_group(dictionary.facts.get(path), path in seen)
            if reason:
                yield Misstated(("groups", name, number), f"{shown(path)} {reason}")
            seen.add(path)


def _why_not_in_group(fact: Fact | None, is_seen: bool) -> str:
    """Why a fact may not stand in a group; an empty text where it may, or where there is none."""
    if fact is None:
        return ""
    if not fact.is_writable:
        return "is worked out, and a group is of questions"
    if fact.collection:
        return f"is asked with the other questions on a member of {fact.collection}, so it stands in no group"
    return "stands in a group before" if is_seen else ""


def _purposes(stated: Any, dictionary: Dictionary) -> Iterator[Misstated]:
    """What is wrong with what is said of the person who answers."""
    yield from _texts(("purposes",), stated, "fact", dictionary.facts)
    for path, purpose in stated.items() if isinstance(stated, dict) else ():
        known = PURPOSES.get(dictionary.facts[path].type.name, ()) if path in dictionary.facts else (purpose,)
        if isinstance(purpose, str) and purpose not in known:
            reason = f"the purpose of a {dictionary.facts[path].type.name} is {listed(known, 'or')}" if known else f"{shown(path)} has a type without purposes"
            yield Misstated(("purposes", path), reason)


def _texts(at: Pointer, stated: Any, what: str, known: Iterable[str]) -> Iterator[Misstated]:
    """Texts by the names of what is known."""
    if not isinstance(stated, dict):
        yield Misstated(at, f"the {at[0]} are an object of texts by {'path' if what == 'fact' else what}")
        return
    for name, text in stated.items():
        if name not in known:
            yield Misstated((*at, name), f"there is no {what} {shown(name)}", _like(name, known), True)
        if not isinstance(text, str):
            yield Misstated((*at, name), f"a text belongs here, and this is {shown(text)}")


def _options(stated: Any, dictionary: Dictionary) -> Iterator[Misstated]:
    if not isinstance(stated, dict):
        yield Misstated(("options",), "the options are an object of texts by option for each list")
        return
    for name, texts in stated.items():
        if name not in dictionary.options:
            yield Misstated(("options", name), f"there is no list {shown(name)}", _like(name, dictionary.options), True)
        else:
            yield from _texts(("options", name), texts, "option", dictionary.options[name])


def _like(path: Any, known: Iterable[str]) -> str:
    like = nearest(path, known) if isinstance(path, str) else None
    return f"`{like}` is like it" if like else ""
