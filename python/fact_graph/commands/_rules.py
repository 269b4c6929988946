"""The rules that a command works over: a dictionary, as a user names it."""

from __future__ import annotations

import sys
from collections.abc import Callable, Sequence
from pathlib import Path
from typing import TYPE_CHECKING, Any, NamedTuple, TypeVar

import click
from click.shell_completion import CompletionItem

from ..built_in import is_built_in, text_of
from ..errors import DictionaryRefused, UnknownDictionary
from ..faults import Examined, Source
from ..page import Beside, page_beside
from ..session import BUILT_IN, Session
from ..status import Status
from ._failures import Failed
from ._faults import misread, refused

if TYPE_CHECKING:
    from ..rules import Rules as WrittenRules

Function = TypeVar("Function", bound=Callable[..., Any])


class Rules(NamedTuple):
    """A dictionary: the name by which a user knows it, its JSON as the engine reads it, and where it is written otherwise."""

    name: str
    text: bytes
    source: Source | None = None

    def examined(self) -> Examined:
        """The dictionary with its faults and their places."""
        return Examined(self.text, self.source)

    def session(self, saved: bytes | None = None) -> Session:
        """A session, without answers or with those of a saved text. Ends the command where the dictionary has a fault."""
        return self.begun(lambda: Session(self.text) if saved is None else Session.load(self.text, saved))

    def carried(self, saved: bytes) -> Session:
        """A session with what may stand of a text that was saved over other rules."""
        return self.begun(lambda: Session.carry(self.text, saved))

    def page(self) -> Beside | None:
        """What stands beside the rules of their page."""
        try:
            return page_beside(self.name)
        except OSError as wrong:
            raise Failed(Status.FETCH_FAULT, f"{wrong.filename}: {wrong.strerror}") from wrong

    def begun(self, begin: Callable[[], Session]) -> Session:
        """A session that is begun so."""
        try:
            return begin()
        except DictionaryRefused as fault:
            raise Failed(Status.DICTIONARY_REFUSED, "\n".join(refused(self.name, self.examined(), fault))) from fault


def opened(words: str) -> Rules:
    """The rules that words name: those of a tax year, as `year 2023`, also where a file has that name; else a file, or `-` for
    standard input."""
    text = text_named(words)
    return written(words, text) if is_written(words, text) else Rules(words, text)


def text_named(words: str) -> bytes:
    """The text of the rules that words name."""
    if not is_built_in(words):
        return read(words)
    try:
        return text_of(words)
    except UnknownDictionary as unknown:
        raise Failed(Status.USAGE, f"no rules {words} come with fact-graph, which has {', '.join(BUILT_IN[:-1])} and {BUILT_IN[-1]}") from unknown


def is_written(name: str, text: bytes) -> bool:
    """Whether rules are written as people read them, and not as JSON: their file's name says so, or how they begin."""
    return name.endswith(".facts") or name == "-" and text.lstrip()[:1] in (b"v", b"#")


def written(name: str, text: bytes) -> Rules:
    """The rules of a text that people read."""
    parsed = parsed_as(name, text)
    return Rules(name, parsed.json, parsed)


def parsed_as(name: str, text: bytes) -> WrittenRules:
    """The rules of such a text, with its places. Ends the command where it isn't one."""
    from ..rules import NotRules, parse  # pylint: disable=import-outside-toplevel # JSON is read without the parser

    try:
        return parse(text.decode())
    except UnicodeDecodeError as wrong:
        line = text.count(b"\n", 0, wrong.start) + 1
        raise Failed(Status.DICTIONARY_REFUSED, f"{name}:{line}: the byte {text[wrong.start]:02x} isn't UTF-8") from wrong
    except NotRules as wrong:
        raise Failed(Status.DICTIONARY_REFUSED, "\n".join(misread(name, text.decode(), wrong.faults))) from wrong


def read(name: str) -> bytes:
    """The bytes of a file, or of standard input where the name is `-`."""
    try:
        return sys.stdin.buffer.read() if name == "-" else Path(name).read_bytes()
    except OSError as wrong:
        raise Failed(Status.READ_FAULT if name == "-" else Status.FETCH_FAULT, f"{name}: {wrong.strerror}") from wrong


def joined(words: Sequence[str]) -> list[str]:
    """The words of a command line, in which the two of built-in rules are one.

    >>> joined(["ask", "year", "2023", "--save", "mine"])
    ['ask', 'year 2023', '--save', 'mine']
    """
    whole: list[str] = []
    for word in words:
        if whole and is_built_in(f"{whole[-1]} {word}"):
            whole[-1] += f" {word}"
        else:
            whole.append(word)
    return whole


class RulesName(click.ParamType):
    """The type of a word that names rules."""

    name = "rules"

    def convert(self, value: Any, param: click.Parameter | None, ctx: click.Context | None) -> Rules:
        """The rules that are named."""
        return value if isinstance(value, Rules) else opened(value)

    def shell_complete(self, ctx: click.Context, param: click.Parameter, incomplete: str) -> list[CompletionItem]:
        """The shell completes the names of files."""
        return [CompletionItem(incomplete, type="file")]


class SavedText(click.ParamType):
    """The type of a word that names the file of a saved text."""

    name = "saved text"

    def convert(self, value: Any, param: click.Parameter | None, ctx: click.Context | None) -> bytes:
        """The bytes of the text."""
        return value if isinstance(value, bytes) else read(value)

    def shell_complete(self, ctx: click.Context, param: click.Parameter, incomplete: str) -> list[CompletionItem]:
        """The shell completes the names of files."""
        return [CompletionItem(incomplete, type="file")]


def rules_argument(function: Function) -> Function:
    """Decorates a command's function that takes `rules`, named by the word FILE, or by two as `year 2023`."""
    return click.argument("rules", type=RulesName(), metavar="FILE")(function)


def saved_option(function: Function) -> Function:
    """Decorates a command's function that may begin with the answers of `saved`, a text that was saved over the same rules."""
    return click.option("--saved", type=SavedText(), metavar="FILE", help="Begins with the answers that were saved in this file.")(function)
