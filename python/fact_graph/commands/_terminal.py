"""A session at a terminal: history, completion of commands, slots and values, colours, and what a refusal means."""

from __future__ import annotations

import os
import re
import sys
from collections.abc import Iterable, Iterator
from pathlib import Path

import click
from prompt_toolkit import PromptSession, prompt
from prompt_toolkit.auto_suggest import AutoSuggestFromHistory
from prompt_toolkit.completion import CompleteEvent, Completer, Completion, WordCompleter
from prompt_toolkit.document import Document
from prompt_toolkit.history import FileHistory, History, InMemoryHistory

from ..dictionary import ListedFact
from ..faults.texts import text_of_refusal
from ..session import Session
from ._scripts import coloured, is_quit
from ._slots import slots, values

VERBS = {
    "set": "answer a writable fact: set SLOT VALUE",
    "clear": "take an answer away: clear SLOT",
    "open": "a collection that has no members: open SLOT",
    "add": "add a member: add SLOT",
    "remove": "take a member out: remove SLOT #K",
    "override": "give a derived fact a value: override SLOT VALUE",
    "release": "take an override away: release SLOT",
    "undo": "go back before the last change",
    "redo": "go forth again",
    "get": "the result: get SLOT",
    "final": "the value that no further answer changes: final SLOT",
    "missing": "what the result still wants: missing SLOT",
    "stamp": "the last change that touched it: stamp SLOT",
    "touched": "how many slots the last change touched",
    "watch": "be told of its moves: watch NAME SLOT",
    "unwatch": "end that: unwatch NAME SLOT",
    "quit": "end",
}
"""The commands of a script, and a word on each."""

WATCHES = ("changed", "completed", "lost", "raised")
REFUSED = re.compile(r"refused (\d+) \w+ ?(\d*)")


def history(name: str) -> History:
    """The history of a kind of prompts, kept where the user's state belongs; in memory alone where nothing can be written."""
    state = Path(os.environ.get("XDG_STATE_HOME") or Path.home() / ".local" / "state")
    try:
        folder = state / "fact-graph"
        folder.mkdir(parents=True, exist_ok=True)
        (folder / name).touch()
    except OSError:
        return InMemoryHistory()
    return FileHistory(str(folder / name))


class ScriptCompleter(Completer):
    """Completes the commands of a script over a session."""

    def __init__(self, session: Session) -> None:
        self.session = session

    def get_completions(self, document: Document, complete_event: CompleteEvent) -> Iterable[Completion]:
        """What may stand where the cursor is."""
        *before, begun = document.text_before_cursor.split(" ")
        for word, meta in self.offered(before):
            if word.startswith(begun):
                yield Completion(word, -len(begun), display_meta=meta)

    def offered(self, before: list[str]) -> Iterator[tuple[str, str]]:
        """The words that may stand behind these, each with a word on it."""
        if not before:
            yield from VERBS.items()
        elif before[0] in ("watch", "unwatch") and len(before) == 1:
            yield from ((name, "") for name in WATCHES)
        elif len(before) == (2 if before[0] in ("watch", "unwatch") else 1):
            yield from ((slot, self._meta(fact)) for slot, fact in slots(self.session) if takes(before[0], fact))
        elif len(before) == 2 and before[0] in ("set", "override"):
            fact = next((fact for slot, fact in slots(self.session) if slot == before[1]), None)
            yield from ((value, "") for value in (values(self.session, fact.type) if fact else ()))
        elif len(before) == 2 and before[0] == "remove" and before[1] in self.session:
            yield from ((f"#{member}", "") for member in self.session.members(before[1]))

    def _meta(self, fact: ListedFact) -> str:
        of = f" {fact.type.of}" if fact.type.of else ""
        description = self.session.description(fact.path)
        return f"{fact.type.name}{of}{f': {description}' if description else ''}"


def takes(verb: str, fact: ListedFact) -> bool:
    """Whether a command may be for a fact."""
    is_list = fact.is_writable and fact.type.name == "Collection"
    match verb:
        case "set" | "clear":
            return fact.is_writable and not is_list
        case "open" | "add" | "remove":
            return is_list
        case "override" | "release":
            return not fact.is_writable and fact.type.name not in ("Collection", "Item")
    return verb in VERBS and verb not in ("undo", "redo", "touched", "quit")


def converse(session: Session) -> None:
    """Answers line after line until `quit` or the end of the input."""
    prompts: PromptSession[str] = PromptSession(
        history=history("commands"), completer=ScriptCompleter(session), auto_suggest=AutoSuggestFromHistory(), complete_while_typing=True
    )
    while True:
        try:
            line = prompts.prompt("> ")
        except KeyboardInterrupt:
            continue
        except EOFError:
            return
        if is_quit(line.encode()):
            return
        reply = session.line(line.encode("utf-8", "replace"))
        click.echo(coloured(reply), nl=False)
        refused = REFUSED.match(reply)
        if refused:
            says = text_of_refusal(int(refused[1])).says.replace("place K", f"place {refused[2]}")
            click.echo(click.style(f"  {says}", dim=True))


def ask_line(answers: tuple[str, ...]) -> str:
    """A line that a person types, with these answers to choose from. Raises EOFError at the end of the input."""
    if not sys.stdin.isatty():
        line = sys.stdin.readline()
        if not line:
            raise EOFError
        return line
    return prompt("> ", completer=WordCompleter(list(answers)) if answers else None)
