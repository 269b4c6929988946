"""`fact-graph ask`: an interview at a terminal."""

from __future__ import annotations

import json
import os
import sys
from collections.abc import Callable
from pathlib import Path

import click
from rich.console import Console
from rich.table import Table
from rich.text import Text

from ..page import Page, misstated
from ..status import Status
from ._failures import Failed
from ._interview import Figure, Interview, Question
from ._rules import Rules, read, rules_argument
from ._terminal import ask_line

COLOURS = {"final": "bold green", "complete": "green", "estimate": "yellow", "open": "blue", "fault": "red"}
WORDS = ":back, :figures, :stop, :help"
HELP = """Enter leaves a question out, to be asked another time.
:back takes the last answer back, and :figures shows all figures.
:stop ends, and so does Ctrl-D."""


@click.command()
@rules_argument
@click.option("--saved", type=click.Path(dir_okay=False), metavar="FILE", help="Goes on from the answers in this file, and keeps them there.")
@click.option("--figure", "figures", multiple=True, metavar="PATH", help="Asks for this figure alone. May be given again.")
def command(rules: Rules, saved: str | None, figures: tuple[str, ...]) -> None:
    """Asks for what the figures want, and shows them.

    The figures and the words of the questions are those of the page beside FILE, where there is one, and else made of the
    rules. An answer that is given is kept at once, where --saved names a file.
    """
    kept = read(saved) if saved and Path(saved).exists() else None
    with rules.session(kept) as session:
        page = _page(rules, figures)
        interview = Interview(session, page)
        conversation = Conversation(interview, lambda: _keep(saved, session.save()))
        conversation.hold()
        if saved:
            click.echo(f"The answers are kept in {saved}.")


def _page(rules: Rules, figures: tuple[str, ...]) -> Page:
    """The page of the rules, with these figures in place of its own where some are named."""
    with rules.session() as session:
        dictionary = session.dictionary
    beside = rules.page()
    try:
        stated = json.loads(beside.text) if beside else {}
    except ValueError as wrong:
        raise Failed(Status.FINDINGS, f"{beside} is no JSON: {wrong}") from wrong
    wrongs = list(misstated(stated, dictionary))
    if wrongs:
        raise Failed(Status.FINDINGS, f"{beside}: {wrongs[0].reason}")
    unknown = [path for path in figures if path not in dictionary.facts]
    if unknown:
        raise Failed(Status.COMMAND_REFUSED, f"{rules.name} has no fact {unknown[0]}")
    page = Page.over(rules.text, stated)
    return page._replace(figures=figures) if figures else page


def _keep(name: str | None, text: bytes) -> None:
    """Keeps a saved text in a file: whole, or as it was."""
    if name is None:
        return
    beside = Path(f"{name}.{os.getpid()}")
    try:
        beside.write_bytes(text)
        beside.replace(name)
    except OSError as wrong:
        raise Failed(Status.WRITE_FAULT, f"{name}: {wrong.strerror}") from wrong


class Conversation:
    """The questions and answers of an interview, one after the other."""

    def __init__(self, interview: Interview, keep: Callable[[], None]) -> None:
        self.interview = interview
        self.keep = keep
        self.shown: dict[str, Figure] = {}

    def hold(self) -> None:
        """Asks until nothing is missing, or the person stops; then shows the figures."""
        click.echo(click.style(self.interview.page.title, bold=True))
        click.echo(click.style(WORDS, dim=True))
        self.moved()
        question = self.interview.next()
        while question and self.ask(question):
            question = self.interview.next()
        self.figures()

    def ask(self, question: Question) -> bool:
        """Puts a question until it is answered or left out. Says whether to go on."""
        click.echo(f"\n{click.style(question.label, bold=True)}" + (f" ({question.kind})" if question.kind else ""))
        if question.help:
            # At a terminal lines end between words.
            Console(file=sys.stdout, highlight=False).print(Text(question.help), soft_wrap=not sys.stdout.isatty())
        while True:
            try:
                text = ask_line(question.answers).strip()
            except (EOFError, KeyboardInterrupt):
                return False
            if text == ":stop":
                return False
            if self.is_done(question, text):
                return True

    def is_done(self, question: Question, text: str) -> bool:
        """Takes a line of the person's. Says whether the question is done with."""
        if text == "":
            self.interview.skipped.add(question.slot)
            return True
        if text == ":figures":
            self.figures()
            return False
        if text == ":back":
            went = self.interview.back()
            click.echo("The last answer is taken back." if went else "There is no answer to take back.")
            wrong = None if went else ""
        elif text in (":help", "?"):
            click.echo(click.style(HELP, dim=True))
            return False
        else:
            wrong = self.interview.answer(question.slot, text)
            if wrong:
                click.echo(f"  {click.style(wrong, fg='red')}")
        if wrong is None:
            self.keep()
            self.moved()
        return wrong is None

    def moved(self) -> None:
        """Shows the figures that aren't as they were shown last."""
        now = {it.slot: it for it in self.interview.figures()}
        for slot, figure in now.items():
            if self.shown.get(slot) != figure and (figure.value or slot in self.shown):
                line = f"  {figure.label}: {figure.value}{' ' if figure.value else ''}({figure.state})"
                click.echo(click.style(line, "green" if figure.state in ("final", "complete") else "yellow"))
        self.shown = now

    def figures(self) -> None:
        """Shows all figures as a table."""
        table = Table(show_header=True, header_style="bold")
        for heading in ("Figure", "Value", "State"):
            table.add_column(heading)
        for figure in self.interview.figures():
            table.add_row(figure.label, figure.value, Text(figure.state, COLOURS.get(figure.state, "")))
        Console(file=sys.stdout, highlight=False).print(table)
        missing = self.interview.missing()
        if missing:
            click.echo(f"Not answered: {', '.join(self.interview.label(slot) for slot in missing)}.")
