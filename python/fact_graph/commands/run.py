"""`fact-graph run`: a session over rules, from a script or at a terminal."""

from __future__ import annotations

import sys

import click

from ._rules import Rules, rules_argument, saved_option
from ._scripts import run_script
from ._terminal import converse


@click.command()
@rules_argument
@click.argument("script", required=False)
@saved_option
def command(rules: Rules, script: str | None, saved: bytes | None) -> None:
    """Answers the commands of a script, or those that are typed.

    Without a SCRIPT, commands are read from the terminal, with history and completion, or from standard input where that is
    no terminal. Replies are those of the program: docs/COMMANDS.md has the commands.
    """
    with rules.session(saved) as session:
        if script is None and sys.stdin.isatty():
            converse(session)
        else:
            run_script(session, script or "-")
