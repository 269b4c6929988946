"""The commands of `fact-graph`. Each module here whose name begins with a letter is one, and is imported when it is asked for.

Such a module defines `command`, a `click.Command`. The first sentence of its help stands in the list of commands. Where it
returns a `Status`, that is the exit status, else it is 0; what it raises ends it as `failures` says. An underscore in the
module's name is a hyphen in the command's.
"""

from __future__ import annotations

import importlib
import pkgutil
from collections.abc import Sequence

import click

from ..status import Status
from ._failures import status_of
from ._rules import joined


class Commands(click.Group):
    """The commands by the names of their modules."""

    def list_commands(self, ctx: click.Context) -> list[str]:
        """The names of all commands."""
        return sorted(module.name.replace("_", "-") for module in pkgutil.iter_modules(__path__) if module.name[0] != "_")

    def get_command(self, ctx: click.Context, cmd_name: str) -> click.Command | None:
        """The command of this name, or None where there is none."""
        if cmd_name not in self.list_commands(ctx):
            return None
        command: click.Command = importlib.import_module(f".{cmd_name.replace('-', '_')}", __name__).command
        return command


@click.command("fact-graph", cls=Commands, context_settings={"help_option_names": ["-h", "--help"], "max_content_width": 120})
def commands() -> None:
    """Checks, runs and explains the rules of an interview.

    FILE is a dictionary of facts, or - for standard input; or, as `year 2023`, the rules of a tax year. Each command has its own help:
    fact-graph COMMAND --help.
    """


def command_line(words: Sequence[str]) -> int:
    """Runs the command that the words name, and returns its exit status; what went wrong is told on standard error."""
    try:
        status = commands.main(joined(words), prog_name="fact-graph", standalone_mode=False)
        return status if isinstance(status, int) else Status.DONE
    except Exception as wrong:  # pylint: disable=broad-exception-caught # those that mean something else are raised on
        return status_of(wrong)
