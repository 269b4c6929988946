"""`fact-graph graph`: which fact rests on which, as a picture."""

from __future__ import annotations

import shutil
import subprocess

import click

from ..graph import below, drawn, facts
from ..status import Status
from ._failures import Failed
from ._rules import Rules, rules_argument


@click.command()
@rules_argument
@click.option("--of", "paths", multiple=True, metavar="PATH", help="Only this fact, and what it rests on. May be given again.")
@click.option("-o", "--out", type=click.Path(dir_okay=False), default="-", help="Writes to this file in place of the standard output.")
@click.option("--text", "is_text", is_flag=True, help="Graphviz's own text in place of SVG.")
def command(rules: Rules, paths: tuple[str, ...], out: str, is_text: bool) -> None:
    """Draws which fact rests on which, as SVG.

    SVG is made by Graphviz, where that is installed; else its text is written. A box is answered and an ellipse follows; a
    dashed line has a placeholder, and two lines are around a collection.
    """
    rules.session().close()
    among = facts(rules.text)
    for path in paths:
        if path not in among:
            raise Failed(Status.COMMAND_REFUSED, f"{rules.name} has no fact {path}")
    text = drawn(below(among, paths) if paths else among) + "\n"
    is_svg = not is_text and shutil.which("dot") is not None
    if not is_svg and not is_text:
        click.echo("fact-graph: Graphviz isn't installed, so this is its text and no SVG", err=True)
    with click.open_file(out, "wb") as file:
        file.write(_svg(text) if is_svg else text.encode())


def _svg(text: str) -> bytes:
    """The picture that Graphviz makes."""
    return subprocess.run(["dot", "-Tsvg"], input=text.encode(), capture_output=True, check=True).stdout
