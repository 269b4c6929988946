"""`fact-graph serve`: an interview as a page, for many visitors."""

from __future__ import annotations

import os
from pathlib import Path

import click

from ..status import Status
from ._failures import SERVICE_FROM, Failed
from ._rules import Rules, rules_argument


@click.command()
@rules_argument
@click.option(
    "--store",
    metavar="PLACE",
    help="Where answers are kept: sqlite:PATH, or postgresql://.. for several workers. By default a SQLite file beside FILE.",
)
@click.option("--host", default="127.0.0.1", show_default=True, help="The address to listen on.")
@click.option("--port", default=8000, show_default=True, help="The port to listen on.")
@click.option("--workers", default=1, show_default=True, help="How many processes answer.")
@click.option(
    "--origin",
    "origins",
    metavar="ADDRESS",
    multiple=True,
    help="The page's address as browsers have it, as https://help.example.gov. May be given several times.",
)
@click.option("--proxy", metavar="ADDRESSES", default="127.0.0.1", show_default=True, help="The proxies whose word on the visitor's address is taken.")
@click.option("--minutes", metavar="N", help="How long answers are kept after the last change.  [default: 60]")
@click.option("--sessions", metavar="N", help="How many visitors' answers the store takes.  [default: 100000]")
@click.option("--cache", metavar="N", help="How many sessions a worker keeps in memory.  [default: 500]")
@click.option("--rate", metavar="N", help="How many requests a second one address may make.  [default: 20]")
def command(rules: Rules, host: str, port: int, workers: int, proxy: str, store: str | None, origins: tuple[str, ...], **numbers: str | None) -> None:
    """Serves the interview over the rules in FILE as a page.

    Answers are encrypted by the key in FACT_GRAPH_KEY; where it isn't set, and the store is a SQLite file, by that of a file
    beside the store, which is made once.
    """
    try:
        # pylint: disable=import-outside-toplevel # this command alone needs them
        import uvicorn
        from fact_graph_service import form, settings
    except ModuleNotFoundError as missing:
        raise Failed(Status.NOT_INSTALLED, f"serve needs {missing.name}: {SERVICE_FROM}") from missing
    if rules.name == "-":
        raise Failed(Status.USAGE, "each worker reads the rules, so they stand in a file")
    rules.session().close()
    said = {"dictionary": rules.name, "store": store or os.environ.get("FACT_GRAPH_STORE") or f"sqlite:{Path(rules.name).with_suffix('.sqlite')}"}
    said |= {name: number for name, number in numbers.items() if number is not None}
    said |= {"origins": " ".join(origins) or os.environ.get("FACT_GRAPH_ORIGINS") or f"http://127.0.0.1:{port} http://localhost:{port}"}
    try:
        form.Form(rules.text, form.pages_of(rules.name))
        known = settings.Settings.of_environment({**os.environ, **{f"FACT_GRAPH_{name.upper()}": value for name, value in said.items()}})
    except (form.FormWrong, settings.SettingsWrong) as wrong:
        raise Failed(Status.USAGE, str(wrong)) from wrong
    os.environ.update(known.environment())
    uvicorn.run(
        "fact_graph_service.app:application",
        factory=True,
        host=host,
        port=port,
        workers=workers,
        forwarded_allow_ips=proxy,
        server_header=False,
        access_log=False,
    )
