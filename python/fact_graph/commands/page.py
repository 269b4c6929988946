"""`fact-graph page`: an interview as a folder of static files, which needs no server."""

from __future__ import annotations

import hashlib
import json
import re
import shutil
from collections.abc import Sequence
from pathlib import Path
from typing import TYPE_CHECKING

import click

from ..status import Status
from ..uncommented import uncommented
from ._failures import SERVICE_FROM, Failed
from ._rules import Rules, rules_argument

if TYPE_CHECKING:
    from fact_graph_service.form import Form

# The JavaScript package: beside the modules where it was packed with them, else that of the repository.
PACKED, IN_REPOSITORY = (Path(__file__).resolve().parents[up] / "javascript" for up in (1, 3))
ENGINE = PACKED if PACKED.is_dir() else IN_REPOSITORY
MODULE = "fact_graph.wasm"
ENGINE_FROM = "in the repository javascript/wasm/build_wasm.py builds it, and --engine names the folder javascript there"
FOLDER = click.Path(file_okay=False, path_type=Path)
POLICY = (
    "default-src 'none'; script-src 'self' 'wasm-unsafe-eval'; style-src 'self'; connect-src 'self'; img-src 'self' data:; "
    "base-uri 'none'; form-action 'none'"
)
# What differs from the service's page: which engine it opens, and what its head says.
ENGINE_OF_SERVICE, ENGINE_OF_PAGE = "./http_engine.js", "./browser_engine.js"
TOKEN = re.compile(r'<meta name="token" content="[^"]*">')
# What the page asks for at once, and not only when the script that uses it runs.
SCRIPT, FILE = '<link rel="modulepreload" href="{}">', '<link rel="preload" as="fetch" crossorigin href="{}">'
FETCHED = (f"engine/{MODULE}", "dictionary.json", "form.json")


@click.command()
@rules_argument
@click.option("--out", required=True, metavar="DIR", type=FOLDER, help="The folder that is written; it isn't there, or is empty.")
@click.option("--engine", metavar="DIR", default=ENGINE, type=FOLDER, help="The JavaScript package, with its built module.")
def command(rules: Rules, out: Path, engine: Path) -> None:
    """Writes the interview over the rules in FILE as a folder of static files.

    Any host serves it, and the engine runs in the visitor's browser: the answers stay there, in its storage, until the visitor erases
    them. They are sent nowhere.
    """
    try:
        from fact_graph_service import form as service  # pylint: disable=import-outside-toplevel # this command alone needs it
    except ModuleNotFoundError as missing:
        raise Failed(Status.NOT_INSTALLED, f"page needs {missing.name}: {SERVICE_FROM}") from missing
    if not (engine / "src" / MODULE).is_file():
        raise Failed(Status.NOT_INSTALLED, f"{engine / 'src'} has no {MODULE}: {ENGINE_FROM}")
    if out.exists() and any(out.iterdir()):
        raise Failed(Status.USAGE, f"{out} isn't empty")
    rules.session().close()
    try:
        form = service.Form(rules.text, service.pages_of(rules.name))
    except service.FormWrong as wrong:
        raise Failed(Status.USAGE, str(wrong)) from wrong
    out.mkdir(parents=True, exist_ok=True)
    try:
        write(out, form, Path(service.__file__).with_name("page"), engine)
    except BaseException:
        empty(out)
        raise


def write(out: Path, form: Form, page: Path, engine: Path) -> None:
    """Writes the folder of a form's page, of the parts of the service's page and of the engine."""
    shutil.copytree(page, out / "page", ignore=shutil.ignore_patterns("index.html", "http_engine.js"), copy_function=copy_part)
    copy_part(engine / "page" / "browser_engine.js", out / "page" / "browser_engine.js")
    shutil.copytree(engine / "src", out / "engine", copy_function=copy_part)
    main = out / "page" / "main.js"
    main.write_text(replaced(main.read_text(encoding="utf-8"), ENGINE_OF_SERVICE, ENGINE_OF_PAGE), encoding="utf-8")
    scripts = sorted(path.relative_to(out).as_posix() for path in out.rglob("*.js"))
    html = (page / "index.html").read_text(encoding="utf-8")
    out.joinpath("index.html").write_text(head_of_its_own(html, [*map(SCRIPT.format, scripts), *map(FILE.format, FETCHED)]), encoding="utf-8")
    out.joinpath("dictionary.json").write_bytes(form.text)
    described = {"id": hashlib.sha256(form.text).hexdigest()[:16], **form.described()}
    out.joinpath("form.json").write_text(json.dumps(described, ensure_ascii=False), encoding="utf-8")


def copy_part(source: str | Path, target: str | Path) -> None:
    """Copies a file of the page, a script without its comments."""
    part = Path(source)
    if part.suffix == ".js":
        Path(target).write_text(uncommented(part.read_text(encoding="utf-8")), encoding="utf-8")
    else:
        shutil.copyfile(part, target)


def empty(folder: Path) -> None:
    """Takes all out of a folder."""
    for part in folder.iterdir():
        if part.is_dir():
            shutil.rmtree(part)
        else:
            part.unlink()


def replaced(text: str, old: str, new: str) -> str:
    """A text with another word in the one place where it stands.

    >>> replaced('import "./http_engine.js";', "./http_engine.js", "./browser_engine.js")
    'import "./browser_engine.js";'
    """
    before, found, behind = text.partition(old)
    assert found and old not in behind, f"{old} stands in one place"
    return before + new + behind


def head_of_its_own(html: str, links: Sequence[str]) -> str:
    """The page's text, which says itself what it may load and loads at once, and has no token.

    >>> policy, link = head_of_its_own('<meta name="token" content="{token}">', [SCRIPT.format("page/main.js")]).splitlines()
    >>> policy.startswith('<meta http-equiv="Content-Security-Policy"'), link
    (True, '<link rel="modulepreload" href="page/main.js">')
    """
    found = TOKEN.search(html)
    assert found, "the page has a place for the token"
    return replaced(html, found[0], "\n".join([f'<meta http-equiv="Content-Security-Policy" content="{POLICY}">', *links]))
