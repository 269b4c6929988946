"""What the tests share: the library, and the package as pip installs it, away from the repository."""

from __future__ import annotations

import os
import shutil
import subprocess
import sys
import venv
from collections.abc import Callable
from pathlib import Path

import pytest

from .places import TOP

Build = Callable[[Path, str], Path]


@pytest.fixture(scope="session")
def library() -> Path:
    """The C library: the one that FACT_GRAPH_LIBRARY names, else the one that stands built in the repository."""
    found = Path(os.environ.get("FACT_GRAPH_LIBRARY", TOP / "out" / "libfact_graph.so")).resolve()
    assert found.is_file(), f"no library at {found}: docs/LIBRARY.md says how to build it"
    return found


@pytest.fixture(scope="session")
def engine() -> Path:
    """The JavaScript package with its module, which pages have inside."""
    found = TOP / "javascript"
    assert (found / "src" / "fact_graph.wasm").is_file(), f"no module in {found / 'src'}: javascript/README.md says how to build it"
    return found


@pytest.fixture(scope="session")
def outside(tmp_path_factory: pytest.TempPathFactory) -> Path:
    """A folder away from the repository, with the examples that its pages name."""
    folder = tmp_path_factory.mktemp("outside")
    shutil.copytree(TOP / "examples", folder / "examples")
    return folder


@pytest.fixture(scope="session")
def environment(library: Path, engine: Path) -> dict[str, str]:
    """The environment in which the package is built, but not the one in which it runs: there nothing says where the library is."""
    return {**os.environ, "FACT_GRAPH_LIBRARY": str(library), "FACT_GRAPH_ENGINE": str(engine)}


@pytest.fixture(scope="session")
def bare() -> dict[str, str]:
    """An environment that says nothing of the package."""
    return {name: value for name, value in os.environ.items() if name not in ("FACT_GRAPH_LIBRARY", "FACT_GRAPH_ENGINE", "PYTHONPATH")}


@pytest.fixture(scope="session")
def sources(tmp_path_factory: pytest.TempPathFactory) -> Path:
    """The package's sources in a folder of their own."""
    return copied(tmp_path_factory.mktemp("sources") / "python")


@pytest.fixture(scope="session")
def distributions(sources: Path, environment: dict[str, str]) -> Path:
    """The folder with the source distribution and the wheel that `python -m build` makes."""
    return built(sources, environment)


@pytest.fixture(scope="session")
def installed(tmp_path_factory: pytest.TempPathFactory, distributions: Path) -> Path:
    """A fresh Python into which the wheel is installed."""
    python = fresh(tmp_path_factory.mktemp("installed"))
    [wheel] = distributions.glob("*.whl")
    pip(python, "install", str(wheel))
    return python


def copied(folder: Path) -> Path:
    """A copy of the package's sources, without what a build leaves there."""
    shutil.copytree(TOP / "python", folder, ignore=shutil.ignore_patterns("*.egg-info", "build", "dist", "__pycache__", "*.so", ".*"))
    return folder


def built(tree: Path, environment: dict[str, str], *words: str) -> Path:
    """The folder with what `python -m build` makes of a tree."""
    subprocess.run([sys.executable, "-m", "build", "--no-isolation", *words, str(tree)], env=environment, check=True, capture_output=True)
    return tree / "dist"


def fresh(folder: Path, *, with_system: bool = False) -> Path:
    """The Python of a new environment, with Debian's packages or without any."""
    venv.create(folder, with_pip=False, system_site_packages=with_system)
    return folder / "bin" / "python"


def pip(python: Path, *words: str, environment: dict[str, str] | None = None) -> None:
    """Runs pip for this Python. Nothing is fetched."""
    command = [sys.executable, "-m", "pip", "--python", str(python), *words, "--no-index", "--no-deps", "--quiet"]
    subprocess.run(command, env=environment, check=True, capture_output=True)
