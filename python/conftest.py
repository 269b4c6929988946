"""By what the lines of a session are answered in the tests, where the examples in docstrings run, and how much is tried at random."""

from __future__ import annotations

import os
import tempfile
from pathlib import Path

import pytest
from compiled_module import build_compiled, hide_compiled, load_compiled
from hypothesis import HealthCheck, settings

TOP = Path(__file__).resolve().parent.parent

os.environ.setdefault("FACT_GRAPH_LIBRARY", str(TOP / "out" / "libfact_graph.so"))

# The same each time, so that a run of the gate can be repeated; `--hypothesis-profile=wide` tries others, and more.
settings.register_profile("gate", max_examples=100, stateful_step_count=25, deadline=None, derandomize=True, suppress_health_check=list(HealthCheck))
settings.register_profile("wide", settings.get_profile("gate"), max_examples=2_000, stateful_step_count=50, derandomize=False)
settings.load_profile("gate")


def pytest_addoption(parser: pytest.Parser) -> None:
    """The option --by."""
    parser.addoption("--by", choices=("compiled", "ctypes"), default="compiled", help="how the package calls the library: by its compiled module, or by ctypes")


def pytest_configure(config: pytest.Config) -> None:
    """Builds the compiled module away from the sources, or has the package go without it."""
    if config.getoption("by") == "ctypes":
        hide_compiled()
    else:
        with tempfile.TemporaryDirectory(prefix="compiled.") as folder:
            load_compiled(build_compiled(Path(folder)))


def pytest_report_header(config: pytest.Config) -> str:
    """What the runs differ in."""
    return f"lines are answered by: {config.getoption('by')}"


@pytest.fixture(autouse=True)
def beside_the_examples(request: pytest.FixtureRequest, monkeypatch: pytest.MonkeyPatch) -> None:
    """Runs each docstring in the folder of the examples."""
    if isinstance(request.node, pytest.DoctestItem):
        monkeypatch.chdir(TOP / "examples")
