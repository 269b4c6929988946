"""The distributions that `python -m build` makes of the package, and that pip installs them."""

from __future__ import annotations

import os
import re
import shutil
import subprocess
import sys
import tarfile
import zipfile
from email.parser import Parser
from pathlib import Path

import pytest

import fact_graph

from .conftest import built, copied, fresh, pip
from .places import TOP

SAYS = """
from fact_graph import Session, __version__
from fact_graph._answering import IS_COMPILED
print(__version__, "compiled" if IS_COMPILED else "ctypes", Session('{"version":"1","facts":[]}').line("undo"), end="")
"""
SAID = f"{fact_graph.__version__} compiled refused 13 NothingToUndo\n"
# No compiler has this name.
NO_COMPILER = {"CC": "/nowhere/cc"}


def says(python: Path, folder: Path, bare: dict[str, str]) -> str:
    """What a session says in this Python, away from the repository."""
    return subprocess.run([python, "-c", SAYS], cwd=folder, env=bare, check=True, capture_output=True, text=True).stdout


def wheel_of(folder: Path) -> Path:
    """The one wheel of a folder."""
    [wheel] = folder.glob("*.whl")
    return wheel


def test_the_wheel_has_the_library_and_the_licence(distributions: Path, library: Path) -> None:
    with zipfile.ZipFile(wheel_of(distributions)) as wheel:
        names = wheel.namelist()
        assert wheel.read("fact_graph/libfact_graph.so") == library.read_bytes()
        [metadata] = [wheel.read(name).decode() for name in names if name.endswith("/METADATA")]
        [licence] = [wheel.read(name) for name in names if name.endswith("/LICENSE")]
    assert "fact_graph/py.typed" in names
    said = Parser().parsestr(metadata)
    assert (said["Name"], said["Version"]) == ("fact-graph", fact_graph.__version__)
    assert (said["License"], licence) == ("CC0-1.0", (TOP / "LICENSE").read_bytes())


def test_the_wheel_has_the_engine_of_pages(distributions: Path, engine: Path) -> None:
    due = {f"{folder}/{file.name}": file.read_bytes() for folder in ("src", "page") for file in (engine / folder).iterdir() if file.is_file()}
    top = "fact_graph/javascript/"
    with zipfile.ZipFile(wheel_of(distributions)) as wheel:
        came = {name.removeprefix(top): wheel.read(name) for name in wheel.namelist() if name.startswith(top)}
    assert "src/fact_graph.wasm" in came
    assert came == due


def test_where_the_wheels_are_installed_a_page_is_written(distributions: Path, engine: Path, tmp_path: Path, outside: Path, bare: dict[str, str]) -> None:
    python, service = fresh(tmp_path / "environment", with_system=True), tmp_path / "service"
    shutil.copytree(TOP / "service", service, ignore=shutil.ignore_patterns("*.egg-info", "build", "dist", "__pycache__"))
    pip(python, "install", str(wheel_of(distributions)))
    pip(python, "install", str(wheel_of(built(service, bare, "--wheel"))))
    site = tmp_path / "site"
    subprocess.run([python.with_name("fact-graph"), "page", "examples/screener.json", "--out", site], cwd=outside, env=bare, check=True)
    assert (site / "engine" / "fact_graph.wasm").read_bytes() == (engine / "src" / "fact_graph.wasm").read_bytes()
    assert (site / "index.html").is_file() and (site / "page" / "browser_engine.js").is_file()


def test_a_wheel_that_is_packed_without_the_engine_says_so(tmp_path: Path, library: Path, bare: dict[str, str]) -> None:
    tree = copied(tmp_path / "tree")
    command = [sys.executable, "-m", "build", "--no-isolation", "--wheel", str(tree)]
    ended = subprocess.run(command, env={**bare, "FACT_GRAPH_LIBRARY": str(library)}, capture_output=True, text=True, check=True)
    assert "packed without the engine of pages" in ended.stdout + ended.stderr
    with zipfile.ZipFile(wheel_of(tree / "dist")) as wheel:
        assert not [name for name in wheel.namelist() if "javascript" in name]
    named = {**bare, "FACT_GRAPH_LIBRARY": str(library), "FACT_GRAPH_ENGINE": str(tmp_path)}
    ended = subprocess.run(command, env=named, capture_output=True, text=True, check=False)
    assert ended.returncode == 1
    assert f"FACT_GRAPH_ENGINE names {tmp_path}, and there is no " in ended.stdout + ended.stderr


def test_the_version_is_that_of_the_library() -> None:
    header = (TOP / "crates" / "fact_graph_c" / "fact_graph.h").read_text()
    assert ".".join(re.findall(r"#define FACT_GRAPH_VERSION_(?:MAJOR|MINOR|PATCH) (\d+)", header)) == fact_graph.__version__


def test_the_wheel_is_tagged_for_what_it_needs(distributions: Path, tmp_path: Path) -> None:
    with zipfile.ZipFile(wheel_of(distributions)) as wheel:
        libraries = [wheel.extract(name, tmp_path) for name in wheel.namelist() if name.endswith(".so")]
    assert sorted(os.path.basename(path) for path in libraries) == ["_compiled.abi3.so", "libfact_graph.so"]
    symbols = subprocess.run(["objdump", "-T", *libraries], check=True, capture_output=True, text=True).stdout
    major, minor, *_ = max(tuple(map(int, version.split("."))) for version in re.findall(r"GLIBC_([0-9.]+)", symbols))
    assert wheel_of(distributions).name.endswith(f"-cp311-abi3-manylinux_{major}_{max(minor, 5)}_{os.uname().machine}.whl")
    for path in libraries:
        needed = subprocess.run(["patchelf", "--print-needed", path], check=True, capture_output=True, text=True).stdout
        assert needed.split() in ([], ["libc.so.6"])


def test_the_compiled_module_calls_nothing_private_of_python(distributions: Path, tmp_path: Path) -> None:
    with zipfile.ZipFile(wheel_of(distributions)) as wheel:
        module = wheel.extract("fact_graph/_compiled.abi3.so", tmp_path)
    symbols = subprocess.run(["objdump", "-T", module], check=True, capture_output=True, text=True).stdout
    called = set(re.findall(r"\*UND\*.* (\w+)$", symbols, re.MULTILINE))
    assert {name for name in called if name.startswith("_Py")} == set()
    assert set(re.findall(r"\.text.* (\w+)$", symbols, re.MULTILINE)) == {"PyInit__compiled"}


def test_a_wheel_is_built_without_a_compiler(environment: dict[str, str], tmp_path: Path, bare: dict[str, str]) -> None:
    wheel = wheel_of(built(copied(tmp_path / "tree"), environment | NO_COMPILER, "--wheel"))
    assert "-py3-none-manylinux_" in wheel.name
    python = fresh(tmp_path / "environment")
    pip(python, "install", str(wheel))
    assert says(python, tmp_path, bare) == SAID.replace("compiled", "ctypes")


def test_the_same_tree_gives_the_same_bytes(distributions: Path, environment: dict[str, str], tmp_path: Path) -> None:
    tree = copied(tmp_path / "elsewhere")
    for path in tree.rglob("*"):
        path.chmod(0o700 if path.is_dir() else 0o600)
        os.utime(path, (1_600_000_000, 1_600_000_000))
    again = built(tree, environment)
    assert {path.name: path.read_bytes() for path in again.iterdir()} == {path.name: path.read_bytes() for path in distributions.iterdir()}
    at_once = built(tree, environment, "--wheel")
    assert wheel_of(at_once).read_bytes() == wheel_of(distributions).read_bytes()


def test_a_wheel_runs_in_a_fresh_environment(installed: Path, tmp_path: Path, bare: dict[str, str]) -> None:
    assert says(installed, tmp_path, bare) == SAID


def test_a_source_distribution_is_installed_without_the_repository(distributions: Path, tmp_path: Path, bare: dict[str, str]) -> None:
    [source] = distributions.glob("*.tar.gz")
    python = fresh(tmp_path / "environment", with_system=True)
    pip(python, "install", "--no-build-isolation", str(source), environment=bare)
    assert says(python, tmp_path, bare) == SAID
    with tarfile.open(source) as archive:
        assert {(entry.uid, entry.gid, entry.uname, entry.mtime) for entry in archive} == {(0, 0, "", 1_580_601_600)}


def test_an_editable_install_follows_its_sources(tmp_path: Path, environment: dict[str, str], bare: dict[str, str]) -> None:
    tree, python = copied(tmp_path / "tree"), fresh(tmp_path / "environment", with_system=True)
    pip(python, "install", "--no-build-isolation", "--editable", str(tree), environment=environment)
    assert says(python, tmp_path, bare) == SAID
    module = tree / "fact_graph" / "__init__.py"
    module.write_text(module.read_text().replace(fact_graph.__version__, "9.9.9"))
    assert says(python, tmp_path, bare).startswith("9.9.9 ")


@pytest.mark.parametrize("kind", ["--wheel", "--sdist"])
def test_nothing_is_built_without_the_library(kind: str, tmp_path: Path, bare: dict[str, str]) -> None:
    tree = copied(tmp_path / "tree")
    command = [sys.executable, "-m", "build", "--no-isolation", kind, str(tree)]
    ended = subprocess.run(command, env=bare, capture_output=True, text=True, check=False)
    assert ended.returncode == 1
    assert "docs/LIBRARY.md says how" in ended.stdout + ended.stderr and "set FACT_GRAPH_LIBRARY" in ended.stdout + ended.stderr
    assert not list(tree.glob("dist/*"))
