"""The examples of the pages run where the wheel is installed, away from the repository, and print what stands below them."""

from __future__ import annotations

import re
import subprocess
from pathlib import Path
from typing import NamedTuple

import pytest
import write_commands

from .conftest import fresh, pip
from .places import TOP

# A block of code with a block of text behind it, which is what it prints.
BLOCKS = re.compile(r"^```(\w+)\n((?:(?!```).*\n)*)```\n\n```text\n((?:(?!```).*\n)*)```$", re.MULTILINE)
PAGES = ("README.md", "docs", "python", "examples")


def pages() -> list[Path]:
    """The pages that may have examples."""
    return sorted(page for place in PAGES for page in ([TOP / place] if place.endswith(".md") else (TOP / place).rglob("*.md")))


class Block(NamedTuple):
    """A block of code, where it stands, and what it prints."""

    place: str
    code: str
    text: str


def blocks(kind: str) -> list[Block]:
    """The blocks of all pages in this language that have a text behind them."""
    found = []
    for page in pages():
        text = page.read_text()
        for block in BLOCKS.finditer(text):
            if block[1] == kind:
                place = f"{page.relative_to(TOP)}:{text.count(chr(10), 0, block.start()) + 1}"
                found.append(Block(place, block[2], block[3]))
    return found


def place_of(block: Block) -> str:
    """The name of the block's test."""
    return block.place


@pytest.mark.parametrize("block", blocks("python"), ids=place_of)
def test_in_python(block: Block, installed: Path, outside: Path, bare: dict[str, str]) -> None:
    ended = subprocess.run([installed, "-c", block.code], capture_output=True, text=True, cwd=outside, env=bare, check=False)
    assert (ended.stdout, ended.stderr) == (block.text, "")


@pytest.mark.parametrize("block", blocks("c"), ids=place_of)
def test_in_c(block: Block, library: Path, outside: Path, tmp_path: Path) -> None:
    source, host = tmp_path / "host.c", tmp_path / "host"
    source.write_text(block.code)
    header = TOP / "crates" / "fact_graph_c"
    flags = ["-std=c11", "-Wall", "-Wextra", "-Werror", f"-I{header}", f"-Wl,-rpath,{library.parent}"]
    subprocess.run(["cc", *flags, source, library, "-o", host], check=True)
    assert subprocess.run([host], capture_output=True, text=True, check=True, cwd=outside).stdout == block.text


def test_the_first_commands_at_a_terminal(distributions: Path, tmp_path: Path, bare: dict[str, str]) -> None:
    """They show what the page says where the wheel is installed, with what the command line needs and without the repository."""
    python = fresh(tmp_path / "environment", with_system=True)
    [wheel] = distributions.glob("*.whl")
    pip(python, "install", str(wheel))
    environment = {**bare, "PATH": f"{python.parent}:{bare['PATH']}", "COLUMNS": "100"}
    [block] = write_commands.BLOCK.findall((TOP / "docs" / "PYTHON.md").read_text())
    (tmp_path / "folder").mkdir()
    assert [*write_commands.shown(block, tmp_path / "folder", environment)] == block.splitlines()
    assert (tmp_path / "folder" / "status.svg").read_bytes() == (TOP / "docs" / "status.svg").read_bytes()


def test_the_pages_of_the_package_have_examples() -> None:
    assert {"docs/PYTHON.md", "docs/EMBEDDING.md"} <= {block.place.partition(":")[0] for block in blocks("python")}
