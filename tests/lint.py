#!/usr/bin/env python3
"""Runs mypy, pylint and clang-tidy over the sources of the repository.

    tests/lint.py [PART..]

A part is a folder with a pyproject.toml, whose Python is typed strictly and read by pylint as that file says: `.` for bench, dev, tests
and tools, and each package by the name of its folder. `c` is all C sources, which clang-tidy reads with their headers as .clang-tidy says, and
the compiler with all warnings. All parts are read where none is named. The exit status is 0 where nothing was said, 1 where
something was, and 2 where a linter isn't installed.
"""
import os
import subprocess
import sys
import sysconfig
from collections.abc import Iterator
from concurrent.futures import ThreadPoolExecutor
from pathlib import Path

from harness import TOP, Tally, tool, words_of

# What no package is: it goes by the top's pyproject.toml.
OWN = ("bench", "dev", "tests", "tools")
HEADERS = ["-Icrates/fact_graph_c", "-Ijavascript/wasm/runtime", f"-isystem{sysconfig.get_path('include')}"]
WARNINGS = ["-std=c11", "-Wall", "-Wextra", "-Wpedantic", "-Wconversion", *HEADERS]
# What is C for WebAssembly alone is read as such by clang-tidy. The compiler reads it where it is built.
OF_WASM = ("javascript/wasm/runtime", "javascript/wasm/testing")
FOR_WASM = ["--target=wasm64-unknown-unknown", "-mbulk-memory", "-msimd128"]


def tracked(*patterns: str) -> list[Path]:
    """The files of the repository that match."""
    listed = subprocess.run(["git", "ls-files", "--cached", "--others", "--exclude-standard", *patterns], cwd=TOP, capture_output=True, text=True, check=True)
    return [path for path in map(Path, sorted(set(listed.stdout.splitlines()))) if (TOP / path).is_file()]


def parts() -> dict[str, list[Path]]:
    """The Python files of each part, by the part's folder."""
    found: dict[str, list[Path]] = {".": [path for path in tracked("*.py") if path.parts[0] in OWN]}
    for project in tracked("*/pyproject.toml"):
        found[str(project.parent)] = [path.relative_to(project.parent) for path in tracked(f"{project.parent}/*.py")]
    return found


def commands(names: list[str]) -> Iterator[tuple[str, Path, list[str | Path]]]:
    """What is run: its name, the folder, and the words."""
    for part, files in parts().items():
        if not names or part in names:
            yield f"mypy of {part}", TOP / part, [tool("mypy"), "--strict", *files]
            yield f"pylint of {part}", TOP / part, [tool("pylint"), "--score=n", *files]
    if not names or "c" in names:
        of_wasm = [path for path in tracked("*.c") if str(path.parent) in OF_WASM]
        sources = [path for path in tracked("*.c") if path not in of_wasm]
        tidy = [tool("clang-tidy"), "--quiet", "--warnings-as-errors=*"]
        yield "clang-tidy", TOP, [*tidy, *sources, "--", *WARNINGS]
        yield "clang-tidy for WebAssembly", TOP, [*tidy, *of_wasm, "--", *WARNINGS, *FOR_WASM]
        yield "cc", TOP, [tool(os.environ.get("CC", "cc")), "-fsyntax-only", "-Werror", *WARNINGS, *sources]


def wrong_in(folder: Path, words: list[str | Path]) -> str:
    """What a linter says; no text where it finds nothing."""
    ran = subprocess.run(words, cwd=folder, stdout=subprocess.PIPE, stderr=subprocess.STDOUT, text=True, check=False)
    return "" if ran.returncode == 0 else f"status {ran.returncode}\n{ran.stdout}"


def main(argv: list[str]) -> int:
    """Runs the linters side by side."""
    words = words_of(__doc__)
    words.add_argument("parts", nargs="*", metavar="PART")
    run = list(commands(words.parse_args(argv).parts))
    tally = Tally()
    with ThreadPoolExecutor(os.cpu_count()) as pool:
        wrongs = pool.map(lambda it: wrong_in(it[1], it[2]), run)
        for (name, _, _), wrong in zip(run, wrongs):
            tally.judge(name, wrong)
    return tally.end()


if __name__ == "__main__":
    sys.exit(main(sys.argv[1:]))
