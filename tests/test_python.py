#!/usr/bin/python3
"""Tests the Python package of python/ over the C library, by pytest and hypothesis: by its compiled module, and again by ctypes alone.

    tests/test_python.py [--library PATH] [--by compiled|ctypes] [ARGUMENT OF pytest..]

Where pytest is given no argument it first tests how tools/build_program.py goes on, in tests/tools, over commands that prove nothing.
Nothing is built but the compiled module and the package's distributions, in folders for the while. The exit status is that of pytest, and
2 where there is no such library or the module can't be built.
"""
import os
import subprocess
import sys

from harness import TOP, add_library, words_of

WAYS = ("compiled", "ctypes")


def main(argv: list[str]) -> int:
    """Runs the tests."""
    words = words_of(__doc__)
    add_library(words)
    words.add_argument("--by", choices=WAYS, help="in one of the two ways alone")
    given, rest = words.parse_known_args(argv)
    test = [sys.executable, "-B", "-m", "pytest"]
    status = 0 if rest else subprocess.run([*test, "-q", "-p", "no:cacheprovider", "tests/tools"], cwd=TOP, check=False).returncode
    for way in [given.by] if given.by else WAYS:
        ended = subprocess.run([*test, "--by", way, *rest], cwd=TOP / "python", env={**os.environ, "FACT_GRAPH_LIBRARY": str(given.library)}, check=False)
        status = status or ended.returncode
    return status


if __name__ == "__main__":
    sys.exit(main(sys.argv[1:]))
