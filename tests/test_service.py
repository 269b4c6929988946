#!/usr/bin/python3
"""Tests the interview service of service/ over the C library: its calls and its safety over both stores, the page in two browsers, also
without the service and beside the program, the page's parts by node, the types of the page's code by tsc, and each fault once.

    tests/test_service.py [--library PATH] [--program PATH] [ARGUMENT OF pytest..]

With arguments for pytest, pytest alone is run. The exit status is 0 where all passed, 1 where something didn't, and 2 where the
library, the program or a tool is missing.
"""
import os
import subprocess
import sys

from harness import TOP, add_library, add_program, tool, words_of

SERVICE = TOP / "service"


def main(argv: list[str]) -> int:
    """Runs the service's tests, all of them also where one fails."""
    words = words_of(__doc__)
    add_library(words)
    add_program(words)
    given, rest = words.parse_known_args(argv)
    path = os.pathsep.join(str(folder) for folder in (TOP / "python", SERVICE, SERVICE / "tests"))
    environment = {**os.environ, "FACT_GRAPH_LIBRARY": str(given.library), "FACT_GRAPH_PROGRAM": str(given.program), "PYTHONPATH": path}
    commands = [[sys.executable, "-B", "-m", "pytest", "-q", "-p", "no:cacheprovider", *rest]]
    if not rest:
        commands += [[tool("node"), "--test", "tests/page"], [tool("tsc", "node-typescript"), "-p", "jsconfig.json"], [sys.executable, "-B", "tests/faults.py"]]
    statuses = [subprocess.run(command, cwd=SERVICE, env=environment, check=False).returncode for command in commands]
    return int(any(statuses))


if __name__ == "__main__":
    sys.exit(main(sys.argv[1:]))
