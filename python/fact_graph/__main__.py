"""The command line, as `fact-graph` and as `python -m fact_graph`.

The package itself needs nothing beside Python; its commands need some packages more, and say which where one is missing.
"""

from __future__ import annotations

import sys
from collections.abc import Sequence

from .status import Status

PACKAGES = {
    "click": ("python3-click", "click"),
    "jinja2": ("python3-jinja2", "Jinja2"),
    "lark": ("python3-lark", "lark"),
    "prompt_toolkit": ("python3-prompt-toolkit", "prompt-toolkit"),
    "rich": ("python3-rich", "rich"),
    "yaml": ("python3-yaml", "PyYAML"),
}
"""What the commands need, and the names of the packages that have it: Debian's, and that for pip."""


def main(words: Sequence[str] | None = None) -> int:
    """Runs the command that the words name, by default those of the command line, and returns its exit status."""
    try:
        from .commands import command_line  # pylint: disable=import-outside-toplevel # a missing package is answered here

        return command_line(sys.argv[1:] if words is None else words)
    except ModuleNotFoundError as missing:
        if missing.name not in PACKAGES:
            raise
        of_debian, of_pip = PACKAGES[missing.name]
        print(f"fact-graph: the command line needs {missing.name}: apt install {of_debian} brings it, and so does pip install {of_pip}", file=sys.stderr)
        return Status.NOT_INSTALLED


if __name__ == "__main__":
    sys.exit(main())
