"""docs/CASES.md: what it shows of files stands in them, and its table of checks is that of the command."""

from __future__ import annotations

import re

import pytest

from fact_graph.checks import CHECKS

from .places import EXAMPLES, TOP

PAGE = (TOP / "docs" / "CASES.md").read_text()


@pytest.mark.parametrize("form, name", [("csv", "screener.cases.csv"), ("text", "screener.lint")])
def test_files(form: str, name: str) -> None:
    """What is shown of a file stands in it."""
    [shown] = re.findall(rf"```{form}\n(.*?)```", PAGE, re.DOTALL)
    assert shown in (EXAMPLES / name).read_text()


def test_the_case_that_is_shown() -> None:
    """Each of its lines stands in the file, in this order."""
    [shown] = re.findall(r"```yaml\n(.*?)```", PAGE, re.DOTALL)
    lines = iter((EXAMPLES / "screener.cases.yaml").read_text().splitlines())
    assert [line for line in shown.splitlines() if line not in lines] == []


def test_checks() -> None:
    """The table has each check, with the words of the command's help."""
    rows = re.findall(r"^\| `[a-z-]+` \| .* \|$", PAGE.partition("## What may be wrong")[2], re.MULTILINE)
    assert rows == [f"| `{check}` | {says} |" for check, says in CHECKS.items()]
