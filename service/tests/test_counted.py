"""What is counted in runs of faults: rows that are kept in a file, and their table."""

from __future__ import annotations

from pathlib import Path

import pytest

import faults
from counted import Row, add, rows_of, sums, table

ROWS = [
    Row("kill", "sqlite", 1, "2024-02-29", 4, 38, 49, 0, 0, 0, 12),
    Row("kill", "sqlite", 2, "2024-03-01", 4, 40, 1, 0, 0, 0, 8),
    Row("torn", "postgres", 1, "2024-03-01", 4, 36, 20, 1, 0, 2, 9),
    Row("torn", "postgres", 2, "2024-03-01", 200, 411, 80, 0, 0, 0, 31),
]


def test_rows_are_kept(tmp_path: Path) -> None:
    file = tmp_path / "runs.tsv"
    assert rows_of(file) == []
    for row in ROWS:
        add(file, row)
    assert rows_of(file) == ROWS
    assert [row.is_well() for row in ROWS] == [True, True, False, True]
    assert sums(ROWS[:2]) == "2 runs, 78 changes acknowledged, 50 requests repeated, 0 lost, 0 others, 0 wrong, 20 s"


def test_a_table_has_a_line_for_each_kind_store_and_number_of_visitors(tmp_path: Path, capsys: pytest.CaptureFixture[str]) -> None:
    file = tmp_path / "runs.tsv"
    for row in ROWS:
        add(file, row)
    assert list(table(ROWS))[2:] == [
        "| `kill` | sqlite | 4 | 2 | 78 | 50 | 0 | 0 | 0 | 10 | 2024-02-29 to 2024-03-01 |",
        "| `torn` | postgres | 4 | 1 | 36 | 20 | 1 | 0 | 2 | 9 | 2024-03-01 |",
        "| `torn` | postgres | 200 | 1 | 411 | 80 | 0 | 0 | 0 | 31 | 2024-03-01 |",
    ]
    assert faults.main(["--kept", str(file), "--table"]) == 0
    assert capsys.readouterr().out == "".join(f"{line}\n" for line in table(ROWS))


def test_what_was_run_is_not_run_again(tmp_path: Path, capsys: pytest.CaptureFixture[str]) -> None:
    file = tmp_path / "runs.tsv"
    for row in ROWS[:2]:
        add(file, row)
    assert faults.main(["--kept", str(file), "--runs", "2", "--store", "sqlite", "kill"]) == 0
    assert capsys.readouterr().out == f"faults: {sums([])}\n"
