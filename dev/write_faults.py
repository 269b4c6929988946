#!/usr/bin/env python3
"""Writes the tables of docs/FAULTS.md and the header fact_graph_text.h from python/fact_graph/faults/texts.toml, or checks that they are
written so.

    dev/write_faults.py [--check]

With --check nothing is written, and the exit status is 1 where the page has other tables or the header other texts. Else it is 0.
"""

from __future__ import annotations

import argparse
import re
import sys
import textwrap
from collections.abc import Iterator
from pathlib import Path
from typing import Any

import tomllib

TOP = Path(__file__).resolve().parent.parent
PAGE = TOP / "docs" / "FAULTS.md"
HEADER = TOP / "crates" / "fact_graph_c" / "fact_graph_text.h"
TEXTS = TOP / "python" / "fact_graph" / "faults" / "texts.toml"

COLUMNS = {
    "dictionary": {"No.": "number", "Line": "line", "It says that": "says", "Example": "example", "How to mend it": "mend"},
    "command": {"No.": "number", "Reply": "reply", "It says that": "says", "How to mend it": "mend"},
    "library": {"No.": "number", "Fault": "line", "It says that": "says", "How to mend it": "mend"},
    "saved": {"Under": "under", "A line is wrong that": "wrong", "How to mend it": "mend"},
}
"""The headings of each table, and what of a row stands below them."""
AS_CODE = ("line", "reply", "under")


def table(name: str, rows: list[dict[str, Any]]) -> list[str]:
    """The lines of a table."""
    columns = COLUMNS[name]
    lines = [" | ".join(columns), "|".join(["---"] * len(columns))]
    lines += [" | ".join(f"`{row[key]}`" if key in AS_CODE else str(row[key]) for key in columns.values()) for row in rows]
    return [f"|{line}|" if line.startswith("---") else f"| {line} |".replace("|  |", "| |") for line in lines]


def written(page: str, tables: dict[str, list[dict[str, Any]]]) -> Iterator[str]:
    """The lines of the page with these tables in place of those of the same headings."""
    heads = {table(name, [])[0]: table(name, rows) for name, rows in tables.items()}
    is_within = False
    for line in page.splitlines():
        is_within = line.startswith("|") and (is_within or line in heads)
        if line in heads:
            yield from heads[line]
        elif not is_within:
            yield line


# ---- the header

KINDS = {"FAULT": ("dictionary", "library"), "REFUSED": ("command",)}
"""By the kind of a number the tables that have it."""
WIDTH = 120

HEAD = """/* What the numbers of fact_graph.h mean, in words. dev/write_faults.py makes this file of python/fact_graph/faults/texts.toml.
 *
 * It is C99 and C++17, and needs nothing else: fact_graph_text is compiled into the program that calls it. */
#ifndef FACT_GRAPH_TEXT_H
#define FACT_GRAPH_TEXT_H

#include <stdint.h>

/* What a number is of: FACT_GRAPH_FAULT_.., why no session was opened, or FACT_GRAPH_REFUSED_.., why a command changed nothing. */
"""
DEFINED = """
/* What the fault or the refusal of this number says, in English and ASCII; names, and what is typed, stand between backticks. Where it
 * is said of two cases, each stands behind its line. A number or a kind that this header doesn't know has a text that says so. The text
 * stands for good, and is never null. */
static inline const char *fact_graph_text(uint32_t kind, uint32_t number) {
"""
TAIL = """  return "There is no text for this number.";
}

#endif
"""


def text_of(rows: list[dict[str, Any]]) -> str:
    """What is said of a number, without links."""
    says = rows[0]["says"] if len(rows) == 1 else " ".join(f"`{row['line']}`: {row['says']}" for row in rows)
    text = re.sub(r"\[([^\]]*)\]\([^)]*\)", r"\1", says)
    assert text.isascii() and text.isprintable(), text
    return text


def literal(text: str, indent: str) -> str:
    """A text as C has it, in as many lines as it takes."""
    quoted = text.replace("\\", "\\\\").replace('"', '\\"')
    parts = textwrap.wrap(quoted, WIDTH - len(indent) - 3, break_on_hyphens=False, break_long_words=False)
    return f"\n{indent}".join(f'"{part}{" " if at + 1 < len(parts) else ""}"' for at, part in enumerate(parts))


def header(tables: dict[str, list[dict[str, Any]]]) -> str:
    """The text of the header."""
    defines = "".join(f"#define FACT_GRAPH_TEXT_{kind} {at}u\n" for at, kind in enumerate(KINDS))
    body = ""
    for kind, names in KINDS.items():
        rows = [row for name in names for row in tables[name]]
        body += f"  if (kind == FACT_GRAPH_TEXT_{kind}) {{\n    switch (number) {{\n"
        for number in sorted({row["number"] for row in rows}):
            said = literal(text_of([row for row in rows if row["number"] == number]), " " * 15)
            body += f"      case {number}u:\n        return {said};\n"
        body += "      default:\n        break;\n    }\n  }\n"
    return HEAD + defines + DEFINED + body + TAIL


# ---- both

def main(argv: list[str]) -> int:
    """Writes or checks both."""
    words = argparse.ArgumentParser(description=__doc__, formatter_class=argparse.RawDescriptionHelpFormatter)
    words.add_argument("--check", action="store_true", help="writes nothing")
    given = words.parse_args(argv)
    tables = tomllib.loads(TEXTS.read_text(encoding="utf-8"))
    due = {PAGE: "\n".join(written(PAGE.read_text(encoding="utf-8"), tables)) + "\n", HEADER: header(tables)}
    if given.check:
        other = [path for path, text in due.items() if not path.is_file() or path.read_text(encoding="utf-8") != text]
        for path in other:
            print(f"{path.relative_to(TOP)} doesn't say what texts.toml does: run dev/write_faults.py")
        return int(bool(other))
    for path, text in due.items():
        path.write_text(text, encoding="utf-8")
    return 0


if __name__ == "__main__":
    sys.exit(main(sys.argv[1:]))
