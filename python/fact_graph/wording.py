"""Words for people that several parts of the package say."""

from __future__ import annotations

from collections.abc import Iterable, Iterator, Sequence

from .faults.finding import nearest


def meant(word: str, known: Iterable[str]) -> str:
    """The word that was perhaps meant, as the end of a sentence.

    >>> "no fact /wagse" + meant("/wagse", ["/bill", "/wages"])
    'no fact /wagse; did you mean `/wages`?'
    """
    like = nearest(word, known)
    return f"; did you mean `{like}`?" if like else ""


def table(rows: Sequence[Sequence[str]], indent: str = "  ") -> Iterator[str]:
    """Rows in columns that stand below each other.

    >>> print("\\n".join(table([("figure", "due"), ("/help", "620.00")])))
      figure  due
      /help   620.00
    """
    widths = [max(len(row[at]) for row in rows) for at in range(len(rows[0]))]
    for row in rows:
        yield indent + "  ".join(cell.ljust(width) for cell, width in zip(row, widths)).rstrip()
