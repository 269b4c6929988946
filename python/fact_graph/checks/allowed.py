"""What a maker lets stand: a file `NAME.lint` beside the rules, whether they are written as JSON or as text.

    # Wages are taken from payslips, and no payslip says so much.
    allow overflow /wages
    allow unused-answer /caseNumber

A line allows a check for a fact, or for a table by its name, and the note above it says why: one is asked for. By fact and not by node,
so that a line stays when the rules are written anew.
"""

from __future__ import annotations

from collections.abc import Iterable
from typing import NamedTuple

from ..errors import FactGraphError
from ..wording import meant
from .findings import CHECKS, Finding


class NotAllowed(FactGraphError):
    """A line of a `.lint` file has no form, or allows what there isn't."""

    def __init__(self, line: int, message: str) -> None:
        self.line = line
        self.message = message
        super().__init__(line, message)

    def __str__(self) -> str:
        return f"line {self.line}: {self.message}"


class Allowance(NamedTuple):
    """A check that is let stand for a fact or a table, and why."""

    check: str
    path: str
    reason: str
    line: int


def read_allowances(text: str, paths: Iterable[str]) -> list[Allowance]:
    """The allowances of a text over rules that have these facts and tables.

    >>> read_allowances("# payslips say less\\nallow overflow /wages\\n", ["/wages"])
    [Allowance(check='overflow', path='/wages', reason='payslips say less', line=2)]
    """
    known, note, found = list(paths), "", []
    for number, line in enumerate(text.splitlines(), 1):
        words = line.split()
        if not words:
            note = ""
        elif line.startswith("#"):
            note = f"{note} {line[1:].strip()}".strip()
        else:
            found.append(_allowance(words, known, note, number))
    return found


def _allowance(words: list[str], known: list[str], note: str, number: int) -> Allowance:
    if len(words) != 3 or words[0] != "allow":
        raise NotAllowed(number, "write `allow CHECK /path`")
    _, check, path = words
    for word, among, kind in ((check, list(CHECKS), "check"), (path, known, "fact or table")):
        if word not in among:
            raise NotAllowed(number, f"there is no {kind} {word}{meant(word, among)}")
    if not note:
        raise NotAllowed(number, "a note above it, `# ..`, is to say why")
    return Allowance(check, path, note, number)


def left_over(found: Iterable[Finding], allowances: Iterable[Allowance]) -> tuple[list[Finding], list[Allowance]]:
    """The findings that aren't allowed, and the allowances that allow nothing."""
    kept, allowed = list(found), {(it.check, it.path): it for it in allowances}
    unused = [it for place, it in allowed.items() if place not in {(one.check, one.path) for one in kept}]
    return [it for it in kept if (it.check, it.path) not in allowed], unused
