"""What a case says: answers that are given, and figures that are due."""

from __future__ import annotations

from typing import NamedTuple

from ..errors import FactGraphError


class Place(NamedTuple):
    """A place in a file of cases: a line, and a column of it, each from 1. In a table the columns are its fields."""

    file: str
    line: int
    column: int

    def __str__(self) -> str:
        return f"{self.file}:{self.line}:{self.column}"


class CaseError(FactGraphError):
    """A file of cases says what can't be: it hasn't the form, names no fact, or gives an answer that is refused."""

    def __init__(self, place: Place, message: str) -> None:
        self.place = place
        self.message = message
        super().__init__(place, message)

    def __str__(self) -> str:
        return f"{self.place}: {self.message}"


class Entry(NamedTuple):
    """A path with what stands behind it, as `/people/ann/born` and `1991-04-02`."""

    path: str
    text: str
    place: Place


class Members(NamedTuple):
    """A collection that is opened, with the names that the case gives to its members."""

    path: str
    names: tuple[str, ...]
    place: Place


class Case(NamedTuple):
    """A case: a title, what is given, and what is due. `cites` and `date` say which text of the law it is of, and of what day."""

    title: str
    place: Place
    given: tuple[Entry | Members, ...]
    due: tuple[Entry, ...]
    overrides: tuple[Entry, ...] = ()
    cites: str = ""
    date: str = ""
