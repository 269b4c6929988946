"""Files of cases: in YAML, where a case is written out, and in CSV, where each line of a table is a case."""

from __future__ import annotations

import csv
import io
from collections.abc import Callable, Iterable, Iterator
from datetime import date
from pathlib import Path
from typing import Any

import yaml

from ..wording import meant
from .model import Case, CaseError, Entry, Members, Place

Node = Any
FILE_KEYS = ("cases", "given", "cites", "date")
CASE_KEYS = ("title", "given", "due", "overrides", "cites", "date")


def read_cases(name: str, text: bytes) -> list[Case]:
    """The cases of a file, which is a table where its name ends in `.csv`. Raises `CaseError` for what has no form.

    >>> [case] = read_cases("a.csv", b"title,/rent,due /help\\nA renter,800,120.00\\n")
    >>> case.title, case.given[0].path, case.due[0].text
    ('A renter', '/rent', '120.00')
    """
    try:
        decoded = text.decode("utf-8-sig")
    except UnicodeDecodeError as wrong:
        line = text.count(b"\n", 0, wrong.start) + 1
        raise CaseError(Place(name, line, wrong.start - text.rfind(b"\n", 0, wrong.start)), "the file is no UTF-8") from wrong
    return list(_of_table(name, decoded) if name.endswith(".csv") else _of_yaml(name, decoded))


def files_of(place: Path) -> list[Path]:
    """The files of cases in a folder, or those beside a file of rules: `screener.cases.yaml` of `screener.json`."""
    folder, pattern = (place, "*") if place.is_dir() else (place.parent, place.stem)
    found = [file for end in ("yaml", "csv") for file in folder.glob(f"{pattern}.cases.{end}")]
    return sorted(found)


# ---- YAML


def _of_yaml(name: str, text: str) -> Iterator[Case]:
    try:
        root = yaml.compose(text, Loader=yaml.SafeLoader)
    except yaml.MarkedYAMLError as wrong:
        mark = wrong.problem_mark or wrong.context_mark
        place = Place(name, mark.line + 1, mark.column + 1) if mark else Place(name, 1, 1)
        raise CaseError(place, f"this is no YAML: {wrong.problem or wrong.context}") from wrong
    except yaml.YAMLError as wrong:
        raise CaseError(Place(name, 1, 1), f"this is no YAML: {wrong}") from wrong
    if root is None:
        raise CaseError(Place(name, 1, 1), "the file has no cases")
    yield from _Written(name).cases(root)


class _Written:
    """Reads the nodes of a YAML file, each scalar as the text that it is."""

    def __init__(self, name: str) -> None:
        self.name = name

    def cases(self, root: Node) -> Iterator[Case]:
        """The cases of the file, with what is given to all of them."""
        top = self.keyed(root, FILE_KEYS)
        if "cases" not in top:
            raise CaseError(self.place(root), "the file has no `cases`")
        shared = self.given(top["given"]) if "given" in top else []
        for node in self.items(top["cases"]):
            yield self.case(self.keyed(node, CASE_KEYS), self.place(node), top, shared)

    def case(self, parts: dict[str, Node], place: Place, top: dict[str, Node], shared: list[Entry | Members]) -> Case:
        """A case of its parts."""
        for key in ("title", "due"):
            if key not in parts:
                raise CaseError(place, f"the case has no `{key}`")
        own = self.given(parts["given"]) if "given" in parts else []
        told = {**top, **parts}
        return Case(
            self.text(parts["title"]),
            place,
            (*_unsaid(shared, own), *own),
            tuple(entry for path, node in self.pairs(parts["due"]) for entry in self.entries(path, node)),
            tuple(entry for path, node in self.pairs(parts.get("overrides")) for entry in self.entries(path, node)),
            self.text(told["cites"]) if "cites" in told else "",
            self.day(told["date"]) if "date" in told else "",
        )

    def given(self, node: Node) -> list[Entry | Members]:
        """The answers below `given`: a mapping or a list is a collection, and all else is an answer."""
        found: list[Entry | Members] = []
        for path, below in self.pairs(node):
            if isinstance(below, yaml.SequenceNode):
                names = tuple(self.text(item) for item in below.value)
                found.append(Members(path, names, self.place(below)))
            elif isinstance(below, yaml.MappingNode):
                found.append(Members(path, tuple(name for name, _ in self.pairs(below)), self.place(below)))
                found.extend(self.entries(path, below))
            else:
                found.extend(self.entries(path, below))
        return found

    def entries(self, path: str, node: Node) -> Iterator[Entry]:
        """What stands behind a path: one text, or a mapping of names of members and facts."""
        if isinstance(node, yaml.MappingNode):
            if path.count("/") > 2:
                raise CaseError(self.place(node), f"here belongs one value, that of {path}")
            for name, below in self.pairs(node):
                if path.count("/") == 1 and isinstance(below, yaml.ScalarNode) and below.value == "":
                    continue  # a member of whom nothing more is said
                yield from self.entries(f"{path}/{name.removeprefix('/')}", below)
        elif isinstance(node, yaml.SequenceNode):
            yield Entry(path, f"[{' '.join(self.text(item) for item in node.value)}]", self.place(node))
        else:
            yield Entry(path, self.text(node), self.place(node))

    def pairs(self, node: Node | None) -> Iterator[tuple[str, Node]]:
        """The keys of a mapping, each of which stands once, and what is behind them."""
        if node is None or isinstance(node, yaml.ScalarNode) and node.value == "":
            return
        if not isinstance(node, yaml.MappingNode):
            raise CaseError(self.place(node), "here belong lines of the form `/path: value`")
        seen: set[str] = set()
        for key, below in node.value:
            text = self.text(key)
            if text in seen:
                raise CaseError(self.place(key), f"`{text}` stands twice")
            seen.add(text)
            yield text, below

    def keyed(self, node: Node, keys: Iterable[str]) -> dict[str, Node]:
        """A mapping that has these keys alone."""
        found: dict[str, Node] = {}
        for key, below in self.pairs(node):
            if key not in keys:
                place = next(self.place(it) for it, _ in node.value if it.value == key)
                raise CaseError(place, f"`{key}` is none of {', '.join(keys)}{meant(key, keys)}")
            found[key] = below
        return found

    def items(self, node: Node) -> list[Node]:
        """The items of a list."""
        if not isinstance(node, yaml.SequenceNode):
            raise CaseError(self.place(node), "`cases` is a list: begin each case with `- title:`")
        items: list[Node] = node.value
        return items

    def text(self, node: Node) -> str:
        """The text of a scalar, as it is written."""
        if not isinstance(node, yaml.ScalarNode):
            raise CaseError(self.place(node), "here belongs one value")
        text: str = node.value
        return text

    def day(self, node: Node) -> str:
        """The text of a day."""
        return a_day(self.text(node), self.place(node))

    def place(self, node: Node) -> Place:
        """Where a node begins."""
        return Place(self.name, node.start_mark.line + 1, node.start_mark.column + 1)


def _unsaid(shared: list[Entry | Members], own: list[Entry | Members]) -> Iterator[Entry | Members]:
    """What is given to all cases and not by the case itself: a collection that the case opens is its own as a whole."""
    paths = {said.path for said in own}
    opened = tuple(f"{said.path}/" for said in own if isinstance(said, Members))
    return (said for said in shared if said.path not in paths and not said.path.startswith(opened))


# ---- CSV


def _of_table(name: str, text: str) -> Iterator[Case]:
    first = text.partition("\n")[0]
    lines = csv.reader(io.StringIO(text, newline=""), delimiter="," if "," in first else ";", strict=True)
    columns: list[Callable[[_Line, str, Place], None]] | None = None
    while True:
        begins = lines.line_num + 1
        try:
            fields = next(lines)
        except StopIteration:
            break
        except csv.Error as wrong:
            raise CaseError(Place(name, lines.line_num, 1), f"this is no CSV: {wrong}") from wrong
        if columns is None:
            columns = [_column(field.strip(), Place(name, begins, at)) for at, field in enumerate(fields, 1)]
        elif any(field.strip() for field in fields):
            yield _line(columns, fields, Place(name, begins, 1))
    if columns is None:
        raise CaseError(Place(name, 1, 1), "the file has no cases")


class _Line:
    """A line of a table as it is read."""

    def __init__(self) -> None:
        self.about = {"title": "", "cites": "", "date": ""}
        self.members: dict[str, Members] = {}
        self.given: list[Entry] = []
        self.entries: dict[str, list[Entry]] = {"due": [], "override": []}


def _line(columns: list[Callable[[_Line, str, Place], None]], fields: list[str], place: Place) -> Case:
    if len(fields) > len(columns):
        raise CaseError(place._replace(column=len(columns) + 1), f"the line has {len(fields)} fields, and the first has {len(columns)}")
    line = _Line()
    for at, (column, field) in enumerate(zip(columns, fields), 1):
        if field.strip():
            column(line, field.strip(), place._replace(column=at))
    return Case(
        line.about["title"] or f"line {place.line}",
        place,
        (*line.members.values(), *line.given),
        tuple(line.entries["due"]),
        tuple(line.entries["override"]),
        line.about["cites"],
        line.about["date"],
    )


def _column(header: str, place: Place) -> Callable[[_Line, str, Place], None]:
    """What a field of the column says of its line's case."""
    word, _, path = header.partition(" ")
    if header in ("title", "cites"):
        return lambda line, text, place: line.about.update({header: text})
    if header == "date":
        return lambda line, text, place: line.about.update(date=a_day(text, place))
    if word in ("due", "override") and path.startswith("/"):
        return lambda line, text, place: line.entries[word].append(Entry(path.strip(), text, place))
    if header.startswith("/"):
        return lambda line, text, place: _give(line, Entry(header, text, place))
    raise CaseError(place, f"`{header}` is no column: write title, cites, date, /PATH, due /PATH or override /PATH")


def _give(line: _Line, entry: Entry) -> None:
    """An answer of a table. A member is there where its line says something of it, or where its collection lists it."""
    if entry.text.startswith("[") and entry.text.endswith("]"):
        line.members[entry.path] = Members(entry.path, names_in(entry.text), entry.place)
        return
    parts = entry.path.split("/")
    if len(parts) == 4:
        path, name = f"/{parts[1]}", parts[2]
        so_far = line.members.get(path, Members(path, (), entry.place))
        if name not in so_far.names:
            line.members[path] = so_far._replace(names=(*so_far.names, name))
    line.given.append(entry)


# ---- both


def names_in(text: str) -> tuple[str, ...]:
    """The names of members that a text lists.

    >>> names_in("[ann, ben]"), names_in("[ann ben]"), names_in("[]")
    (('ann', 'ben'), ('ann', 'ben'), ())
    """
    return tuple(text[1:-1].replace(",", " ").split())


def a_day(text: str, place: Place) -> str:
    """The text, which is that of a day."""
    try:
        return date.fromisoformat(text).isoformat()
    except ValueError as wrong:
        raise CaseError(place, f"`{text}` is no day: write it as 2025-01-31") from wrong
