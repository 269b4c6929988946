"""What the parser makes of an item: its parts with their places, before names are looked up."""

from __future__ import annotations

from dataclasses import dataclass, field

Span = tuple[int, int]

MOST_DEPTH = 120
"""How deep nodes may stand in each other. No text of JSON that the engine reads has more."""


class Misread(ValueError):
    """What is wrong with a part of a text, and where it stands."""

    def __init__(self, span: Span, reason: str) -> None:
        super().__init__(span, reason)
        self.span = span
        self.reason = reason


@dataclass
class Draft:
    """A node of an expression. `Word` is one that names an option or a member's fact: which of them isn't known yet."""

    name: str
    span: Span
    texts: tuple[str, ...] = ()
    operands: list[Draft] = field(default_factory=list)
    brackets: Span | None = None
    """Where the brackets around it stand."""
    cases: list[Span] = field(default_factory=list)
    """Of a Switch, where its cases stand."""
    depth: int = 1

    @property
    def outer(self) -> Span:
        """From its first word to its last, with its brackets."""
        return self.brackets or self.span

    def __post_init__(self) -> None:
        self.depth = 1 + max((operand.depth for operand in self.operands), default=0)
        if self.depth > MOST_DEPTH:
            raise Misread(self.span, f"more than {MOST_DEPTH} operations stand in each other here: give a part a fact of its own")


@dataclass
class Text:
    """A text with its place."""

    text: str
    span: Span


@dataclass
class StatedType:
    """A type: its name, what stands in brackets behind it, and whether that is a name and no path."""

    name: str
    of: str | None
    is_of_name: bool
    span: Span


@dataclass
class Limit:
    """A limit: its kind, its text, and the type of the constant by which it was written, None where it was none."""

    kind: str
    text: str
    constant: str | None
    span: Span


@dataclass
class Conditional:
    """A conditional: where its test is true, the value goes before the expression's."""

    test: Draft
    value: Draft
    span: Span


@dataclass
class Placeholder:
    """A placeholder."""

    value: Draft
    span: Span


@dataclass
class Definition:
    """What stands behind `=`."""

    main: Draft
    conditional: Conditional | None
    placeholder: Placeholder | None


@dataclass
class FactDraft:
    """A fact."""

    path: Text
    stated: StatedType
    header: Span
    """From the path to the last clause."""
    limits: list[Limit] = field(default_factory=list)
    placeholders: list[Placeholder] = field(default_factory=list)
    """Those among the clauses: at most one belongs there."""
    description: Text | None = None
    definition: Definition | None = None


@dataclass
class EnumDraft:
    """A list of options."""

    name: Text
    options: list[Text]
    span: Span


@dataclass
class RowDraft:
    """A row of a table: from which key on, and what it comes to."""

    key: Draft
    value: Draft
    span: Span


@dataclass
class TableDraft:
    """A table, with what stands below its first row."""

    name: Text
    keys: Text
    values: StatedType
    otherwise: Draft
    header: Span
    """From its first word to what stands below the first row."""
    rows: list[RowDraft] = field(default_factory=list)
    description: Text | None = None


@dataclass
class VersionDraft:
    """The version, and the description of all."""

    version: Text
    description: Text | None
    span: Span
