"""Rules as text are read into the JSON of a dictionary, with the place of each part."""

from __future__ import annotations

import functools
import json
import re
from collections.abc import Callable
from functools import partial
from typing import Any, TypeVar

from lark import Lark, UnexpectedInput

from ..errors import FactGraphError
from ..located import Document, Place
from .building import Builder
from .comments import Notes, noted
from .declared import Declared
from .drafts import EnumDraft, FactDraft, Misread, Span, TableDraft, VersionDraft
from .expected import told
from .reading import Reader, type_text
from .scanning import Item, Scan, scan

KIND = re.compile(r"(version|enum|table)(?![A-Za-z0-9_-])|[/`.]")
NO_KIND = "`version`, `enum`, `table` or the path of a fact belongs at the left edge; what goes on with a fact is indented"
NO_ITEM = "nothing stands before this line, so it can't be indented"
LISTED = ("enums", "tables", "facts")
"""The lists of a dictionary, in their order."""
ItemDraft = VersionDraft | EnumDraft | TableDraft | FactDraft
Made = TypeVar("Made")


class NotRules(FactGraphError, ValueError):
    """A text isn't one of rules. `faults` has each place where it isn't, and why."""

    def __init__(self, faults: list[tuple[Place, str]]) -> None:
        super().__init__(faults)
        self.faults = faults

    def __str__(self) -> str:
        return "\n".join(f"{place}: {reason}" for place, reason in self.faults)


class Rules(Document):
    """A text of rules: `value` is the JSON of its dictionary, and `place` where each part of that stands in the text."""

    def __init__(self, text: str) -> None:
        super().__init__(text)
        self.notes = Notes()
        """Its comments, and the blank lines between its items."""

    @property
    def json(self) -> bytes:
        """The dictionary as a file of JSON, with a line for each list of options, table and fact."""
        top = {key: value for key, value in self.value.items() if key not in LISTED}
        parts = [f"{_compact(key)}:{_compact(value)}" for key, value in top.items()]
        parts += [_lines(key, self.value[key]) for key in LISTED if key in self.value]
        return ("{" + ",\n".join(parts) + "\n]}\n").encode()


def _compact(value: Any) -> str:
    return json.dumps(value, ensure_ascii=False, separators=(",", ":"))


def _lines(key: str, values: list[Any]) -> str:
    """A list with a line for each of its values, and its end on the line of the last, but for the facts."""
    end = "" if key == "facts" else "]"
    return f"{_compact(key)}:[\n" + ",\n".join(map(_compact, values)) + end


@functools.cache
def grammar() -> Lark:
    """The parser of items."""
    return Lark.open("grammar.lark", rel_to=__file__, parser="lalr", start=["version", "enum", "table", "fact"], keep_all_tokens=True)


def parse(text: str) -> Rules:
    r"""Reads a text of rules. Raises `NotRules` where it isn't one.

    >>> rules = parse("version 2\n\n/a: Int\n/s: Int = /a + 1\n")
    >>> rules.value["facts"][1]
    {'path': '/s', 'derived': 'Int', 'is': ['Add', ['Dependency', '/a'], ['Int', '1']]}
    >>> rules.place(("facts", 1, "is", 2))
    Place(line=4, column=16)
    >>> parse("version 2\n\n/s: Int = 1 +\n")
    Traceback (most recent call last):
    fact_graph.rules.parsing.NotRules: line 3, column 14: a value belongs here, and nothing follows
    """
    return _Parser(text).rules()


class _Parser:
    """Reads one text, and goes on behind a fault with the next item."""

    def __init__(self, text: str) -> None:
        self.document = Rules(text)
        self.faults: dict[tuple[Span, str], None] = {}

    def rules(self) -> Rules:
        """The rules that the text says."""
        found = scan(self.document.text)
        if found.bare.startswith("\ufeff"):
            raise NotRules([(self.document.place_at(0), "a byte-order mark stands before the text: save the file as UTF-8 without one")])
        tried = [self._tried(partial(self._draft, found, item)) for item in found.items]
        drafts = [draft for draft in tried if draft]
        self._order(drafts)
        reader = Reader(self._declared(drafts), next((it.version.text for it in drafts if isinstance(it, VersionDraft)), ""))
        self.document.value = self._value(drafts, reader)
        if self.faults:
            raise NotRules([(self.document.place_at(span[0]), reason) for span, reason in sorted(self.faults)])
        for pointer, span in reader.spans.items():
            self.document.note(pointer, span[0])
        self.document.notes = noted(found, reader.units)
        return self.document

    def _tried(self, make: Callable[[], Made]) -> Made | None:
        """What is made, or None where a fault was found."""
        try:
            return make()
        except Misread as wrong:
            self._fault(wrong.span, wrong.reason)
            return None

    def _fault(self, span: Span, reason: str) -> None:
        self.faults[span, reason] = None

    def _draft(self, found: Scan, item: Item) -> ItemDraft:
        """What an item says, as far as the grammar knows."""
        text = found.bare[item.start : item.end]
        kind = KIND.match(text)
        if kind is None:
            indent = len(text) - len(text.lstrip())
            raise Misread((item.start + indent, item.end), NO_ITEM if indent else NO_KIND)
        try:
            tree = grammar().parse(text, start=kind[1] or "fact")
        except UnexpectedInput as wrong:
            at, reason = told(wrong, text)
            raise Misread((item.start + at, item.end), reason) from wrong
        draft: ItemDraft = Builder(item.start).draft(tree)
        return draft

    def _order(self, drafts: list[ItemDraft]) -> None:
        """Notes what stands out of its order: first the version, then the lists of options, then the tables, then the facts."""
        if not self.faults and not (drafts and isinstance(drafts[0], VersionDraft)):
            self._fault((0, 0), "rules begin with their version, as `version 2`")
        has_tables = has_facts = False
        for at, draft in enumerate(drafts):
            has_tables |= isinstance(draft, TableDraft)
            has_facts |= isinstance(draft, FactDraft)
            if at and isinstance(draft, VersionDraft):
                self._fault(draft.span, "the version stands once, before all else")
            elif isinstance(draft, EnumDraft) and (has_tables or has_facts):
                self._fault(draft.span, f"the lists of options stand before the {'facts' if has_facts else 'tables'}")
            elif isinstance(draft, TableDraft) and has_facts:
                self._fault(draft.header, "the tables stand before the facts")

    def _declared(self, drafts: list[ItemDraft]) -> Declared:
        """The types of the facts, and the lists of options."""
        facts = [(it.path.text, self._tried(partial(type_text, it.stated)) or "") for it in drafts if isinstance(it, FactDraft)]
        return Declared(facts, [(it.name.text, [option.text for option in it.options]) for it in drafts if isinstance(it, EnumDraft)])

    def _value(self, drafts: list[ItemDraft], reader: Reader) -> dict[str, Any]:
        """The JSON of the drafts. A part with a fault is none."""
        value: dict[str, Any] = {}
        lists: dict[str, list[Any]] = {key: [] for key in LISTED}
        for draft in drafts:
            if isinstance(draft, VersionDraft):
                value |= self._tried(partial(reader.version, draft)) or {}
            elif isinstance(draft, EnumDraft):
                lists["enums"].append(self._tried(partial(reader.enum, draft, ("enums", len(lists["enums"])))))
            elif isinstance(draft, TableDraft):
                lists["tables"].append(self._tried(partial(reader.table, draft, ("tables", len(lists["tables"])))))
            else:
                lists["facts"].append(self._tried(partial(reader.fact, draft, ("facts", len(lists["facts"])))))
        return value | {key: stated for key, stated in lists.items() if stated or key == "facts"}
