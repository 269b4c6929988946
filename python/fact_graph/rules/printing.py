"""The JSON of a dictionary as rules that people read: each dictionary has one text."""

from __future__ import annotations

from typing import Any

from ..located import Pointer
from .comments import Notes
from .declared import OF, Declared, enum_of, scope_of
from .layout import HARD, SPACE, Doc, Remark, group, laid, nest, row
from .literals import NAME, quoted, written
from .nodes import Printer, entry_text, path_text

BOUNDS = {"Min": "from", "Max": "to"}


def text_of(dictionary: dict[str, Any], notes: Notes | None = None) -> str:
    r"""The text of a dictionary that has the form of one, with the comments and blank lines of these notes.

    >>> print(text_of({"version": "2", "facts": [
    ...     {"path": "/a", "writable": "Dollar", "limits": [["Min", "0"]], "placeholder": ["Dollar", "0"], "description": "So far."},
    ...     {"path": "/s", "derived": "Dollar", "is": ["Multiply", ["Dependency", "/a"], ["Rational", "1/2"]]}]}), end="")
    version 2
    <BLANKLINE>
    /a: Dollar, from $0, placeholder $0
      "So far."
    /s: Dollar = /a * 1/2
    """
    return _Text(dictionary, notes).all()


class _Text:
    """Prints one dictionary."""

    def __init__(self, dictionary: dict[str, Any], notes: Notes | None) -> None:
        self.dictionary = dictionary
        self.enums: list[dict[str, Any]] = dictionary.get("enums", [])
        self.tables: list[dict[str, Any]] = dictionary.get("tables", [])
        self.facts: list[dict[str, Any]] = dictionary["facts"]
        types = ((fact["path"], stated_type(fact)) for fact in self.facts)
        self.declared = Declared(types, ((enum["name"], enum["options"]) for enum in self.enums))
        parted: list[Pointer] = [("enums", 0), ("facts", 0), *(("tables", at) for at in range(len(self.tables)))]
        self.notes = notes or Notes(before={pointer: [""] for pointer in parted})
        self.printer = Printer(self.declared, self.notes)

    def all(self) -> str:
        """The whole text."""
        items = [self._item(("version",), self._version())]
        items += [self._item(("enums", at), self._enum(enum, ("enums", at))) for at, enum in enumerate(self.enums)]
        items += [self._item(("tables", at), self._table(table, ("tables", at))) for at, table in enumerate(self.tables)]
        items += [self._item(("facts", at), self._fact(fact, ("facts", at))) for at, fact in enumerate(self.facts)]
        lines = [*(line for item in items for line in item), *self.notes.after]
        return "".join(f"{line}\n" for at, line in enumerate(lines) if line or at and lines[at - 1]).rstrip("\n") + "\n"

    def _item(self, pointer: Pointer, doc: Doc) -> list[str]:
        """The lines of an item, with its comments."""
        behind = "".join(f"  {comment}" for comment in self.notes.behind.get(pointer, []))
        below = [f"  {comment}" for comment in self.notes.below.get(pointer, [])]
        return [*self.notes.before.get(pointer, []), laid(doc) + behind, *below]

    def _remarks(self, pointer: Pointer) -> Doc:
        return row(*map(Remark, self.notes.trailing.get(pointer, [])))

    def _version(self) -> Doc:
        pointer: Pointer = ("description",)
        lines: list[Doc] = [f"version {self.dictionary['version']}", self._remarks(("version",))]
        if "description" in self.dictionary:
            lines.append(nest(HARD, self.printer.leading(pointer), quoted(self.dictionary["description"])))
        return row(*lines)

    def _enum(self, enum: dict[str, Any], pointer: Pointer) -> Doc:
        first, *others = enum["options"]
        options = nest(SPACE, first, *(row(",", SPACE, option) for option in others))
        return row(group(f"enum {enum['name']}:", options), self._remarks(pointer))

    def _table(self, table: dict[str, Any], pointer: Pointer) -> Doc:
        keys, values = table["from"], table["to"]
        header = f"table {table['name']}: {keys} to {values}, otherwise {entry_text(values, table['else'])}"
        rows: list[Doc] = []
        for at, (key, value) in enumerate(table["rows"]):
            here = (*pointer, "rows", at)
            words = f"from {entry_text(keys, key)}: {entry_text(values, value)}"
            rows.append(nest(HARD, self.printer.leading(here), words, self._remarks(here)))
        return row(header, self._remarks(pointer), *self._description(table, pointer), *rows)

    def _fact(self, fact: dict[str, Any], pointer: Pointer) -> Doc:
        header = f"{path_text(fact['path'])}: {type_words(stated_type(fact))}"
        description = self._description(fact, pointer)
        if "is" not in fact:
            return row(group(header, nest(*self._clauses(fact, pointer))), self._remarks(pointer), *description)
        main = self.printer.root(fact["is"], (*pointer, "is"), scope_of(fact["path"]), enum_of(fact["derived"]))
        leading = self.printer.leading((*pointer, "is"))
        if description:
            body = row(header, self._remarks(pointer), *description, nest(HARD, leading, "= ", nest(main)))
        else:
            body = row(group(header, " =", self._remarks(pointer), nest(SPACE, leading, main)))
        return row(body, *self._conditional(fact, pointer), *self._placeholder(fact, pointer))

    def _description(self, item: dict[str, Any], pointer: Pointer) -> list[Doc]:
        if "description" not in item:
            return []
        at = (*pointer, "description")
        return [nest(HARD, self.printer.leading(at), quoted(item["description"])), self._remarks(at)]

    def _clauses(self, fact: dict[str, Any], pointer: Pointer) -> list[Doc]:
        """What stands behind the type of a fact that a person answers."""
        clauses: list[Doc] = []
        limits = list(fact.get("limits", []))
        while limits:
            kind, text = limits.pop(0)
            words = limit_words(kind, text, fact["writable"])
            if kind == "Min" and words.startswith("from ") and limits and limits[0][0] == "Max":
                upper = limit_words("Max", limits[0][1], fact["writable"])
                if upper.startswith("to "):
                    words += f" {upper}"
                    limits.pop(0)
            clauses.append(row(",", SPACE, words))
        if "placeholder" in fact:
            value = self.printer.root(fact["placeholder"], (*pointer, "placeholder"), scope_of(fact["path"]), enum_of(fact["writable"]))
            clauses.append(row(",", SPACE, "placeholder ", value))
        return clauses

    def _conditional(self, fact: dict[str, Any], pointer: Pointer) -> list[Doc]:
        if "conditional" not in fact:
            return []
        at = (*pointer, "conditional")
        test, value = fact["conditional"]
        scope = scope_of(fact["path"])
        words = group(
            "except if ", self.printer.side(test, (*at, 0), scope),
            nest(SPACE, "then ", nest(self.printer.side(value, (*at, 1), scope, enum_of(fact["derived"])))),
        )  # fmt: skip
        return [self._remarks((*pointer, "is")), nest(HARD, self.printer.leading(at), words)]

    def _placeholder(self, fact: dict[str, Any], pointer: Pointer) -> list[Doc]:
        if "placeholder" not in fact:
            return []
        at = (*pointer, "placeholder")
        before = (*pointer, "conditional") if "conditional" in fact else (*pointer, "is")
        value = self.printer.root(fact["placeholder"], at, scope_of(fact["path"]), enum_of(fact["derived"]))
        return [self._remarks(before), nest(HARD, self.printer.leading(at), "placeholder ", nest(value))]


def stated_type(fact: dict[str, Any]) -> str:
    """The text of a fact's type."""
    stated: str = fact["writable"] if "writable" in fact else fact["derived"]
    return stated


def type_words(stated: str) -> str:
    """A type as it stands in rules."""
    found = OF.fullmatch(stated)
    return f"{found[1]}({path_text(found[2])})" if found and found[1] != "Enum" else stated


def limit_words(kind: str, text: str, stated: str) -> str:
    """A limit as it stands in rules.

    >>> limit_words("Min", "0", "Dollar"), limit_words("MaxLength", "9", "Text"), limit_words("Max", "1.5", "Int")
    ('from $0', 'at most 9 bytes', 'limit Max "1.5"')
    """
    short = None
    if kind in BOUNDS and stated in ("Int", "Dollar", "Rational", "Day"):
        short = written(stated, text) or (written("Int", text) if stated == "Rational" else None)
        short = short and f"{BOUNDS[kind]} {short}"
    elif kind == "MaxLength":
        short = f"at most {text} bytes" if written("Int", text) else None
    elif kind == "Check" and NAME.fullmatch(text) and text not in ("from", "to", "placeholder", "limit"):
        short = text
    return short or f"limit {kind} {quoted(text)}"
