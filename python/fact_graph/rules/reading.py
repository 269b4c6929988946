"""Makes the JSON of a dictionary from drafts, and notes where each of its parts stands in the text."""

from __future__ import annotations

from collections.abc import Iterable, Iterator
from typing import Any

from ..expressions import LAW, OF_LAW, VERSIONS
from ..located import Pointer
from ..uses import Scope
from .declared import Declared, enum_of, scope_of
from .drafts import Draft, EnumDraft, FactDraft, Misread, Span, StatedType, TableDraft, Text, VersionDraft
from .phrases import phrase
from .units import OPEN, VALUE_SIDES

SCALARS = ("Boolean", "Int", "Dollar", "Rational", "Day", "Text")
LIMITS = ("Min", "Max", "MaxLength", "Check")
CONSTANTS = {
    "Int": ("a whole number, as `5`", ("Int",)),
    "Dollar": ("an amount, as `$5` or `$1,500.00`", ("Dollar",)),
    "Rational": ("a fraction, as `1/2`, `10%` or `5`", ("Rational", "Int")),
    "Day": ("a day, as `2025-01-31`", ("Day",)),
}
"""How a limit of each type is written."""
KEYED_BY = ("Int", "Dollar", "Day")
"""The types of a table's keys."""
ENTRIES = {
    **CONSTANTS,
    "Boolean": ("`true` or `false`", ("Word",)),
    "Text": ("a text in quotes", ("Text",)),
    "Enum": ("an option of its list", ("Word", "Enum")),
}
"""How a key or a value of a table of each type is written."""


class Reader:
    """Makes the JSON of items, of this version. `spans` has where each part stands, and `units` where comments can be kept."""

    def __init__(self, declared: Declared, version: str) -> None:
        self.declared = declared
        self.stated_version = version
        self.spans: dict[Pointer, Span] = {}
        self.units: dict[Pointer, Span] = {}

    def note(self, text: Text, pointer: Pointer) -> str:
        """The text, once its place is noted."""
        self.spans[pointer] = text.span
        return text.text

    # ---- items

    def version(self, draft: VersionDraft) -> dict[str, Any]:
        """The version and the description of the dictionary."""
        if draft.version.text not in VERSIONS:
            raise Misread(draft.version.span, "the versions are 1, 2 and law-1")
        stated = {"version": self.note(draft.version, ("version",))}
        self.units[("version",)] = (draft.span[0], draft.version.span[1])
        if draft.description:
            stated["description"] = self.note(draft.description, ("description",))
            self.units[("description",)] = draft.description.span
        return stated

    def enum(self, draft: EnumDraft, pointer: Pointer) -> dict[str, Any]:
        """A list of options."""
        self.spans[pointer] = self.units[pointer] = draft.span
        self.spans[(*pointer, "options")] = draft.options[0].span
        seen: set[str] = set()
        for option in draft.options:
            if option.text in seen:
                raise Misread(option.span, f"the option `{option.text}` stands twice in the list")
            seen.add(option.text)
        options = [self.note(option, (*pointer, "options", at)) for at, option in enumerate(draft.options)]
        return {"name": self.note(draft.name, (*pointer, "name")), "options": options}

    def table(self, draft: TableDraft, pointer: Pointer) -> dict[str, Any]:
        """A table."""
        if self.stated_version != LAW:
            raise Misread(draft.header, f"a table belongs to version {LAW}")
        self.spans[pointer] = self.units[pointer] = draft.header
        values = type_text(draft.values)
        if draft.values.name in ("Collection", "Item"):
            raise Misread(draft.values.span, f"a table has no members to give: its values are {', '.join(SCALARS)} or Enum(..)")
        if draft.keys.text not in KEYED_BY:
            raise Misread(draft.keys.span, "a table goes by an Int, a Dollar or a Day")
        self.spans[(*pointer, "to")] = draft.values.span
        self.spans[(*pointer, "rows")] = draft.rows[0].span if draft.rows else draft.header
        rows = []
        for at, row in enumerate(draft.rows):
            here = (*pointer, "rows", at)
            self.spans[here] = self.units[here] = row.span
            key = self._entry(row.key, (*here, 0), draft.keys.text, f"a key of {draft.name.text}")
            rows.append([key, self._entry(row.value, (*here, 1), values, f"a value of {draft.name.text}")])
        stated = {"name": self.note(draft.name, (*pointer, "name")), "from": self.note(draft.keys, (*pointer, "from")), "to": values, "rows": rows}
        stated["else"] = self._entry(draft.otherwise, (*pointer, "else"), values, f"a value of {draft.name.text}")
        if draft.description:
            self.units[(*pointer, "description")] = draft.description.span
            stated["description"] = self.note(draft.description, (*pointer, "description"))
        return stated

    def _entry(self, draft: Draft, pointer: Pointer, kind: str, what: str) -> str:
        """The text of a key or a value of a table."""
        wanted, names = ENTRIES[kind.partition("(")[0]]
        is_of_others = kind == "Boolean" and draft.texts[0] not in ("true", "false") or draft.name == "Enum" and draft.texts[0] != enum_of(kind)
        if draft.name not in names or is_of_others:
            raise Misread(draft.span, f"{what} is written as {wanted}")
        self.spans[pointer] = draft.span
        return draft.texts[-1]

    def fact(self, draft: FactDraft, pointer: Pointer) -> dict[str, Any]:
        """A fact: one that a person answers, or one that follows."""
        self.spans[pointer] = draft.path.span
        self.units[pointer] = draft.header
        if draft.description:
            self.units[(*pointer, "description")] = draft.description.span
        stated = {"path": self.note(draft.path, (*pointer, "path"))}
        stated |= self._derived(draft, pointer) if draft.definition else self._writable(draft, pointer)
        if draft.description:
            stated["description"] = self.note(draft.description, (*pointer, "description"))
        return stated

    def _writable(self, draft: FactDraft, pointer: Pointer) -> dict[str, Any]:
        stated = type_text(draft.stated)
        if draft.stated.name in ("Collection", "Item") and draft.stated.of is not None:
            raise Misread(draft.stated.span, f"what has the type {stated} follows from a rule: `= /people where ..` belongs behind it")
        if draft.stated.name == "Item":
            raise Misread(draft.stated.span, "an Item names its collection, as `Item(/people)`")
        self.spans[(*pointer, "writable")] = draft.stated.span
        members: dict[str, Any] = {"writable": stated}
        if draft.limits:
            members["limits"] = [self._limit(draft, at, (*pointer, "limits", at)) for at in range(len(draft.limits))]
        if len(draft.placeholders) > 1:
            raise Misread(draft.placeholders[1].span, "a fact has one placeholder")
        for placeholder in draft.placeholders:
            members["placeholder"] = self._root(placeholder.value, (*pointer, "placeholder"), draft)
        return members

    def _limit(self, draft: FactDraft, at: int, pointer: Pointer) -> list[str]:
        limit = draft.limits[at]
        if limit.kind not in LIMITS:
            raise Misread(limit.span, "the limits are Min, Max, MaxLength and Check")
        if limit.constant is not None and draft.stated.name in CONSTANTS:
            wanted, types = CONSTANTS[draft.stated.name]
            if limit.constant not in types:
                raise Misread(limit.span, f"a limit of {draft.path.text} is written as {wanted}")
        self.spans[pointer] = self.spans[(*pointer, 1)] = limit.span
        return [limit.kind, limit.text]

    def _derived(self, draft: FactDraft, pointer: Pointer) -> dict[str, Any]:
        definition = draft.definition
        assert definition
        stated = type_text(draft.stated)
        if draft.limits or draft.placeholders:
            part = (draft.limits or draft.placeholders)[0]
            more = "" if draft.limits else ": write it behind the rule, without a comma"
            raise Misread(part.span, f"this belongs to a fact that a person answers, and `=` makes one that follows{more}")
        if draft.stated.name in ("Collection", "Item") and draft.stated.of is None:
            raise Misread(draft.stated.span, f"a choice of members names their collection, as `{stated}(/people)`")
        self.spans[(*pointer, "derived")] = draft.stated.span
        members: dict[str, Any] = {"derived": stated, "is": self._root(definition.main, (*pointer, "is"), draft)}
        self._open(definition.main, (*pointer, "is"))
        conditional, placeholder = definition.conditional, definition.placeholder
        if conditional and self.stated_version not in VERSIONS[1:]:
            raise Misread(conditional.span, "`except if` belongs to version 2")
        if conditional:
            at = (*pointer, "conditional")
            self.spans[at] = self.units[at] = conditional.span
            test = self._json(conditional.test, (*at, 0), scope_of(draft.path.text))
            members["conditional"] = [test, self._root(conditional.value, (*at, 1), draft)]
        if placeholder:
            self.units[(*pointer, "placeholder")] = placeholder.span
            members["placeholder"] = self._root(placeholder.value, (*pointer, "placeholder"), draft)
        return members

    # ---- expressions

    def _root(self, draft: Draft, pointer: Pointer, fact: FactDraft) -> list[Any]:
        return self._json(draft, pointer, scope_of(fact.path.text), enum_of(type_text(fact.stated)))

    def _open(self, draft: Draft, pointer: Pointer) -> None:
        """Notes the parts of an expression that stand on lines of their own where it is parted."""
        self.units[pointer] = draft.outer
        if draft.name == "Switch":
            for at, case in enumerate(draft.cases, 1):
                self.units[(*pointer, at)] = case
        elif draft.name in OPEN and len(draft.operands) > 1:
            for at, operand in enumerate(draft.operands, 1):
                self._open(operand, (*pointer, at))

    def _json(self, draft: Draft, pointer: Pointer, scope: Scope, enum: str | None = None) -> list[Any]:
        """The JSON of a node; enum is the list of options that belongs there, where that is plain."""
        self.spans[pointer] = draft.span
        if draft.name in OF_LAW and self.stated_version != LAW:
            raise Misread(draft.span, f"`{phrase(draft.name)}` belongs to version {LAW}")
        if draft.name == "Word":
            return self._word(draft, scope, enum)
        if draft.name == "Switch":
            return ["Switch", *self._cases(draft, pointer, scope, enum)]
        if draft.name == "IsComplete":
            self.spans[(*pointer, 1)] = draft.operands[0].span
            return ["IsComplete", self._use_of(draft, scope)]
        inner = self.declared.inside(draft.texts[0], scope) if draft.name in ("Filter", "Find") else scope
        value: list[Any] = [draft.name, *draft.texts]
        for at in range(1, len(value)):
            self.spans[(*pointer, at)] = draft.span
        for operand in draft.operands:
            side = self._enum_of(value[1], scope) if draft.name in VALUE_SIDES and len(value) == 2 else None
            value.append(self._json(operand, (*pointer, len(value)), inner, side))
        return value

    def _cases(self, draft: Draft, pointer: Pointer, scope: Scope, enum: str | None) -> Iterator[list[Any]]:
        sides: Iterable[tuple[Draft, Draft]] = zip(draft.operands[::2], draft.operands[1::2])
        for at, (test, value) in enumerate(sides, 1):
            self.spans[(*pointer, at)] = draft.cases[at - 1]
            yield ["Case", self._json(test, (*pointer, at, 1), scope), self._json(value, (*pointer, at, 2), scope, enum)]

    def _word(self, draft: Draft, scope: Scope, enum: str | None) -> list[str]:
        (word,) = draft.texts
        if enum is not None and (not scope.is_condition or self.declared.has_option(enum, word)):
            return ["Enum", enum, word]
        if scope.is_condition:
            return ["Dependency", word]
        raise Misread(draft.span, f"`{word}` is neither a path nor an option that is known here: {self._meant(word)}")

    def _meant(self, word: str) -> str:
        """What may have been meant by a name that stands alone."""
        lists = [name for name, options in self.declared.options.items() if word in options]
        if f"/{word}" in self.declared.paths:
            return f"write `/{word}`"
        if lists:
            return "write " + " or ".join(f"`{name}.{word}`" for name in lists)
        if any(path.endswith(f"/*/{word}") for path in self.declared.paths):
            return f"write `../{word}` for the same member's, and `{word}` behind `where` alone"
        return "a path begins with / or ../, and an option is written with its list, as `tenure.rents`"

    def _use_of(self, draft: Draft, scope: Scope) -> str:
        """The path of what is asked to be complete."""
        (operand,) = draft.operands
        if operand.name == "Word" and scope.is_condition or operand.name == "Dependency":
            return operand.texts[0]
        if operand.name == "Word":
            raise Misread(operand.span, f"`{operand.texts[0]}` is no path here: {self._meant(operand.texts[0])}")
        raise Misread(operand.span, "only a fact is complete or not: a path belongs before `is complete`")

    def _enum_of(self, left: Any, scope: Scope) -> str | None:
        """The list of options of the left side of a comparison."""
        return self.declared.enum_of(left[1], scope) if left[0] == "Dependency" else None


def type_text(stated: StatedType) -> str:
    """The text of a type, as a dictionary has it."""
    name, of = stated.name, stated.of
    if name in SCALARS and of is None:
        return name
    if name == "Enum":
        if of is None or not stated.is_of_name:
            raise Misread(stated.span, "the name of a list of options belongs behind Enum, as `Enum(tenure)`")
        return f"Enum({of})"
    if name in ("Collection", "Item"):
        if stated.is_of_name:
            raise Misread(stated.span, f"a collection is named by its path: `{name}(/{of})`")
        return name if of is None else f"{name}({of})"
    known = ", ".join(SCALARS)
    raise Misread(stated.span, f"{name} is no type: the types are {known}, Enum(..), Collection, Collection(/..) and Item(/..)")
