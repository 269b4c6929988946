"""Makes drafts of what the grammar reads. Each method is called with the parts of the rule of its name."""

from __future__ import annotations

from typing import Any

from lark import Token, Tree
from lark.exceptions import VisitError
from lark.visitors import Transformer_NonRecursive

from .drafts import (
    Conditional,
    Definition,
    Draft,
    EnumDraft,
    FactDraft,
    Limit,
    Misread,
    Placeholder,
    RowDraft,
    Span,
    StatedType,
    TableDraft,
    Text,
    VersionDraft,
)
from .literals import TYPES, read, unquoted
from .phrases import LATER, LOOKUP, OF_ONE, OF_TWO

Part = Any
"""A token, or what another rule made."""

COMPARISONS = {"is": "Equal", "is not": "NotEqual", "<": "LessThan", "<=": "LessThanOrEqual", ">": "GreaterThan", ">=": "GreaterThanOrEqual"}
ARITHMETIC = {"+": "Add", "-": "Subtract", "*": "Multiply", "/": "Divide"}
LATER_BY = {f"{unit.upper()}S": name for name, unit in LATER.items()}
OF_ONE_WORD = {**{words: name for name, words in OF_ONE.items()}, "round": "Round"}
OF_TWO_WORDS = {words: name for name, (words, _) in OF_TWO.items()}
OF_MANY = {"greater of": "GreaterOf", "lesser of": "LesserOf", "All": "All", "Any": "Any", "Add": "Add"}
OVER = {"sum of": "CollectionSum", "number of": "CollectionSize", "count of": "Count"}


def words(token: Token) -> str:
    """The words of a token, with one blank between two."""
    return " ".join(token.split())


class Builder(Transformer_NonRecursive):
    """Makes the draft of an item that begins at this place in the whole text."""

    def __init__(self, offset: int) -> None:
        super().__init__()
        self.offset = offset

    def draft(self, tree: Tree[Token]) -> Any:
        """The draft of what was read."""
        try:
            return self.transform(tree)
        except VisitError as wrong:
            raise wrong.orig_exc from wrong

    def span(self, first: Part, last: Part | None = None) -> Span:
        """From the beginning of one part to the end of another."""
        return self._place(first)[0], self._place(first if last is None else last)[1]

    def _place(self, part: Part) -> Span:
        if isinstance(part, Token):
            assert part.start_pos is not None and part.end_pos is not None  # the lexer says where each word stands
            return part.start_pos + self.offset, part.end_pos + self.offset
        place: Span = part.outer if isinstance(part, Draft) else part.span
        return place

    def quoted(self, token: Token) -> Text:
        """The text of a token in quotes."""
        try:
            return Text(unquoted(token), self.span(token))
        except ValueError as wrong:
            reason = "a backslash stands before what it can't stand before here: write \\\\ for one backslash"
            raise Misread(self.span(token), reason) from wrong

    # ---- items

    def version(self, parts: list[Part]) -> VersionDraft:
        """`version 2`"""
        description = parts[2] if len(parts) > 2 else None
        return VersionDraft(Text(str(parts[1]), self.span(parts[1])), description, self.span(parts[0], parts[-1]))

    def enum(self, parts: list[Part]) -> EnumDraft:
        """`enum tenure: rents, owns`"""
        name, *options = (Text(str(it), self.span(it)) for it in parts if it.type == "NAME")
        return EnumDraft(name, options, self.span(parts[0], parts[-1]))

    def table(self, parts: list[Part]) -> TableDraft:
        """`table mostAid: Int to Dollar, otherwise $0`, with its rows"""
        _, name, _, keys, _, values, _, _, otherwise, *rest = parts
        named, keyed = (Text(str(it), self.span(it)) for it in (name, keys))
        description = next((it for it in rest if isinstance(it, Text)), None)
        rows = [it for it in rest if isinstance(it, RowDraft)]
        return TableDraft(named, keyed, values, otherwise, self.span(parts[0], otherwise), rows, description)

    def row(self, parts: list[Part]) -> RowDraft:
        """`from 1: $291`"""
        return RowDraft(parts[1], parts[3], self.span(parts[0], parts[3]))

    def fact(self, parts: list[Part]) -> FactDraft:
        """`/rent: Dollar, from $0`"""
        path, _, stated, *rest = parts
        fact = FactDraft(path, stated, self.span(path, stated))
        for part in rest:
            if isinstance(part, Text):
                fact.description = part
            elif isinstance(part, Definition):
                fact.definition = part
            else:
                fact.limits += [it for it in part if isinstance(it, Limit)]
                fact.placeholders += [it for it in part if isinstance(it, Placeholder)]
                fact.header = fact.header[0], part[-1].span[1]
        return fact

    def description(self, parts: list[Part]) -> Text:
        """`"What is paid for the home."`"""
        return self.quoted(parts[0])

    def path(self, parts: list[Part]) -> Text:
        """`/rent`, or any text in backquotes"""
        token = parts[0]
        return self.quoted(token) if token.type == "QUOTED_PATH" else Text(str(token), self.span(token))

    def type(self, parts: list[Part]) -> StatedType:
        """`Dollar`, or `Item(/people)`"""
        name = str(parts[0])
        if len(parts) == 1:
            return StatedType(name, None, False, self.span(parts[0]))
        of = self.quoted(parts[2]).text if parts[2].type == "QUOTED_PATH" else str(parts[2])
        return StatedType(name, of, parts[2].type == "NAME", self.span(parts[0], parts[-1]))

    # ---- clauses

    def _limit(self, kind: str, literal: Draft, span: Span) -> Limit:
        return Limit(kind, literal.texts[0], literal.name, span)

    def least(self, parts: list[Part]) -> list[Limit]:
        """`, from 1`"""
        return [self._limit("Min", parts[2], self.span(parts[1], parts[2]))]

    def greatest(self, parts: list[Part]) -> list[Limit]:
        """`, to 9`"""
        return [self._limit("Max", parts[2], self.span(parts[1], parts[2]))]

    def between(self, parts: list[Part]) -> list[Limit]:
        """`, from 1 to 9`"""
        return [*self.least(parts[:3]), self._limit("Max", parts[4], self.span(parts[3], parts[4]))]

    def longest(self, parts: list[Part]) -> list[Limit]:
        """`, at most 40 bytes`"""
        return [Limit("MaxLength", str(parts[2]), None, self.span(parts[1], parts[3]))]

    def check(self, parts: list[Part]) -> list[Limit]:
        """`, nine-digits`"""
        return [Limit("Check", str(parts[1]), None, self.span(parts[1]))]

    def limit(self, parts: list[Part]) -> list[Limit]:
        """`, limit Max "1.5"`"""
        return [Limit(str(parts[2]), self.quoted(parts[3]).text, None, self.span(parts[1], parts[3]))]

    def clause(self, parts: list[Part]) -> list[Placeholder]:
        """`, placeholder $0`"""
        return [parts[1]]

    # ---- definitions

    def definition(self, parts: list[Part]) -> Definition:
        """`= /a + /b`, with what follows it"""
        conditional = next((it for it in parts[2:] if isinstance(it, Conditional)), None)
        placeholder = next((it for it in parts[2:] if isinstance(it, Placeholder)), None)
        return Definition(parts[1], conditional, placeholder)

    def conditional(self, parts: list[Part]) -> Conditional:
        """`except if /a then /b`"""
        return Conditional(parts[2], parts[4], self.span(parts[0], parts[4]))

    def placeholder(self, parts: list[Part]) -> Placeholder:
        """`placeholder $0`"""
        return Placeholder(parts[1], self.span(parts[0], parts[1]))

    # ---- expressions

    def node(self, name: str, parts: list[Part], *operands: Draft, texts: tuple[str, ...] = ()) -> Draft:
        """A node that reaches from the first to the last part."""
        return Draft(name, self.span(parts[0], parts[-1]), texts, list(operands))

    def switch(self, parts: list[Part]) -> Draft:
        """`if /a then 1 otherwise 2`"""
        node = self.node("Switch", parts, *(it for case in parts for it in case.operands))
        node.cases = [case.span for case in parts]
        return node

    def case(self, parts: list[Part]) -> Draft:
        """`if /a then 1`"""
        return self.node("Case", parts, parts[1], parts[3])

    def otherwise(self, parts: list[Part]) -> Draft:
        """`otherwise 2`, whose test is always true"""
        return self.node("Case", parts, Draft("True", self.span(parts[0])), parts[1])

    def filter(self, parts: list[Part]) -> Draft:
        """`/people where adult`"""
        return self.node("Filter", parts, parts[2], texts=(parts[0].text,))

    def find(self, parts: list[Part]) -> Draft:
        """`first of /people where adult`"""
        return self.node("Find", parts, parts[3], texts=(parts[1].text,))

    def disjunction(self, parts: list[Part]) -> Draft:
        """`a or b or c`"""
        return self.node("Any", parts, *parts[::2])

    def conjunction(self, parts: list[Part]) -> Draft:
        """`a and b and c`"""
        return self.node("All", parts, *parts[::2])

    def negation(self, parts: list[Part]) -> Draft:
        """`not a`"""
        return self.node("Not", parts, parts[1])

    def comparison(self, parts: list[Part]) -> Draft:
        """`a <= b`"""
        return self.node(COMPARISONS[words(parts[1])], parts, parts[0], parts[2])

    def completeness(self, parts: list[Part]) -> Draft:
        """`/a is complete`, or not"""
        node = self.node("IsComplete", parts, parts[0])
        return node if words(parts[1]) == "is complete" else self.node("Not", parts, node)

    def sum(self, parts: list[Part]) -> Draft:
        """`a + b - c + 5 days + 2 months`, from the left; what is added in a row is one node, and what is subtracted in a row"""
        left: Draft = parts[0]
        at = 1
        while at < len(parts):
            mark, right = parts[at], parts[at + 1]
            at += 2
            if at < len(parts) and parts[at].type in LATER_BY:
                left = self.node(LATER_BY[parts[at].type], [left, parts[at]], left, right)
                at += 1
            elif left.name == ARITHMETIC[mark] and not left.brackets:
                left = self.node(left.name, [left, right], *left.operands, right)
            else:
                left = self.node(ARITHMETIC[mark], [left, right], left, right)
        return left

    def product(self, parts: list[Part]) -> Draft:
        """`a * b / c`, from the left, two by two"""
        left: Draft = parts[0]
        for mark, right in zip(parts[1::2], parts[2::2]):
            left = self.node(ARITHMETIC[mark], [left, right], left, right)
        return left

    def closed(self, parts: list[Part]) -> Draft:
        """`(a)`"""
        inside: Draft = parts[1]
        inside.brackets = self.span(parts[0], parts[2])
        return inside

    def dependency(self, parts: list[Part]) -> Draft:
        """`/a`"""
        return self.node("Dependency", parts, texts=(parts[0].text,))

    def word(self, parts: list[Part]) -> Draft:
        """`rents`"""
        return self.node("Word", parts, texts=(str(parts[0]),))

    def option(self, parts: list[Part]) -> Draft:
        """`tenure.rents`"""
        return self.node("Enum", parts, texts=tuple(parts[0].split(".")))

    def truth(self, parts: list[Part]) -> Draft:
        """`true`"""
        return self.node(parts[0].capitalize(), parts)

    def literal(self, parts: list[Part]) -> Draft:
        """`5`, `$5`, `1/2`, `10%` or `2025-01-31`"""
        return self.node(TYPES[parts[0].type], parts, texts=(read(parts[0].type, parts[0]),))

    def number(self, parts: list[Part]) -> Draft:
        """a constant in an expression"""
        literal: Draft = parts[0]
        return literal

    def text(self, parts: list[Part]) -> Draft:
        """`"x"`"""
        return self.node("Text", parts, texts=(self.quoted(parts[0]).text,))

    def constant(self, parts: list[Part]) -> Draft:
        """`Rational "2"`"""
        return self.node(str(parts[0]), parts, texts=(self.quoted(parts[1]).text,))

    def choice(self, parts: list[Part]) -> Draft:
        """`Enum "tenure" "rents"`"""
        return self.node("Enum", parts, texts=(self.quoted(parts[1]).text, self.quoted(parts[2]).text))

    def one(self, parts: list[Part]) -> Draft:
        """`year of /a`, `round(/a)`"""
        return self.node(OF_ONE_WORD[words(parts[0])], parts, parts[1] if isinstance(parts[1], Draft) else parts[2])

    def two(self, parts: list[Part]) -> Draft:
        """`age of /a on /b`, `round up /a to $1`"""
        return self.node(OF_TWO_WORDS[words(parts[0])], parts, parts[1], parts[3])

    def lookup(self, parts: list[Part]) -> Draft:
        """`mostAid for /size`"""
        name = self.quoted(parts[1]).text if parts[1].type == "STRING" else str(parts[0])
        return self.node(LOOKUP, parts, parts[-1], texts=(name,))

    def many(self, parts: list[Part]) -> Draft:
        """`greater of (/a, /b)`"""
        node = self.node(OF_MANY[words(parts[0])], parts, *(it for it in parts if isinstance(it, Draft)))
        node.brackets = node.span
        return node

    def over(self, parts: list[Part]) -> Draft:
        """`sum of /people/*/wages`"""
        return self.node(OVER[words(parts[0])], parts, texts=(parts[1].text,))
