"""What editors make of rules: each word of the examples has the scope of its kind."""

from __future__ import annotations

import pytest
from lark import Token

from fact_graph.rules.parsing import grammar
from fact_graph.rules.scanning import scan

from ..places import TOP
from .textmate import TextMate

GRAMMAR = TOP / "editors" / "vscode" / "facts.tmLanguage.json"
TEXTS = sorted((TOP / "examples").rglob("*.facts"))
ALL_KINDS = r"""version law-1
  "each kind of word"
enum if: then, otherwise, Int
table first: Day to Enum(if), otherwise if.Int
  "the first table"
  from 2024-10-01: for  # with a name that is a word
table t: Dollar to Rational, otherwise 1/2
  from -$5: 10%
/t: Text, at most 5 bytes, digits, limit Check "to", placeholder "a \" b # c"
/n: Int, from -5 to 5, placeholder if.then
`/2nd`: Rational, from 1/2 to 90%
/x: Int = (if true or false and not /a is complete then 1 otherwise Int "007") + All(/b is not complete) * $1,000.50 / 2 - -1/2
  except if /a is not "x" and 3 <= 4 then 2024-02-29 + 5 days
  placeholder greater of (1, lesser of (2, 3)) + round(year of ../born) + Enum "a" "b"
/z: Int = age of ../born on (/d + 3 months + 1 year) - (days  from /d to /e) + month of /d + day of /d
/v: Int = (Lookup "if" for /a) + (t for $5) + (t for number of /b) * (first  for (t for /c))
/u: Enum(if) = if /a is for and /b is not for then for otherwise first for /d
/w: Dollar = round up /a to $1 + (round  off /b to $5) - (round down /c to $0.05)
/y: Item(/people) = first of /people where sum of /a/*/b < number of /a and count of `/b` > adult and /t is rents
"""
SCOPES = {
    **dict.fromkeys(("VERSION", "ENUM", "TABLE"), "keyword.declaration"),
    "NAME": "", "WORD": "variable.other.name", "OPTION": "constant.other.option",
    "PATH": "variable.other.path", "QUOTED_PATH": "string.quoted.other.path", "STRING": "string.quoted.double", "INT": "constant.numeric.integer",
    "DOLLAR": "constant.numeric.amount", "FRACTION": "constant.numeric.fraction", "PERCENT": "constant.numeric.fraction",
    "DAY": "constant.numeric.day", "TRUE": "constant.language", "FALSE": "constant.language", "CONSTANT": "support.type", "CHOICE": "support.type",
    **dict.fromkeys(("IF", "THEN", "OTHERWISE", "EXCEPT", "PLACEHOLDER", "WHERE"), "keyword.control"),
    **dict.fromkeys(("OR", "AND", "NOT", "IS", "IS_NOT", "IS_COMPLETE", "IS_NOT_COMPLETE", "DAYS", "MONTHS", "YEARS"), "keyword.operator.word"),
    **dict.fromkeys(("YEAR_OF", "MONTH_OF", "DAY_OF", "AGE_OF", "DAYS_FROM", "ON", "FOR", "LOOKUP", "ROUND_TO", "ROUND"), "support.function"),
    **dict.fromkeys(("GREATER_OF", "LESSER_OF", "MANY", "SUM_OF", "NUMBER_OF", "COUNT_OF", "FIRST_OF"), "support.function"),
    **dict.fromkeys(("FROM", "TO", "AT_MOST", "BYTES", "LIMIT"), "keyword.other.limit"),
    **dict.fromkeys(("ORDER", "EQUAL", "PLUS", "MINUS", "STAR", "SLASH"), "keyword.operator"),
    **dict.fromkeys(("COMMA", "COLON"), "punctuation.separator"), **dict.fromkeys(("LPAR", "RPAR"), "punctuation.section"),
}  # fmt: skip
"""By the kinds of words of the parser, how the scopes of their kinds begin."""


def words_of(text: str) -> list[tuple[int, Token]]:
    """The words of a text as the parser reads them, each with where it begins."""
    found = scan(text)
    words: list[tuple[int, Token]] = []
    for item in found.items:
        part = found.bare[item.start : item.end]
        tree = grammar().parse(part, start=part.split()[0] if part[0].isalpha() else "fact")
        words += [(item.start + (token.start_pos or 0), token) for token in tree.scan_values(lambda it: isinstance(it, Token))]
    return words


@pytest.mark.parametrize("text", [ALL_KINDS, *(path.read_text() for path in TEXTS)], ids=["all kinds", *(path.stem for path in TEXTS)])
def test_each_word_has_the_scope_of_its_kind(text: str) -> None:
    """A word of the parser is one piece of the editor, with a scope that goes with its kind."""
    scoped = {it.start: it for it in TextMate(GRAMMAR).scopes(text)}
    for at, token in words_of(text):
        scope = scoped[at].scope
        is_header = scope.startswith("entity.name.fact") and token.type in ("PATH", "QUOTED_PATH") and text[at - 1] == "\n"
        assert is_header or scope.startswith(SCOPES[token.type]), f"{token} of {token.type} is {scope}"
        assert scoped[at].end == at + len(token)


def test_all_kinds_are_tried() -> None:
    """The text of all kinds has each kind of word that the parser knows."""
    known = {terminal.name for terminal in grammar().terminals} - {"WS", "__IGNORE_0"}
    assert known - {token.type for _, token in words_of(ALL_KINDS)} == set()
    assert known == set(SCOPES)


def test_comments_are_marked() -> None:
    """A comment reaches to the end of its line, but for `#` in quotes."""
    text = 'version 2 # a "b"\n/a: Text, placeholder "#" # c\n'
    comments = [text[it.start : it.end] for it in TextMate(GRAMMAR).scopes(text) if it.scope.startswith("comment")]
    assert comments == ['# a "b"', "# c"]
