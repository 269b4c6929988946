"""Says in plain words where an item ceases to be one of rules, what belongs there, and what may have been meant."""

from __future__ import annotations

import re

from lark import UnexpectedInput, UnexpectedToken

VALUES = frozenset(
    "PATH QUOTED_PATH WORD OPTION INT DOLLAR FRACTION PERCENT DAY STRING TRUE FALSE CONSTANT CHOICE LPAR NOT IF YEAR_OF MONTH_OF DAY_OF "
    "AGE_OF DAYS_FROM ROUND_TO ROUND GREATER_OF LESSER_OF MANY SUM_OF NUMBER_OF COUNT_OF FIRST_OF LOOKUP".split()
)
OPERATORS = frozenset("PLUS MINUS STAR SLASH IS IS_NOT IS_COMPLETE IS_NOT_COMPLETE ORDER AND OR DAYS MONTHS YEARS FOR".split())
GROUPS = (
    ("WORD", VALUES, "a value"),
    ("PLUS", OPERATORS, "an operator"),
    ("CONSTANT", frozenset("NAME OPTION INT DOLLAR FRACTION PERCENT DAY STRING CONSTANT".split()), "a value"),
    ("DOLLAR", frozenset("INT DOLLAR FRACTION PERCENT DAY".split()), "a constant"),
    ("LIMIT", frozenset("FROM TO AT_MOST NAME LIMIT PLACEHOLDER".split()), "a limit, a check or a placeholder"),
    ("PATH", frozenset(("PATH", "QUOTED_PATH")), "a path"),
)
"""Where the first may stand, all of these are told by the words."""

WORDS = {
    "EQUAL": "`=`", "COLON": "`:`", "COMMA": "a comma", "LPAR": "`(`", "RPAR": "`)`", "NAME": "a name", "WORD": "a name", "INT": "a whole number",
    "STRING": "a text in quotes", "$END": "the end of the rule", "AT_MOST": "`at most`",
}  # fmt: skip

HINTS = (
    (r"==?|≡", "write `is` where two are compared"),
    (r"!=|<>|≠", "write `is not` where two are compared"),
    (r"≤|=<", "write `<=`"),
    (r"≥|=>", "write `>=`"),
    (r"&&?|\|\|?", "write `and` and `or`"),
    (r"!", "write `not`"),
    (r"'", "a text stands in double quotes"),
    (r'"', "a quote is missing: this text has no end on its line"),
    (r"`", "a backquote is missing: this path has no end on its line"),
    (r"-?\$?[0-9,]*\.[0-9]|\.[0-9]", "an amount is written as `$2.50`, and a fraction as `1/2` or `10%`"),
    (r",[0-9]{3}", "a whole number has no commas"),
    (r"(?i:else|elif)\b", "write `otherwise`, and `if` for each further case"),
    (r"(?i:when|case)\b", "write `if .. then ..`"),
    (r"(?i:and|or|not|if|then|otherwise|is|where|true|false)\b(?<![a-z])", "write it in small letters"),
    (r"<=?|>=?|is\b", "part two comparisons by `and`, or use brackets"),
)
"""What stands there, and what to write in its place."""
CALLED = {"max": "greater of (.., ..)", "maximum": "greater of (.., ..)", "min": "lesser of (.., ..)", "minimum": "lesser of (.., ..)",
          "sum": "sum of /people/*/wages", "count": "count of /people/*/adult", "not": "not (..)", "year": "year of /born",
          "month": "month of /born", "day": "day of /born", "age": "age of /born on /day", "ceil": "round up .. to $1",
          "ceiling": "round up .. to $1", "floor": "round down .. to $1"}  # fmt: skip
"""What to write in place of words that other languages call with brackets."""
WITHIN = ({"ON"}, {"TO"})
"""What belongs behind the first operand of a phrase."""
BRACKETS = "what is more than one value stands in brackets"
FOUND = re.compile(r'"[^"\n]*"?|`[^`\n]*`?|[A-Za-z0-9_$][\w$%-]*|[./]+[\w./*-]*|[<>=!&|]+|.')


def told(wrong: UnexpectedInput, text: str) -> tuple[int, str]:
    """Where in the item it goes wrong, and why."""
    at = wrong.pos_in_stream or 0
    end = len(text.rstrip())
    wanted = _wanted(wrong)
    if isinstance(wrong, UnexpectedToken) and wrong.token.type == "$END" or at >= end:
        return end, f"{_listed(wanted)} belongs here, and nothing follows"
    found = FOUND.match(text, at)
    hint = BRACKETS if wanted in WITHIN and text[at] in "+-*/" else _hint(text, at)
    return at, f"{_listed(wanted)} belongs here, and {_shown(found[0] if found else '')} stands here{hint and f'; {hint}'}"


def _wanted(wrong: UnexpectedInput) -> set[str]:
    """The kinds of words that may stand there. Behind a whole expression an operator may, too."""
    wanted: set[str] = set(wrong.interactive_parser.accepts())  # type: ignore[attr-defined] # the parser sets it
    return wanted | OPERATORS if "EXCEPT" in wanted else wanted


def _hint(text: str, at: int) -> str:
    """What may have been meant, where that is known."""
    called = re.search(r"([A-Za-z]+)\s*$", text[:at]) if text[at] == "(" else None
    if called:
        meant = CALLED.get(called[1].lower())
        return f"write `{meant}`" if meant else f"nothing is called `{called[1]}`: a table is read as `{called[1]} for ..`"
    return next((hint for pattern, hint in HINTS if re.compile(pattern).match(text, at)), "")


def _shown(word: str) -> str:
    """A word as a message has it."""
    mark = "" if "`" in word else "`"
    return f"{mark}{word[:40]}{'..' if len(word) > 40 else ''}{mark}"


def _listed(wanted: set[str]) -> str:
    """The words for what belongs there."""
    words: list[str] = []
    left = set(wanted)
    for first, covered, name in GROUPS:
        if first in left:
            words.append(name)
            left -= covered
    words += sorted(WORDS.get(it, f"`{it.lower().replace('_', ' ')}`") for it in left if it != "$END")
    words += ["the end of the rule"] if "$END" in left else []
    *before, last = words
    return f"{', '.join(before)} or {last}" if before else last
