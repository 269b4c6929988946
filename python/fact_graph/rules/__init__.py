"""Rules as people read them, in files `.facts`, and the JSON of their dictionaries.

    >>> rules = parse("version 2\\n/rent: Dollar, from $0\\n/half: Dollar = 1/2 * /rent\\n")
    >>> print(rules.json.decode(), end="")
    {"version":"2",
    "facts":[
    {"path":"/rent","writable":"Dollar","limits":[["Min","0"]]},
    {"path":"/half","derived":"Dollar","is":["Multiply",["Rational","1/2"],["Dependency","/rent"]]}
    ]}
    >>> print(text_of(rules.value), end="")
    version 2
    <BLANKLINE>
    /rent: Dollar, from $0
    /half: Dollar = 1/2 * /rent

docs/RULES.md teaches the language.
"""

from .parsing import NotRules, Rules, parse
from .printing import text_of

__all__ = ["NotRules", "Rules", "formatted", "parse", "text_of"]


def formatted(text: str) -> str:
    """A text of rules in the one form that it has, with its comments and at most one blank line between two facts.

    >>> print(formatted("version 2\\n/half :Dollar=  (1/2 * /rent) # of a month\\n"), end="")
    version 2
    /half: Dollar = 1/2 * /rent  # of a month
    """
    rules = parse(text)
    return text_of(rules.value, rules.notes)
