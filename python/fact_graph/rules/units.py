"""Which parts of an expression stand on lines of their own where it is parted. Comments are kept at these."""

CHAINS = {"Any": "or", "All": "and", "Add": "+", "Subtract": "-"}
"""The nodes whose operands stand in a row, and the word between two."""

LISTS = {"GreaterOf": "greater of", "LesserOf": "lesser of"}
"""The nodes whose operands stand in brackets, and the words before them."""

OPEN = frozenset((*CHAINS, *LISTS))

VALUE_SIDES = frozenset(("Equal", "NotEqual"))
"""The nodes whose left side says which list of options belongs on the right."""
