"""The nodes that read as phrases, and their words: `age of X on Y`, `D + 3 months`, `month of D`, `mostAid for X`."""

from __future__ import annotations

OF_ONE = {"YearOf": "year of", "MonthOf": "month of", "DayOf": "day of"}
"""The words before the one operand."""

OF_TWO = {
    "AgeOn": ("age of", "on"), "DaysBetween": ("days from", "to"),
    "RoundUp": ("round up", "to"), "RoundDown": ("round down", "to"), "RoundNearest": ("round off", "to"),
}  # fmt: skip
"""The words before the first operand, and before the second."""

LATER = {"AddDays": "day", "AddMonths": "month", "AddYears": "year"}
"""The unit behind the second operand of a later day, as of one."""


LOOKUP, KEY = "Lookup", "for"
"""The node that reads a table, and the word between the table's name and what it is read for."""


def phrase(name: str) -> str:
    """A phrase without its operands.

    >>> phrase("AgeOn"), phrase("MonthOf"), phrase("AddMonths"), phrase("Lookup")
    ('age of .. on ..', 'month of ..', '.. + .. months', '.. for ..')
    """
    if name in LATER:
        return f".. + .. {LATER[name]}s"
    if name == LOOKUP:
        return f".. {KEY} .."
    return " ".join(f"{words} .." for words in (OF_TWO[name] if name in OF_TWO else (OF_ONE[name],)))
