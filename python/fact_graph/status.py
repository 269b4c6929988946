"""The exit statuses of the command line."""

from __future__ import annotations

from enum import IntEnum


class Status(IntEnum):
    """How a command of `fact-graph` ended. Up to 8 they are those of the program `interview`.

    >>> Status(1).meaning
    'the dictionary has a fault'
    """

    meaning: str  # pylint: disable=invalid-name # no constant, but what each status has

    def __new__(cls, number: int, meaning: str) -> Status:
        """A status by its number, and what it says happened."""
        status = int.__new__(cls, number)
        status._value_ = number  # pylint: disable=attribute-defined-outside-init # as enum asks for
        status.meaning = meaning
        return status

    DONE = 0, "the command did what was asked"
    DICTIONARY_REFUSED = 1, "the dictionary has a fault"
    USAGE = 2, "the command line has a word too many, too few or unknown"
    FETCH_FAULT = 3, "a file that was named can't be read"
    READ_FAULT = 4, "standard input can't be read on"
    WRITE_FAULT = 5, "the output can't be written"
    NO_MEMORY = 7, "there was no memory"
    SAVED_REFUSED = 8, "a saved text can't be loaded or carried"
    NOT_INSTALLED = 10, "something that the command needs isn't installed"
    COMMAND_REFUSED = 11, "a slot or a value that was named is refused"
    FINDINGS = 12, "the rules were examined, and something was found"
    CASES_REFUSED = 13, "a file of cases can't be read, or one of its cases can't be run"
    INTERRUPTED = 130, "the command was interrupted from the keyboard"
