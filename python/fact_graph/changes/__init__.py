"""What changes between two dictionaries: in the rules, in the figures of cases, and of answers that were saved.

    for change in changes(Rulebook(old), Rulebook(new)):
        change.of, change.words
"""

from .figures import Moved, Moves, dropped, moves
from .rules import Change, changes

__all__ = ["Change", "Moved", "Moves", "changes", "dropped", "moves"]
