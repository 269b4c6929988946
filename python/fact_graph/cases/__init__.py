"""Cases of a maker's own: what is given, and what is due, run over the engine.

    outcomes = list(Runner(rules).run(read_cases("screener.cases.yaml", text)))
    all(outcome.is_as_due for outcome in outcomes)

docs/CASES.md says how a file of cases is written. It needs PyYAML.
"""

from .model import Case, CaseError, Entry, Members, Place
from .reading import files_of, read_cases
from .running import Difference, Names, Outcome, Runner

__all__ = ["Case", "CaseError", "Difference", "Entry", "Members", "Names", "Outcome", "Place", "Runner", "files_of", "read_cases"]
