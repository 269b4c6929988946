"""Checks of rules that are accepted: what can be wrong with them all the same.

    for finding in findings(Rulebook(text), figures=["/help"]):
        finding.check, finding.path, finding.reason

docs/CASES.md says what each check finds. What they call always true or never taken is so by types and limits alone.
"""

from .allowed import Allowance, NotAllowed, left_over, read_allowances
from .findings import CHECKS, Finding, findings

__all__ = ["CHECKS", "Allowance", "Finding", "NotAllowed", "findings", "left_over", "read_allowances"]
