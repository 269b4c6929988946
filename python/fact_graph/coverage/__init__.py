"""Coverage: which facts, cases, sides of conditions and placeholders your cases reach.

    coverage = measure(rules, read_cases("screener.cases.yaml", text))
    coverage.percent

docs/CASES.md says what counts as reached.
"""

from .measuring import Coverage, measure
from .points import Point
from .probes import NoRoom

__all__ = ["Coverage", "NoRoom", "Point", "measure"]
