"""Where the repository keeps what the tests read."""

from __future__ import annotations

from pathlib import Path

TOP = Path(__file__).resolve().parent.parent.parent
EXAMPLES = TOP / "examples"
DICTIONARIES = TOP / "tests" / "dictionaries"

# An amount, one that is 0 until it is answered, and their sum.
SUM = """{"version":"1","facts":[
  {"path":"/a","writable":"Dollar"},
  {"path":"/b","writable":"Dollar","placeholder":["Dollar","0"]},
  {"path":"/s","derived":"Dollar","is":["Add",["Dependency","/a"],["Dependency","/b"]]}]}"""
