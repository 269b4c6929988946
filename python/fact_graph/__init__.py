"""The Fact Graph: interviews over a dictionary of facts, whose figures follow from the answers given so far.

>>> from fact_graph import Session
>>> with Session.open("screener.json") as session:
...     session["/bill"] = "1240.50"
...     session.get("/help"), session.missing("/help").slots
(Result(kind='incomplete', value=None, fault=None), ('/tenure', '/savings', '/people'))

`Session` has a method for each command of a script; docs/COMMANDS.md says what each does, docs/DICTIONARIES.md how a
dictionary is written, and docs/FAULTS.md what each refusal means. What is refused is raised, and changes nothing. The
examples here and below are over the dictionary examples/screener.json.
"""

from .desk import Desk, Party
from .dictionary import Dictionary, Fact, FactType, Limit, ListedFact
from .errors import (
    DictionaryRefused,
    FactGraphError,
    LibraryMissing,
    OutOfMemory,
    Refused,
    SavedRefused,
    SessionBusy,
    SessionClosed,
    SessionForked,
    UnknownDictionary,
    UnknownSlot,
)
from .explanation import Explanation, Missing
from .session import Dropped, Session, Watch
from .values import Answer, Kind, Result, Value

__version__ = "1.2.0"

__all__ = [
    "Answer",
    "Desk",
    "Dictionary",
    "DictionaryRefused",
    "Dropped",
    "Explanation",
    "Fact",
    "FactGraphError",
    "FactType",
    "Kind",
    "LibraryMissing",
    "Limit",
    "ListedFact",
    "Missing",
    "OutOfMemory",
    "Party",
    "Refused",
    "Result",
    "SavedRefused",
    "Session",
    "SessionBusy",
    "SessionClosed",
    "SessionForked",
    "UnknownDictionary",
    "UnknownSlot",
    "Value",
    "Watch",
    "__version__",
]
