"""The slots of a session, for those who type their names."""

from __future__ import annotations

from collections.abc import Iterator

from ..dictionary import FactType, ListedFact, path_of
from ..session import Session


def slots(session: Session) -> Iterator[tuple[str, ListedFact]]:
    """The slots that stand, each with its fact, in the order of the dictionary."""
    facts = session.facts()
    return ((slot, facts[path_of(slot)]) for slot in session)


def values(session: Session, of: FactType) -> tuple[str, ...]:
    """The texts that a fact of a type can be set to, where they are few."""
    if of.name == "Boolean":
        return ("true", "false")
    return session.dictionary.options[of.of] if of.name == "Enum" and of.of else ()
