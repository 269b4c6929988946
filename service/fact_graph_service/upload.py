"""Texts that a person brings along: what may stand of them here, and what is dropped and why."""

from __future__ import annotations

from typing import NamedTuple

import fact_graph
from fact_graph import Session

OVERRIDE = "override"
UNKNOWN = "unknown"


class Dropped(NamedTuple):
    """An answer that isn't taken."""

    kind: str
    """`list`, `value` or `override`."""
    slot: str
    why: str
    """`override`, where a figure was given a value; `unknown`, where the dictionary has no such list; else the refusal of the
    answer, as `refused 7 Limit 2`."""


def resumed(dictionary: bytes, text: bytes) -> tuple[Session, list[Dropped]]:
    """A session that goes on from a saved text, as a person may bring it: without overrides, and with those answers alone that
    `set` would take. Nothing of it can be undone. Raises `SavedRefused` where it is no saved text."""
    session = Session.resume(dictionary, text)
    return session, [Dropped(line.kind, line.slot, _why(line)) for line in session.dropped]


def _why(line: fact_graph.Dropped) -> str:
    """Why a line isn't kept."""
    if line.refused is not None:
        return str(line.refused)
    return OVERRIDE if line.kind == OVERRIDE else UNKNOWN
