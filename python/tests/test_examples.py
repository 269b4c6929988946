"""The examples by typed calls: each command of a script as the call that it is, with its value as Python has it."""

from __future__ import annotations

from pathlib import Path

import pytest

from fact_graph import Session

from .calls import replies
from .places import EXAMPLES


@pytest.mark.parametrize("path", sorted(EXAMPLES.glob("*.script")), ids=str)
def test_calls_give_what_the_replies_say(path: Path) -> None:
    with Session.open(path.with_suffix(".json")) as session:
        assert replies(session, path.read_bytes()) == path.with_suffix(".replies").read_text()


def test_a_saved_session_goes_on_and_is_carried() -> None:
    folder = EXAMPLES / "saved"
    saved = (folder / "monday.saved").read_bytes()
    with Session.open(EXAMPLES / "screener.json") as session:
        for line in (folder / "monday.script").read_text().splitlines():
            session.line(line)
        assert session.save() == saved
    loaded = Session.load((EXAMPLES / "screener.json").read_bytes(), saved)
    assert "".join(map(loaded.line, (folder / "tuesday.script").read_text().splitlines())) == (folder / "tuesday.replies").read_text()
    carried = Session.carry((folder / "mended.json").read_bytes(), saved)
    due = (folder / "thursday.replies").read_text().splitlines()
    assert [f"dropped {it.kind} {it.slot}" for it in carried.dropped] == [line for line in due if line.startswith("dropped ")]
