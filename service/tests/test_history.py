"""A history that is cut does what the whole one did."""

from __future__ import annotations

from hypothesis import HealthCheck, given, settings
from hypothesis import strategies as st

from fact_graph import Session
from fact_graph_service.history import Snapshot, cut_of

DICTIONARY = b"""{"version":"1","facts":[{"path":"/a","writable":"Int"},{"path":"/c","writable":"Collection"},{"path":"/c/*/b","writable":"Int"},
{"path":"/s","derived":"Int","is":["CollectionSum","/c/*/b"]}]}"""
QUESTIONS = ["get /a", "get /c", "get /s", "missing /s", "final /s"]

lines = st.one_of(
    st.builds("set /a {}".format, st.integers(0, 3)),
    st.builds("set /c/#{}/b {}".format, st.integers(1, 4), st.integers(0, 3)),
    st.builds("remove /c #{}".format, st.integers(1, 4)),
    st.builds("{} {} {}".format, st.sampled_from(["watch", "unwatch"]), st.sampled_from(["changed", "completed", "lost"]), st.sampled_from(["/a", "/s"])),
    st.sampled_from(["clear /a", "open /c", "add /c", "undo", "undo", "redo"]),
)


def accepted(session: Session, said: list[str]) -> list[tuple[str, str]]:
    """The lines that aren't refused, with their replies."""
    return [(line, reply) for line, reply in ((line, session.line(line)) for line in said) if not reply.startswith("refused ")]


@settings(deadline=None, max_examples=200, suppress_health_check=[HealthCheck.too_slow])
@given(st.lists(lines, max_size=40), st.integers(0, 8))
def test_a_cut_changes_no_reply(said: list[str], reach: int) -> None:
    with Session(DICTIONARY) as session:
        made = accepted(session, said)
        cut = cut_of([line for line, _ in made], reach)
        assert cut == 0 or len(made) - cut >= reach
        snapshot = Snapshot(None).behind(DICTIONARY, [line for line, _ in made[:cut]])
        with Snapshot.of_bytes(snapshot.to_bytes()).session(DICTIONARY) as other:
            for line, reply in made[cut:]:
                assert other.line(line) == reply
            assert other.save() == session.save()
            assert [other.line(question) for question in QUESTIONS] == [session.line(question) for question in QUESTIONS]


def test_a_cut_is_as_late_as_it_may_be() -> None:
    made = [f"set /a {number}" for number in range(10)]
    assert cut_of(made, 4) == 6
    assert cut_of([*made, *["undo"] * 8], 4) == 2, "undo has reached back to there"
    assert cut_of([*made, "undo", "redo"], 2) == 9
    assert cut_of(made, 11) == 0
