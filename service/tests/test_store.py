"""The store: what is held is held alone, and what waits doesn't wait for ever."""

from __future__ import annotations

import secrets
import time
from collections.abc import Callable, Iterator
from concurrent.futures import ThreadPoolExecutor

import pytest

from fact_graph_service import store
from fact_graph_service.store import Change, Head, Store, StoreFailed

from databases import Postgres

NAME = b"a" * 32


@pytest.fixture
def stores(place: str, monkeypatch: pytest.MonkeyPatch) -> Iterator[tuple[Store, Store]]:
    """The stores of two workers over one place, which wait a second for a lock."""
    monkeypatch.setattr(store, "SECONDS_FOR_LOCK", 1)
    both = Store(place), Store(place)
    for one in both:
        one.prepare("", b"{}")
    yield both
    for one in both:
        one.close()


def a_head() -> Head:
    """The row of a new session."""
    return Head(secrets.token_urlsafe(12), "", 0, 0, b"", int(time.time()) + 3600)


def test_a_session_that_is_held_is_held_alone_also_where_there_is_none_yet(stores: tuple[Store, Store]) -> None:
    for is_there in (False, True):
        with stores[0].held(NAME) as hold:
            assert (hold.head() is not None) == is_there
            with pytest.raises(StoreFailed), stores[1].held(NAME):
                pass
            if not is_there:
                hold.begin(a_head(), 1)


def test_a_worker_begins_while_a_session_is_held(stores: tuple[Store, Store]) -> None:
    with stores[0].held(NAME) as hold:
        hold.begin(a_head(), 1)
        stores[1].prepare("", b"{}")


def begun(one: Store) -> Head:
    """A session that is begun."""
    head = a_head()
    with one.held(NAME) as hold:
        hold.begin(head, 1)
    return head


def a_change(revision: int, change_id: str | None = None) -> Change:
    """A change at a revision."""
    return Change(revision, change_id or f"change {revision}", bytes(range(256)))


def test_a_step_is_made_where_the_session_stands_before_it(stores: tuple[Store, Store]) -> None:
    one, other = stores
    assert not one.step(NAME, "visit", 0, a_change(1), 2**40), "there is no session"
    head = begun(one)
    later = head.expires + 1
    assert one.step(NAME, head.visit, 0, a_change(1), later)
    for visit, base, change in [(head.visit, 0, a_change(1)), (head.visit, 0, a_change(3)), (head.visit, 0, a_change(2, "change 1")),
                                (head.visit, 1, a_change(2)), ("visit", 0, a_change(2))]:  # fmt: skip
        assert not other.step(NAME, visit, base, change, later + 1)
    assert other.step(NAME, head.visit, 0, a_change(2), later)
    assert one.changes(NAME, head.visit, 0, 0) == [a_change(1), a_change(2)]
    assert one.changes(NAME, head.visit, 0, 1) == [a_change(2)]
    assert not one.changes(NAME, head.visit, 1, 0) and not one.changes(NAME, "visit", 0, 0)
    with one.seen(NAME) as hold:
        assert hold.head() == head._replace(revision=2, expires=later)
    assert one.step(NAME, head.visit, 0, a_change(3), 0)
    assert not one.step(NAME, head.visit, 0, a_change(4), later), "its time is over"


def test_a_step_waits_for_who_holds_the_session(stores: tuple[Store, Store]) -> None:
    head = begun(stores[0])
    with stores[0].held(NAME) as hold:
        assert hold.head() == head
        with pytest.raises(StoreFailed):
            stores[1].step(NAME, head.visit, 0, a_change(1), head.expires)
    assert stores[1].step(NAME, head.visit, 0, a_change(1), head.expires)


def test_of_many_steps_at_once_one_is_made(stores: tuple[Store, Store]) -> None:
    head = begun(stores[0])
    with ThreadPoolExecutor(8) as threads:
        for revision in range(1, 20):
            steps = [threads.submit(stores[place % 2].step, NAME, head.visit, 0, a_change(revision, f"{revision} {place}"), head.expires) for place in range(8)]
            assert sum(step.result() for step in steps) == 1
    assert [change.revision for change in stores[0].changes(NAME, head.visit, 0, 0)] == list(range(1, 20))


def test_a_lock_is_waited_for_once(stores: tuple[Store, Store]) -> None:
    idle = stores[1]
    with idle.seen(NAME), idle.seen(NAME), idle.seen(NAME):
        pass
    with stores[0].held(NAME), pytest.raises(StoreFailed), idle.held(NAME):
        pass
    assert idle._idle.qsize() == 2, "the other connections weren't tried"  # pylint: disable=protected-access


def test_connections_that_were_torn_are_replaced_unseen(postgres: Postgres) -> None:
    postgres.clear()
    one = Store(postgres.place)
    one.prepare("", b"{}")
    with one.seen(NAME), one.seen(NAME):
        pass
    head = begun(one)
    uses: list[Callable[[], object]] = [
        one.check,
        lambda: one.step(NAME, head.visit, 0, a_change(1), head.expires),
        lambda: one.changes(NAME, head.visit, 0, 0),
    ]
    for use in uses:
        postgres.stop()
        postgres.start()
        use()
    assert one.changes(NAME, head.visit, 0, 0) == [a_change(1)]
    one.close()
