"""The calls of a page: what is answered, and what stands after it."""

from __future__ import annotations

import threading
import uuid
from collections.abc import Iterator
from pathlib import Path
from typing import Any

import pytest

from fact_graph import Session
from fact_graph_service import history
from fact_graph_service.settings import Settings
from fact_graph_service.store import Head, Hold, Store, StoreFailed

from pages import EXAMPLES, Page
from waiting import SECONDS


def test_a_change_is_answered_with_its_reply_and_those_of_the_questions(page: Page) -> None:
    told = page.change("set /bill 1240.50", "get /bill", "get /help")
    assert (told["reply"], told["replies"], told["revision"]) == ("ok", ["complete 1240.50", "incomplete"], 1)
    assert page.change("add /people", "missing /outcome")["reply"] == "ok #1"


def test_a_refused_change_changes_nothing(page: Page) -> None:
    assert page.change("set /bill 6000")["reply"] == "refused 7 Limit 2"
    assert page.visit is None, "nothing is kept of a visitor who answered nothing"
    page.change("set /bill 1")
    assert page.change("set /bill 6000", "get /bill") | {"seconds": 0} == {
        "visit": page.visit, "revision": 1, "seconds": 0, "stale": False, "reply": "refused 7 Limit 2", "replies": ["complete 1.00"], "dropped": [],
    }


def test_lines_of_other_kinds_are_refused(page: Page) -> None:
    for line in ("override /outcome half", "release /outcome", "quit", "get /bill", "", "# note", "set /bill 1\nundo", "set /bill 1\r"):
        assert page.change(line)["reply"] == "refused 1 BadLine"
    assert page.ask("set /bill 1", "quit", "save", "get /bill") == ["refused 1 BadLine"] * 3 + ["incomplete"]


def test_all_stands_after_a_new_start(settings: Settings) -> None:
    lines = ["set /bill 5", "watch changed /bill", "add /people", "set /people/#1/wages 7", "set /bill 6", "undo", "undo", "redo"]
    questions = ["get /bill", "touched", "stamp /bill", "stamp /people/#1/wages", "get /people/#1/wages"]
    with Page.open(settings) as first:
        for line in lines:
            replies = first.change(line, *questions)["replies"]
        cookies = first.client.cookies
    with Page.open(settings) as second:
        second.client.cookies = cookies
        window = second.window()
        assert (window.ask(*questions), window.revision) == (replies, len(lines))
        assert window.change("redo", "get /bill")["reply"] == "ok\nwatch changed /bill"
        assert window.change("undo", "get /bill")["replies"] == ["complete 5.00"]


def test_a_repeated_change_is_made_once(page: Page) -> None:
    change = uuid.uuid4().hex
    said = {"change": change, "line": "add /people", "visit": None, "revision": 0}
    replies = [page.post("answer", said).json()["reply"] for _ in range(3)]
    page.window()
    assert replies == ["ok #1"] * 3
    assert page.window().ask("get /people") == ["complete [#1]"]


def test_an_old_window_does_no_harm_and_is_told(page: Page) -> None:
    page.change("set /bill 5")
    other = page.window()
    page.change("set /bill 6")
    told = other.change("undo", "get /bill")
    assert (told["stale"], told["reply"], told["replies"], told["revision"]) == (True, None, ["complete 6.00"], 2)
    assert other.change("undo", "get /bill")["replies"] == ["complete 5.00"]


def test_of_two_windows_that_begin_at_once_one_is_told(settings: Settings, monkeypatch: pytest.MonkeyPatch) -> None:
    with Page.open(settings) as page, Page.open(settings) as other:
        other.client.cookies = page.client.cookies
        other.load()
        told: list[dict[str, Any]] = []
        changing = threading.Thread(target=lambda: told.append(other.change("set /bill 6", "get /bill")))
        begin = Hold.begin

        def begin_beside(hold: Hold, head: Head, most: int) -> None:
            """Begins a session while the other window, at another worker, makes its change too: that is answered only after this."""
            if changing.ident is None:
                changing.start()
                changing.join(2)
            begin(hold, head, most)

        monkeypatch.setattr(Hold, "begin", begin_beside)
        assert page.change("set /bill 5")["reply"] == "ok"
        changing.join(SECONDS)
        assert (told[0]["stale"], told[0]["reply"], told[0]["replies"]) == (True, None, ["complete 5.00"])
        assert other.change("set /bill 7")["reply"] == "ok"
        assert page.change("set /bill 8")["stale"]


@pytest.fixture
def windows(settings: Settings) -> Iterator[tuple[Page, Page]]:
    """Two windows of a visitor, each at a worker of its own."""
    with Page.open(settings) as page, Page.open(settings) as other:
        other.client.cookies = page.client.cookies
        yield page, other.load()


def knows(window: Page, other: Page) -> Page:
    """The window, once it knows what the other one does."""
    window.visit, window.revision = other.visit, other.revision
    return window


@pytest.fixture
def ways(monkeypatch: pytest.MonkeyPatch) -> list[str]:
    """How the store was asked: `held`, which is many ways to it and back, `changes` and `step`, each of which is one."""
    found: list[str] = []

    def noted(name: str) -> None:
        call = getattr(Store, name)

        def noting(*words: Any) -> Any:
            found.append(name)
            return call(*words)

        monkeypatch.setattr(Store, name, noting)

    for name in ("held", "changes", "step"):
        noted(name)
    return found


def test_a_change_goes_to_the_store_once(windows: tuple[Page, Page], ways: list[str]) -> None:
    page, other = windows
    with Session.open(EXAMPLES / "screener.json") as session:
        for place, line in enumerate(["set /bill 5", "add /people", "set /people/#1/wages 7", "undo", "undo", "redo", "watch changed /bill", "set /bill 6"]):
            told = page.change(line, "get /bill", "get /people", "stamp /bill")
            due = [session.line(one).removesuffix("\n") for one in (line, "get /bill", "get /people", "stamp /bill")]
            assert [told["reply"], *told["replies"]] == due
            assert ways == (["step"] if place else ["held"])
            ways.clear()
        assert knows(other, page).change("undo")["reply"] == session.line("undo").removesuffix("\n")
        assert ways == ["held"], "the other worker didn't know of the session"
        ways.clear()
        assert knows(page, other).change("redo", "get /bill")["reply"] == session.line("redo").removesuffix("\n")
        assert ways == ["changes", "step"], "this one had to catch up"
        assert knows(other, page).ask("get /bill", "stamp /bill") == ["complete 6.00", session.line("stamp /bill").removesuffix("\n")]


def test_a_change_over_what_another_worker_has_moved_is_not_made(windows: tuple[Page, Page], ways: list[str]) -> None:
    page, other = windows
    page.change("set /bill 5")
    knows(other, page).change("set /bill 6")
    ways.clear()
    told = page.change("set /bill 7", "get /bill")
    assert (told["stale"], told["reply"], told["replies"], ways) == (True, None, ["complete 6.00"], ["step", "held"])
    assert page.change("undo", "get /bill")["replies"] == ["complete 5.00"]


def test_a_change_in_a_stay_that_another_worker_has_ended_is_not_made(windows: tuple[Page, Page]) -> None:
    page, other = windows
    page.change("set /bill 5")
    assert knows(other, page).post("end").status_code == 200
    assert page.post("answer", {"change": "a", "line": "set /bill 6"}).status_code == 410
    other.visit, other.revision = None, 0
    other.change("set /savings 7")
    assert page.post("answer", {"change": "a", "line": "set /bill 6"}).status_code == 410
    assert knows(page, other).change("set /bill 8", "get /savings")["replies"] == ["complete 7.00"]


def test_a_change_that_is_repeated_by_a_page_that_knows_of_it_is_made_once(page: Page) -> None:
    page.change("set /savings 1")
    replies = [page.change("add /people", "get /people", change="a") for _ in range(3)]
    assert [(told["reply"], told["replies"], told["revision"]) for told in replies] == [("ok #1", ["complete [#1]"], 2)] * 3
    assert page.change("add /people", "get /people")["replies"] == ["complete [#1 #2]"]


@pytest.mark.parametrize("is_written", [True, False])
def test_a_change_of_which_nobody_knows_whether_it_is_written_is_made_once(page: Page, monkeypatch: pytest.MonkeyPatch, is_written: bool) -> None:
    step = Store.step

    def failing(*words: Any) -> bool:
        if is_written:
            step(*words)
        raise StoreFailed

    page.change("set /savings 1")
    with monkeypatch.context() as failure:
        failure.setattr(Store, "step", failing)
        assert page.post("answer", {"change": "a", "line": "add /people"}).status_code == 503
    told = page.change("add /people", "get /people", change="a")
    assert (told["reply"], told["replies"], told["revision"]) == ("ok #1", ["complete [#1]"], 2)


def test_a_window_of_an_ended_stay_is_told(page: Page) -> None:
    page.change("set /bill 5")
    other = page.window()
    assert page.post("end").status_code == 200
    assert [other.post(call, {"change": "a", "line": "undo", "text": ""}).status_code for call in ("answer", "save", "stay", "end")] == [410] * 4
    page.load().change("set /bill 7")
    page.change("set /bill 8")
    other.revision = 2
    assert other.post("answer", {"change": "b", "line": "undo"}).status_code == 410, "the numbers of another stay aren't this one's"
    assert page.ask("get /bill") == ["complete 8.00"]


def test_a_saved_text_of_nothing_is_not_given(page: Page) -> None:
    assert page.post("save").status_code == 410
    page.change("set /bill 5")
    assert page.post("save").text == "saved 1\nnext 1\nvalue /bill 5.00\nend\n"


def test_a_text_is_taken_without_what_may_not_stand(page: Page) -> None:
    text = "saved 1\nnext 2\nlist /people #1\nvalue /bill 6000.00\nvalue /gone 1\nvalue /people/#1/wages 5.00\noverride /outcome full\nend\n"
    page.change("set /bill 1")
    told = page.told(page.post("resume", {"change": "a", "text": text}))
    assert told["dropped"] == [
        {"kind": "value", "slot": "/bill", "why": "refused 7 Limit 2"},
        {"kind": "value", "slot": "/gone", "why": "refused 3 UnknownFact"},
        {"kind": "override", "slot": "/outcome", "why": "override"},
    ]
    assert page.ask("get /outcome", "final /outcome", "get /bill", "get /people/#1/wages") == ["incomplete", "open", "incomplete", "complete 5.00"]
    assert page.change("undo")["reply"] == "refused 13 NothingToUndo"
    assert page.post("resume", {"change": "b", "text": "saved 2"}).json() == {"error": "text", "line": 1}


def test_a_repeated_text_is_taken_once(page: Page) -> None:
    said = {"change": "a", "text": "saved 1\nnext 1\nvalue /bill 5.00\nend\n", "visit": None, "revision": 0}
    page.told(page.post("resume", said))
    page.change("set /bill 6")
    assert page.post("resume", said).json()["reply"] == "ok"
    assert page.ask("get /bill") == ["complete 6.00"]


def test_the_history_is_cut_and_undo_still_reaches_back(page: Page, monkeypatch: pytest.MonkeyPatch) -> None:
    monkeypatch.setattr(history, "REACH", 5)
    with Session.open(EXAMPLES / "screener.json") as session:
        for number in range(40):
            line = f"set /bill {number}" if number % 4 else "undo" if number % 8 else "watch changed /bill" if number == 0 else "set /savings 1"
            assert page.change(line, "get /bill", "get /help")["reply"] == session.line(line).removesuffix("\n")
        for _ in range(5):
            assert page.change("undo", "get /bill")["reply"] == session.line("undo").removesuffix("\n")
            assert page.ask("get /bill", "get /savings") == [session.line(f"get {slot}").strip() for slot in ("/bill", "/savings")]
    reach = 0
    while page.change("undo")["reply"].startswith("ok"):
        reach += 1
    assert 0 < reach < 30


def test_a_dictionary_that_was_changed_takes_over_the_answers(settings: Settings, tmp_path: Path) -> None:
    with Page.open(settings) as page:
        for line in ("set /bill 500", "set /caseNumber 123456789", "set /tenure owns"):
            page.change(line)
        cookies, visit = page.client.cookies, page.visit
    changed = (EXAMPLES / "screener.json").read_text().replace('"5000.00"', '"400.00"').replace('["rents","owns","other"]', '["rents","other"]')
    file = tmp_path / "changed.json"
    file.write_text(changed)
    with Page.open(Settings(file, settings.store, settings.key)) as page:
        page.client.cookies = cookies
        page.load()
        told = page.told(page.post("answer", {"questions": ["get /bill", "get /tenure", "get /caseNumber"]}))
        assert told["replies"] == ["incomplete", "incomplete", "complete 123456789"]
        assert [(one["slot"], one["why"]) for one in told["dropped"]] == [("/tenure", "refused 6 BadValue"), ("/bill", "refused 7 Limit 2")]
        assert told["stale"] and told["visit"] == visit
        assert page.change("set /bill 300")["reply"] == "ok"
