"""What a service must refuse, and what it tells nobody."""

from __future__ import annotations

import dataclasses
import functools
import json
import logging
import secrets
import time
from pathlib import Path

import pytest
from cryptography.hazmat.primitives.hashes import SHA256
from cryptography.hazmat.primitives.kdf.hkdf import HKDF

from fact_graph_service import app
from fact_graph_service.guard import Rates
from fact_graph_service.sealing import Seal, Vault, new_secret
from fact_graph_service.settings import Settings, SettingsWrong
from fact_graph_service.store import Store

from pages import Page

CHANGE = {"change": "a", "line": "set /bill 5"}


@pytest.fixture
def place(tmp_path: Path) -> str:
    """A store of the kind that is quick to begin: nothing here depends on it."""
    return f"sqlite:{tmp_path}/store.sqlite"


def test_another_site_can_ask_nothing(page: Page) -> None:
    asked = [
        page.post("answer", CHANGE, Origin="http://attacker.example"),
        page.post("answer", CHANGE, Origin="null"),
        page.post("answer", CHANGE, **{"X-Token": "0" * 64}),
        page.post("answer", CHANGE, **{"X-Token": "ü".encode()}),  # type: ignore[arg-type] # bytes that are no text
        page.client.post("/answer", json=CHANGE),
        page.client.post("/answer", json=CHANGE, headers={"Origin": page.origin}),
    ]
    assert [response.status_code for response in asked] == [403] * 6
    assert page.post("answer", CHANGE, Host="attacker.example").status_code == 421
    assert page.client.get("/", headers={"Host": "attacker.example"}).status_code == 421
    assert page.ask("get /bill") == ["incomplete"]


def test_a_visitor_without_the_cookie_is_told(page: Page) -> None:
    page.client.cookies.clear()
    assert page.post("answer", CHANGE).json() == {"error": "cookie"}


def test_a_token_is_one_visitors(page: Page) -> None:
    page.change("set /bill 5")
    token, other = page.token, page
    other.client.cookies.clear()
    other.load()
    assert other.ask("get /bill") == ["incomplete"]
    assert other.post("answer", CHANGE, **{"X-Token": token}).status_code == 403


@pytest.mark.parametrize("others", ['x={"a":1}', "a=b; =; ;;", 'x="', "ü=1", "$Version=1; x=[]", "a" * 3000])
def test_another_applications_cookie_does_no_harm(page: Page, others: str) -> None:
    page.change("set /bill 5")
    mine = f"fact-graph={page.client.cookies['fact-graph']}"
    for cookie in (f"{others}; {mine}", f"{mine}; {others}"):
        response = page.post("answer", {"questions": ["get /bill"]}, Cookie=cookie.encode("latin-1"))  # type: ignore[arg-type] # bytes that are no text
        assert response.json()["replies"] == ["complete 5.00"]


@pytest.mark.parametrize("body", [
    b"", b"{", b"[]", b"null", b"5", b'{"line":"undo"}', b'{"change":"a","line":5}', b'{"change":"a","line":null}', b'{"questions":"get /bill"}',
    b'{"questions":[5]}', b'{"revision":-1}', b'{"revision":true}', b'{"revision":1.5}', b'{"revision":9223372036854775808}', b'{"visit":5}',
    b'{"change":"a","line":"set /caseNumber \\ud800"}', b'{"change":"\\u0000","line":"undo"}',
    b'{"questions":["\\udfff"]}', b'{"change":"' + b"a" * 101 + b'","line":"undo"}', b"[" * 100_000, b"\xff",
])
def test_a_body_of_another_form_is_refused(page: Page, body: bytes) -> None:
    headers = {"Origin": page.origin, "X-Token": page.token}
    assert page.client.post("/answer", content=body, headers=headers).status_code == 400


def test_a_body_that_is_too_large_is_refused(page: Page) -> None:
    headers = {"Origin": page.origin, "X-Token": page.token}
    assert page.client.post("/answer", content=b" " * (app.LARGEST_CALL + 1), headers=headers).status_code == 413
    assert page.post("answer", {"questions": ["touched"] * (app.MOST_QUESTIONS + 1)}).status_code == 400
    assert page.client.post("/resume", content=b" " * (app.LARGEST_TEXT + 1), headers=headers).status_code == 413


def test_there_is_nothing_else(page: Page) -> None:
    for path in ("/../app.py", "/page/../app.py", "/page/%2e%2e/app.py", "/store.sqlite", "/docs"):
        assert page.client.get(path).status_code == 404
    assert page.client.get("/answer").status_code == 405


def test_each_answer_has_the_headers_of_safety(page: Page) -> None:
    answers = [page.client.get("/"), page.client.get("/form.json"), page.client.get("/nothing"), page.post("answer", CHANGE), page.post("end", {"visit": "x"})]
    for response in answers:
        assert response.headers["Content-Security-Policy"].startswith("default-src 'none'; script-src 'self';")
        assert (response.headers["X-Content-Type-Options"], response.headers["Cache-Control"]) == ("nosniff", "no-store")


def test_the_cookie_is_for_this_site_alone(settings: Settings) -> None:
    with Page.open(settings) as page:
        assert page.client.cookies.get("fact-graph")
    with Page.open(dataclasses.replace(settings, origins=("https://help.example.gov",))) as page:
        page.client.cookies.clear()
        response = page.client.get("/")
        cookie = response.headers["Set-Cookie"]
        assert cookie.startswith("__Host-fact-graph=")
        assert all(word in cookie for word in ("HttpOnly", "Secure", "SameSite=strict", "Path=/")) and "Domain" not in cookie
        assert "Strict-Transport-Security" in response.headers


def test_an_address_is_slowed_down(settings: Settings, monkeypatch: pytest.MonkeyPatch) -> None:
    monkeypatch.setattr(app, "Rates", functools.partial(Rates, clock=lambda: 0.0))
    with Page.open(dataclasses.replace(settings, rate=1)) as page:
        statuses = [page.post("answer", {}).status_code for _ in range(15)]
        assert statuses == [200] * 9 + [429] * 6, "the page itself was one"
        assert int(page.post("answer", {}).headers["Retry-After"]) == 1
        assert page.client.get("/health").status_code == 200


def test_who_only_looks_takes_no_place(settings: Settings) -> None:
    with Page.open(dataclasses.replace(settings, sessions=2)) as page:
        for _ in range(200):
            page.client.cookies.clear()
            page.load().ask("get /bill")
        for _ in range(2):
            page.client.cookies.clear()
            page.load().change("set /bill 5")
        assert page.change("set /bill 6")["reply"] == "ok", "who is in goes on"
        page.client.cookies.clear()
        full = page.load().post("answer", CHANGE)
        assert (full.status_code, full.json()) == (503, {"error": "full"})


def test_answers_end_with_their_time(settings: Settings, monkeypatch: pytest.MonkeyPatch) -> None:
    now = time.time()
    monkeypatch.setattr(time, "time", lambda: now)
    with Page.open(dataclasses.replace(settings, minutes=1)) as page:
        page.change("set /bill 5")
        monkeypatch.setattr(time, "time", lambda: now + 50)
        assert page.told(page.post("stay"))["seconds"] == 60
        monkeypatch.setattr(time, "time", lambda: now + 100)
        assert page.ask("get /bill") == ["complete 5.00"]
        monkeypatch.setattr(time, "time", lambda: now + 120)
        assert page.post("answer", {"change": "b", "line": "set /bill 6"}).json() == {"error": "ended"}
        assert Store(settings.store).expire() == 1


def test_the_store_and_the_logs_tell_no_answer(settings: Settings, tmp_path: Path, caplog: pytest.LogCaptureFixture) -> None:
    caplog.set_level(logging.DEBUG)
    with Page.open(settings) as page:
        page.change("set /caseNumber 314159265")
        page.change("set /caseNumber 31415926x")
        page.post("resume", {"change": "a", "text": "saved 1\nnext 1\nvalue /caseNumber 314159265\nend\n"})
        page.post("resume", {"change": "b", "text": "saved 1\nvalue /caseNumber 314159265\n"})
        page.client.post("/answer", content=b'{"line": "set /caseNumber 314159265"', headers={"Origin": page.origin, "X-Token": page.token})
        secret = page.client.cookies["fact-graph"]
        kept = b"".join(file.read_bytes() for file in tmp_path.glob("store.sqlite*"))
    assert b"31415926" not in kept and b"caseNumber 3" not in kept and secret.encode() not in kept and settings.key not in kept
    assert "31415926" not in caplog.text and secret not in caplog.text


def test_keys_are_worked_out_by_hkdf() -> None:
    key, secret = secrets.token_bytes(32), new_secret()
    name, token, seal = (HKDF(SHA256(), 32, secret.encode(), use).derive(key) for use in (b"name", b"token", b"seal"))
    keys = Vault(key).keys(secret)
    assert (keys.name, keys.token) == (name, token.hex())
    assert Seal(seal).open(keys.seal.close(b"text", "place"), "place") == b"text"


def test_what_ends_is_erased(settings: Settings, tmp_path: Path) -> None:
    with Page.open(settings) as page:
        page.change("set /bill 5")
        sealed = _sealed(settings)
        assert sealed
        assert page.post("end").status_code == 200
    assert _sealed(settings) == []
    kept = b"".join(file.read_bytes() for file in tmp_path.glob("store.sqlite*"))
    assert all(one not in kept for one in sealed)


def _sealed(settings: Settings) -> list[bytes]:
    connection = Store(settings.store)._kind.connect()  # pylint: disable=protected-access # what is kept
    rows = [*connection.execute("SELECT sealed FROM changes"), *connection.execute("SELECT snapshot FROM sessions")]
    connection.close()
    return [bytes(row[0]) for row in rows]


def test_a_row_that_was_moved_is_not_read(settings: Settings) -> None:
    with Page.open(settings) as page:
        for line in ("set /bill 5", "set /bill 6"):
            page.change(line)
    connection = Store(settings.store)._kind.connect()  # pylint: disable=protected-access # what is kept
    connection.execute("UPDATE changes SET sealed = (SELECT sealed FROM changes WHERE revision = 1) WHERE revision = 2")
    connection.close()
    cookies = page.client.cookies
    with Page.open(settings) as page:
        page.client.cookies = cookies
        page.load()
        assert page.post("answer", {"questions": ["get /bill"]}).json() == {"error": "damaged"}


def test_readiness_says_whether_the_store_answers(settings: Settings, monkeypatch: pytest.MonkeyPatch) -> None:
    with Page.open(settings) as page:
        assert [page.client.get(path).text for path in ("/health", "/ready")] == ["well", "ready"]
        monkeypatch.setattr(Store, "_begun", _failing)
        assert [page.client.get(path).status_code for path in ("/health", "/ready")] == [200, 503]
        assert page.post("answer", CHANGE).json() == {"error": "busy"}


def _failing(*_: object) -> None:
    import sqlite3  # pylint: disable=import-outside-toplevel # needed here alone

    raise sqlite3.OperationalError


def test_settings_of_the_environment(tmp_path: Path) -> None:
    said = {"FACT_GRAPH_DICTIONARY": "a.json", "FACT_GRAPH_STORE": f"sqlite:{tmp_path}/a.sqlite"}
    settings = Settings.of_environment(said)
    assert Settings.of_environment(said).key == settings.key, "the key is made once"
    assert (tmp_path / "a.sqlite.key").stat().st_mode & 0o777 == 0o600
    assert Settings.of_environment(settings.environment()) == settings
    wrong = [
        {**said, "FACT_GRAPH_STORE": "postgresql://"}, {**said, "FACT_GRAPH_KEY": "short"}, {**said, "FACT_GRAPH_MINUTES": "0"}, {"FACT_GRAPH_STORE": "x"},
        {**said, "FACT_GRAPH_RATE": "many"},
    ]
    for one in wrong:
        with pytest.raises(SettingsWrong):
            Settings.of_environment(one)


def test_the_form_is_told_as_json(page: Page) -> None:
    form = page.client.get("/form.json").json()
    assert form["figures"][:2] == ["/outcome", "/help"]
    assert form["facts"]["/means"]["mentions"] == ["/wages", "/savings"]
    assert json.dumps(form["languages"]["en"]["options"]["tenure"]) == '{"rents": "We rent", "owns": "We own it", "other": "Something else"}'
