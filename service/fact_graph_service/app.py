"""The service as an ASGI application: the page, and the calls that the page makes.

`application()` reads its settings from the environment, so each worker of a server can make its own:

    FACT_GRAPH_DICTIONARY=screener.json FACT_GRAPH_STORE=sqlite:screener.sqlite uvicorn --factory fact_graph_service.app:application
"""

from __future__ import annotations

import asyncio
import json
import logging
import math
import weakref
from collections.abc import AsyncIterator, Awaitable, Callable
from concurrent.futures import ThreadPoolExecutor
from contextlib import asynccontextmanager
from pathlib import Path
from typing import Any, TypeVar
from urllib.parse import urlsplit

from starlette.applications import Starlette
from starlette.middleware import Middleware
from starlette.requests import ClientDisconnect, Request
from starlette.responses import HTMLResponse, JSONResponse, PlainTextResponse, Response
from starlette.routing import BaseRoute, Mount, Route
from starlette.staticfiles import StaticFiles

from fact_graph import OutOfMemory, SavedRefused

from .form import Form
from .guard import Rates, SecureHeaders
from .sealing import Keys, Unreadable, Vault, is_secret, new_secret
from .settings import Settings
from .store import Store, StoreFailed, StoreFull
from .visitors import Answered, Asked, Damaged, Ended, Visitors

LOG = logging.getLogger(__name__)
PAGE = Path(__file__).with_name("page")

LARGEST_CALL = 262_144
LARGEST_TEXT = 4_194_304
MOST_QUESTIONS = 5_000
SECONDS_FOR_BODY = 10
SECONDS_BETWEEN_ERASING = 60
THREADS = 16
RETRY_SECONDS = 2

Made = TypeVar("Made")


class Wrong(Exception):
    """A request that isn't served: its status, and a word for the page."""

    def __init__(self, status: int, word: str, wait: float = 0) -> None:
        super().__init__(status, word)
        self.status, self.word, self.wait = status, word, wait


class Service:
    """The parts of a service, and what is done for a request."""

    def __init__(self, settings: Settings) -> None:
        form = Form.open(settings.dictionary)
        self.settings, self.store, self.vault = settings, Store(settings.store), Vault(settings.key)
        bounds = {"seconds": settings.minutes * 60, "most": settings.sessions, "cache": settings.cache}
        self.visitors = Visitors(form.text, self.store, **bounds)
        self.rates = Rates(settings.rate)
        self.hosts = {urlsplit(origin).netloc for origin in settings.origins}
        self.form = json.dumps({"id": self.visitors.digest, **form.described()}, ensure_ascii=False).encode()
        self.cookie = "__Host-fact-graph" if settings.is_secure else "fact-graph"
        self.html = (PAGE / "index.html").read_text(encoding="utf-8")
        self._turns: weakref.WeakValueDictionary[bytes, asyncio.Lock] = weakref.WeakValueDictionary()
        self._threads = ThreadPoolExecutor(THREADS)

    # ---- whose request it is

    def secret(self, request: Request) -> str | None:
        """The visitor's secret, of the cookie."""
        found = request.cookies.get(self.cookie, "")
        return found if is_secret(found) else None

    def visitor(self, request: Request) -> Keys:
        """The keys of a visitor whose page makes a call. Raises `Wrong` where another site may have sent it."""
        if request.headers.get("origin") not in self.settings.origins:
            raise Wrong(403, "origin")
        secret = self.secret(request)
        if secret is None:
            raise Wrong(403, "cookie")
        keys = self.vault.keys(secret)
        if not keys.is_token(request.headers.get("x-token", "")):
            raise Wrong(403, "token")
        return keys

    async def in_turn(self, keys: Keys, call: Callable[[], Made]) -> Made:
        """Makes a call in a thread, behind the visitor's calls before it."""
        turn = self._turns.setdefault(keys.name, asyncio.Lock())
        async with turn:
            return await self._in_thread(call)

    def _in_thread(self, call: Callable[[], Made]) -> Awaitable[Made]:
        """Makes a call that may wait, beside the others."""
        return asyncio.get_running_loop().run_in_executor(self._threads, call)

    # ---- the page

    async def page(self, request: Request) -> Response:
        """The page, with the visitor's token; a new visitor gets a cookie."""
        secret = self.secret(request) or new_secret()
        response = HTMLResponse(self.html.replace("{token}", self.vault.keys(secret).token))
        response.set_cookie(self.cookie, secret, path="/", secure=self.settings.is_secure, httponly=True, samesite="strict")
        return response

    async def described(self, _: Request) -> Response:
        """What the page has to know of the form."""
        return Response(self.form, media_type="application/json")

    # ---- the calls

    async def answer(self, request: Request) -> Response:
        """A change, and questions."""
        keys, said = self.visitor(request), await _said(request)
        asked = _asked(said)
        return _told(await self.in_turn(keys, lambda: self.visitors.answer(keys, asked)))

    async def save(self, request: Request) -> Response:
        """The saved text."""
        keys, asked = self.visitor(request), _asked(await _said(request))
        return PlainTextResponse(await self.in_turn(keys, lambda: self.visitors.save(keys, asked)))

    async def resume(self, request: Request) -> Response:
        """Goes on from a saved text."""
        keys, said = self.visitor(request), await _said(request, LARGEST_TEXT)
        asked, text = _asked(said), _text(said, "text").encode()
        return _told(await self.in_turn(keys, lambda: self.visitors.resume(keys, asked, text)))

    async def stay(self, request: Request) -> Response:
        """Keeps the answers for longer."""
        keys, asked = self.visitor(request), _asked(await _said(request))
        return _told(await self.in_turn(keys, lambda: self.visitors.stay(keys, asked)))

    async def end(self, request: Request) -> Response:
        """Erases the answers."""
        keys, asked = self.visitor(request), _asked(await _said(request))
        await self.in_turn(keys, lambda: self.visitors.end(keys, asked))
        return JSONResponse({})

    # ---- for those who run it

    async def health(self, _: Request) -> Response:
        """Whether the process answers."""
        return PlainTextResponse("well")

    async def ready(self, _: Request) -> Response:
        """Whether the store answers too."""
        try:
            await self._in_thread(self.store.check)
        except StoreFailed:
            return PlainTextResponse("the store doesn't answer", 503)
        return PlainTextResponse("ready")

    # ---- around

    def served(self, handler: Callable[[Request], Awaitable[Response]]) -> Callable[[Request], Awaitable[Response]]:
        """The handler, for a request that is let in, with an answer for all that may go wrong."""

        async def serve(request: Request) -> Response:
            try:
                self._let_in(request)
                return await handler(request)
            except Wrong as wrong:
                return _refused(wrong.status, wrong.word, wrong.wait)
            except Ended:
                return _refused(410, "ended")
            except SavedRefused as refused:
                return JSONResponse({"error": "text", "line": refused.line}, 422)
            except StoreFull:
                return _refused(503, "full", SECONDS_BETWEEN_ERASING)
            except (StoreFailed, OutOfMemory):
                return _refused(503, "busy", RETRY_SECONDS)
            except (Damaged, Unreadable) as damaged:
                LOG.error("a session can't be read: %s", damaged)
                return _refused(500, "damaged")

        return serve

    def _let_in(self, request: Request) -> None:
        if request.headers.get("host") not in self.hosts:
            raise Wrong(421, "host")
        wait = self.rates.wait(request.client.host if request.client else "")
        if wait:
            raise Wrong(429, "busy", wait)

    @asynccontextmanager
    async def lifespan(self, _: Starlette) -> AsyncIterator[None]:
        """Erases what is over, as long as the service runs."""
        eraser = asyncio.create_task(self._erase())
        try:
            yield
        finally:
            eraser.cancel()
            self._threads.shutdown()
            self.store.close()

    async def _erase(self) -> None:
        while True:
            try:
                erased = await self._in_thread(self.store.expire)
                LOG.info("sessions erased: %d", erased)
            except StoreFailed:
                pass  # the store has told it, and there is a next time
            await asyncio.sleep(SECONDS_BETWEEN_ERASING)


def application(settings: Settings | None = None) -> Starlette:
    """The application, by the settings of the environment where none are given."""
    service = Service(settings or Settings.of_environment())
    gets = {"/": service.page, "/form.json": service.described}
    posts = {f"/{call.__name__}": call for call in (service.answer, service.save, service.resume, service.stay, service.end)}
    routes: list[BaseRoute] = [Route(path, service.served(handler), methods=["POST"]) for path, handler in posts.items()]
    routes += [Route(path, service.served(handler), methods=["GET"]) for path, handler in gets.items()]
    routes += [Route("/health", service.health), Route("/ready", service.ready)]
    routes += [Mount("/page", StaticFiles(directory=PAGE))]
    return Starlette(routes=routes, middleware=[Middleware(SecureHeaders, is_secure=service.settings.is_secure)], lifespan=service.lifespan)


# ---- what a request says, and how it is answered


async def _said(request: Request, most: int = LARGEST_CALL) -> dict[str, Any]:
    """The object that a request says. A slow one is waited for, but not for ever."""
    try:
        async with asyncio.timeout(SECONDS_FOR_BODY):
            body = await _body(request, most)
        said = json.loads(body)
    except TimeoutError as slow:
        raise Wrong(408, "slow") from slow
    except ClientDisconnect as gone:
        raise Wrong(400, "form") from gone
    except (ValueError, RecursionError) as wrong:
        raise Wrong(400, "form") from wrong
    if not isinstance(said, dict):
        raise Wrong(400, "form")
    return said


async def _body(request: Request, most: int) -> bytes:
    pieces, size = [], 0
    async for piece in request.stream():
        size += len(piece)
        if size > most:
            raise Wrong(413, "large")
        pieces.append(piece)
    return b"".join(pieces)


def _asked(said: dict[str, Any]) -> Asked:
    visit, revision, questions = said.get("visit"), said.get("revision", 0), said.get("questions", [])
    if not (visit is None or isinstance(visit, str)) or isinstance(revision, bool) or not isinstance(revision, int) or not 0 <= revision < 2**63:
        raise Wrong(400, "form")
    if not isinstance(questions, list) or len(questions) > MOST_QUESTIONS:
        raise Wrong(400, "form")
    _check(*questions)
    line = _text(said, "line") if "line" in said else None
    change = _text(said, "change") if "change" in said else ""
    if (line is not None and not change) or len(change) > 100 or "\0" in change:
        raise Wrong(400, "form")
    return Asked(visit, revision, change, line, questions)


def _text(said: dict[str, Any], name: str) -> str:
    text = said.get(name)
    _check(text)
    return str(text)


def _check(*texts: Any) -> None:
    """Raises `Wrong` where one is no text, or can't be encoded."""
    try:
        "".join(texts).encode()
    except (TypeError, UnicodeEncodeError) as wrong:
        raise Wrong(400, "form") from wrong


def _told(answered: Answered) -> Response:
    return JSONResponse({**answered._asdict(), "dropped": [dropped._asdict() for dropped in answered.dropped]})


def _refused(status: int, word: str, wait: float = 0) -> Response:
    headers = {"Retry-After": str(math.ceil(wait))} if wait else {}
    return JSONResponse({"error": word}, status, headers)
