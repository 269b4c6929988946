"""What keeps a service safe: headers, limits of requests by address, and who may ask at all."""

from __future__ import annotations

import time
from collections import OrderedDict
from collections.abc import Callable

from starlette.types import ASGIApp, Message, Receive, Scope, Send

HEADERS = {
    "Content-Security-Policy": "default-src 'none'; script-src 'self'; style-src 'self'; img-src 'self' data:; connect-src 'self'; "
    "base-uri 'none'; form-action 'none'; frame-ancestors 'none'",
    "X-Content-Type-Options": "nosniff",
    "X-Frame-Options": "DENY",
    "Referrer-Policy": "no-referrer",
    "Permissions-Policy": "camera=(), geolocation=(), microphone=()",
    "Cross-Origin-Opener-Policy": "same-origin",
    "Cross-Origin-Resource-Policy": "same-origin",
    "Cache-Control": "no-store",
}
OVER_TLS = {"Strict-Transport-Security": "max-age=31536000"}

ADDRESSES = 100_000
BURST_SECONDS = 10


class SecureHeaders:
    """Adds the headers of safety to each answer."""

    def __init__(self, app: ASGIApp, is_secure: bool) -> None:
        headers = HEADERS | (OVER_TLS if is_secure else {})
        self._app, self._headers = app, [(name.lower().encode(), value.encode()) for name, value in headers.items()]

    async def __call__(self, scope: Scope, receive: Receive, send: Send) -> None:
        async def send_with_headers(message: Message) -> None:
            if message["type"] == "http.response.start":
                said = {name for name, _ in message["headers"]}
                message["headers"] = [*message["headers"], *(header for header in self._headers if header[0] not in said)]
            await send(message)

        await self._app(scope, receive, send_with_headers)


class Rates:
    """How many requests each address may make: `rate` a second, and as many as ten seconds bring at once.

    >>> now = [0.0]
    >>> rates = Rates(1, clock=lambda: now[0])
    >>> [rates.wait("192.0.2.1") for _ in range(11)][-2:]
    [0.0, 1.0]
    >>> now[0] = 1.0
    >>> rates.wait("192.0.2.1")
    0.0
    """

    def __init__(self, rate: float, clock: Callable[[], float] = time.monotonic) -> None:
        self._rate, self._clock = rate, clock
        self._left: OrderedDict[str, tuple[float, float]] = OrderedDict()  # how many may come at once, and since when

    def wait(self, address: str) -> float:
        """How many seconds the address has to wait, or 0 where its request is let in."""
        now, most = self._clock(), self._rate * BURST_SECONDS
        left, since = self._left.pop(address, (most, now))
        left = min(most, left + (now - since) * self._rate)
        is_let_in = left >= 1
        self._left[address] = (left - 1 if is_let_in else left, now)
        if len(self._left) > ADDRESSES:
            self._left.popitem(last=False)
        return 0.0 if is_let_in else (1 - left) / self._rate
