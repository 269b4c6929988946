"""A visitor's page without a browser: it makes the calls that the page makes."""

from __future__ import annotations

import re
import uuid
from collections.abc import Iterator
from contextlib import contextmanager
from pathlib import Path
from typing import Any

import httpx
from starlette.testclient import TestClient

from fact_graph_service.app import application
from fact_graph_service.settings import Settings

EXAMPLES = Path(__file__).resolve().parents[2] / "examples"


class Page:
    """A page: what it knows of the session, and its calls."""

    def __init__(self, client: httpx.Client, origin: str) -> None:
        self.client, self.origin = client, origin
        self.visit: str | None = None
        self.revision = 0
        self.token = ""

    @classmethod
    @contextmanager
    def open(cls, settings: Settings) -> Iterator[Page]:
        """A page of a new visitor, of a process of its own."""
        with TestClient(application(settings), base_url=settings.origins[0]) as client:
            page = cls(client, settings.origins[0])
            page.load()
            yield page

    def load(self) -> Page:
        """Loads the page anew."""
        html = self.client.get("/").text
        found = re.search(r'name="token" content="([0-9a-f]{64})"', html)
        assert found is not None, html
        self.token, self.visit, self.revision = found[1], None, 0
        return self

    def window(self) -> Page:
        """Another window of the same visitor, as it is once it is loaded."""
        other = Page(self.client, self.origin)
        other.load()
        other.ask()
        return other

    def post(self, call: str, said: Any = None, **headers: str) -> httpx.Response:
        """A call, with what the page knows."""
        given = {"Origin": self.origin, "X-Token": self.token, **headers}
        body = {"visit": self.visit, "revision": self.revision, **(said or {})}
        return self.client.post(f"/{call}", json=body, headers=given)

    def told(self, response: httpx.Response) -> dict[str, Any]:
        """What a call is answered, which the page knows from then on."""
        assert response.status_code == 200, (response.status_code, response.text)
        said: dict[str, Any] = response.json()
        self.visit, self.revision = said["visit"], said["revision"]
        return said

    def change(self, line: str, *questions: str, change: str | None = None) -> dict[str, Any]:
        """Makes a change, and asks questions."""
        return self.told(self.post("answer", {"change": change or uuid.uuid4().hex, "line": line, "questions": questions}))

    def ask(self, *questions: str) -> list[str]:
        """The replies to questions."""
        replies: list[str] = self.told(self.post("answer", {"questions": questions}))["replies"]
        return replies
