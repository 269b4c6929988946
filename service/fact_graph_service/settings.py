"""What a service is told: from the environment, as each worker reads it, or from a call."""

from __future__ import annotations

import base64
import os
import secrets
from collections.abc import Mapping
from dataclasses import dataclass, fields
from pathlib import Path

from .store import kind_of

PREFIX = "FACT_GRAPH_"
KEY_BYTES = 32


class SettingsWrong(ValueError):
    """A setting that can't be taken, in words for whoever wrote it."""


@dataclass(frozen=True)
class Settings:
    """What a service is told. Each field is a variable of the environment too, as `FACT_GRAPH_STORE` for `store`."""

    dictionary: str | Path
    """The file of the dictionary, or the words of one that comes along, as `year 2023`. What the page says stands beside the file:
    `NAME.page` beside `NAME.json`."""

    store: str
    """`sqlite:PATH` or `postgresql://..`."""

    key: bytes
    """32 random bytes, by which answers are encrypted."""

    origins: tuple[str, ...] = ("http://127.0.0.1:8000", "http://localhost:8000")
    """The addresses of the page as browsers have them, without a path, as `https://help.example.gov`."""

    minutes: int = 60
    """How long answers are kept after the last change, or after the visitor asked to keep them."""

    sessions: int = 100_000
    """How many visitors' answers the store takes."""

    cache: int = 500
    """How many sessions a worker keeps in memory."""

    rate: int = 20
    """How many requests a second an address may make, in the long run."""

    @property
    def is_secure(self) -> bool:
        """Whether browsers reach the page by TLS alone."""
        return all(origin.startswith("https://") for origin in self.origins)

    @classmethod
    def of_environment(cls, environment: Mapping[str, str] | None = None) -> Settings:
        """The settings that an environment has, by default the process's. Raises `SettingsWrong`."""
        given = os.environ if environment is None else environment
        variables = {one.name: given.get(PREFIX + one.name.upper()) for one in fields(cls)}
        said = {name: text for name, text in variables.items() if text}
        for name in ("dictionary", "store"):
            if name not in said:
                raise SettingsWrong(f"{PREFIX}{name.upper()} isn't set")
        try:
            kind_of(said["store"])
        except ValueError as wrong:
            raise SettingsWrong(str(wrong)) from wrong
        numbers = {name: _number(name, said[name]) for name in ("minutes", "sessions", "cache", "rate") if name in said}
        origins = {"origins": tuple(origin.rstrip("/") for origin in said["origins"].split())} if "origins" in said else {}
        return cls(said["dictionary"], said["store"], _key(said), **origins, **numbers)  # type: ignore[arg-type] # by name, each of its type

    def environment(self) -> dict[str, str]:
        """The variables that have these settings, for the workers of a server."""
        said = {one.name: getattr(self, one.name) for one in fields(self)}
        said |= {"key": text_of_key(self.key), "origins": " ".join(self.origins)}
        return {PREFIX + name.upper(): str(value) for name, value in said.items()}


def text_of_key(key: bytes) -> str:
    """A key as the environment and a file have it."""
    return base64.urlsafe_b64encode(key).decode()


def _number(name: str, text: str) -> int:
    if not (text.isascii() and text.isdecimal()) or int(text) == 0:
        raise SettingsWrong(f"{PREFIX}{name.upper()} is no number from 1 on: {text}")
    return int(text)


def _key(said: Mapping[str, str]) -> bytes:
    """The key that is said; for a store in a file of this machine, else that of a file beside it, which is made once."""
    if "key" in said:
        return _bytes_of_key(said["key"])
    if not said["store"].startswith("sqlite:"):
        raise SettingsWrong(f"{PREFIX}KEY isn't set, and all workers need the same one")
    return _key_in(Path(said["store"].removeprefix("sqlite:") + ".key"))


def _key_in(file: Path) -> bytes:
    try:
        descriptor = os.open(file, os.O_CREAT | os.O_EXCL | os.O_WRONLY, 0o600)
    except FileExistsError:
        return _bytes_of_key(file.read_text(encoding="ascii").strip())
    with open(descriptor, "w", encoding="ascii") as new:
        new.write(text_of_key(secrets.token_bytes(KEY_BYTES)) + "\n")
    return _bytes_of_key(file.read_text(encoding="ascii").strip())


def _bytes_of_key(text: str) -> bytes:
    try:
        key = base64.urlsafe_b64decode(text)
    except ValueError:
        key = b""
    if len(key) != KEY_BYTES:
        raise SettingsWrong(f"a key is {KEY_BYTES} bytes in the letters of base64, as `openssl rand -base64 32` makes them")
    return key
