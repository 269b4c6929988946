"""Secrets: what a visitor's cookie opens, and how answers are encrypted in the store.

The store has a session under a name that is worked out of the visitor's secret, and encrypted by a key that is worked out of the
secret and the service's key. So neither the store nor the store with the service's key tells what anybody answered.
"""

from __future__ import annotations

import hmac
import secrets
from typing import NamedTuple

from cryptography.exceptions import InvalidTag
from cryptography.hazmat.primitives.ciphers.aead import AESGCM

SECRET_BYTES = 32
NONCE_BYTES = 12


class Unreadable(Exception):
    """What the store has isn't what this service wrote there."""


def new_secret() -> str:
    """A secret of 256 bits that nobody can guess."""
    return secrets.token_urlsafe(SECRET_BYTES)


def is_secret(text: str) -> bool:
    """Whether a text has the form of a secret."""
    return len(text) == 43 and text.isascii() and text.replace("-", "").replace("_", "").isalnum()


class Seal:
    """Encrypts texts, each for one place: a text that was moved to another place can't be opened there."""

    def __init__(self, key: bytes) -> None:
        self._cipher = AESGCM(key)

    def close(self, text: bytes, place: str) -> bytes:
        """The text, encrypted."""
        nonce = secrets.token_bytes(NONCE_BYTES)
        return nonce + self._cipher.encrypt(nonce, text, place.encode())

    def open(self, sealed: bytes, place: str) -> bytes:
        """The text that was encrypted for the place. Raises `Unreadable` for any other bytes."""
        try:
            return self._cipher.decrypt(sealed[:NONCE_BYTES], sealed[NONCE_BYTES:], place.encode())
        except (InvalidTag, ValueError) as wrong:
            raise Unreadable(place) from wrong


class Keys(NamedTuple):
    """What is worked out for a visitor."""

    name: bytes
    """The name of the visitor's session in the store."""
    token: str
    """What the visitor's page sends with each request, and another site's page can't know."""
    seal: Seal
    """What encrypts the visitor's answers."""

    def is_token(self, token: str) -> bool:
        """Whether the token is the visitor's."""
        return hmac.compare_digest(self.token.encode(), token.encode())


class Vault:
    """The service's key."""

    def __init__(self, key: bytes) -> None:
        self._key = key

    def keys(self, secret: str) -> Keys:
        """The keys of a visitor, by HKDF with SHA-256, as RFC 5869 has it: the secret is the salt, and each use has one block."""
        extracted = hmac.digest(secret.encode(), self._key, "sha256")
        name, token, seal = (hmac.digest(extracted, use + b"\x01", "sha256") for use in (b"name", b"token", b"seal"))
        return Keys(name, token.hex(), Seal(seal))
