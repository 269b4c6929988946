"""What every part of a dictionary is asked for its form: texts, keys, names."""

from __future__ import annotations

import re
from collections.abc import Iterator
from typing import Any

from ..located import Pointer
from .finding import Finding, listed, nearest, shown

NAME = re.compile(r"[A-Za-z][A-Za-z0-9_-]{0,63}")
NAME_RULE = "a name begins with a letter and has at most 64 letters, digits, `_` and `-`"


def misform(pointer: Pointer, reason: str, hint: str = "", *, is_key: bool = False, related: tuple[Pointer, ...] = ()) -> Finding:
    """A fault of form."""
    return Finding("Shape", pointer, reason, hint, is_key=is_key, related=related)


def kind_of(value: Any) -> str:
    """What a value is, in words."""
    for kind, words in ((str, "a text"), (list, "a list"), (dict, "an object in braces")):
        if isinstance(value, kind):
            return words
    return f"`{shown(value)}`" if value is None or isinstance(value, bool) else f"the number {shown(value)}"


def expect_text(value: Any, pointer: Pointer, what: str) -> Iterator[Finding]:
    """Expects a text."""
    if not isinstance(value, str):
        is_plain = isinstance(value, (int, float, bool))
        yield misform(pointer, f"{what} is a text, and this is {kind_of(value)}", f'write "{shown(value)}"' if is_plain else "")


def expect_keys(members: dict[str, Any], pointer: Pointer, known: tuple[str, ...], needed: tuple[str, ...], whose: str) -> Iterator[Finding]:
    """Keys that aren't known, and keys that are missing."""
    for key in members:
        if key not in known:
            like = nearest(key, [it for it in known if it not in members])
            hint = f"`{like}` is like it" if like else f"{whose} has {listed(known, 'and')}"
            yield misform((*pointer, key), f"{whose} has no key `{key}`", hint, is_key=True)
    for key in needed:
        if key not in members:
            yield misform(pointer, f"{whose} needs the key `{key}`")


def expect_name(value: Any, pointer: Pointer, what: str) -> Iterator[Finding]:
    """Expects a name."""
    yield from expect_text(value, pointer, what)
    if isinstance(value, str) and not NAME.fullmatch(value):
        like = re.sub(r"^[^A-Za-z]*", "", re.sub(r"[^A-Za-z0-9_-]+", "-", value)).strip("-")[:64]
        yield misform(pointer, f"{what} is a name, and {shown(value)} is none: {NAME_RULE}", f'"{like}" is one' if like else "")


def options_of(value: dict[str, Any]) -> dict[str, tuple[str, ...]]:
    """The lists of options of a dictionary by their names, as far as they have a form."""
    enums = value.get("enums")
    found: dict[str, tuple[str, ...]] = {}
    for enum in enums if isinstance(enums, list) else []:
        if isinstance(enum, dict) and isinstance(enum.get("name"), str) and isinstance(enum.get("options"), list):
            found.setdefault(enum["name"], tuple(it for it in enum["options"] if isinstance(it, str)))
    return found
