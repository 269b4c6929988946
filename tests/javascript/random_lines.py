"""Random scripts over a dictionary: most of their lines are commands that its facts take, some are refused, and a few are no commands."""

import json
import random
from collections.abc import Callable
from typing import Any

VERBS = {
    "set": 30, "get": 20, "clear": 6, "add": 6, "remove": 3, "open": 2, "override": 6, "release": 4, "undo": 8, "redo": 5, "final": 6,
    "stamp": 4, "touched": 3, "missing": 5, "watch": 3, "unwatch": 2,
}
WATCHES = ("changed", "completed", "lost", "raised", "other")
STRANGE = (b"", b"# a comment", b"get", b"set /a", b"get  /a", b"set", b"add /a b", b"\xff\xfe", b"get /a\r", b"x" * 4097, b"\xe2\x82\xac")


def some_value(chance: random.Random, kind: str, options: list[str]) -> str:
    """The text of a value of a type, at times one that it doesn't take."""
    sign, digits = chance.choice(("", "", "-")), str(chance.randrange(10 ** chance.randrange(1, 14)))
    values: dict[str, Callable[[], str]] = {
        "Boolean": lambda: chance.choice(("true", "false")),
        "Int": lambda: sign + digits,
        "Dollar": lambda: sign + digits + chance.choice(("", f".{chance.randrange(100):02}")),
        "Rational": lambda: f"{sign}{chance.randrange(1000)}/{chance.randrange(40)}",
        "Day": lambda: f"{chance.randrange(1790, 2210)}-{chance.randrange(1, 13):02}-{chance.randrange(1, 32):02}",
        "Text": lambda: chance.choice(("a", "a b", " ", "123456789", "\u20ac", "x" * chance.randrange(1100))),
        "Enum": lambda: chance.choice([*options, "none"]),
    }
    if kind not in values or chance.randrange(12) == 0:
        return chance.choice(("", "1", "true", "1.5", "2024-02-30", "-", "#1", "[]"))
    return values[kind]()


class Script:
    """The lines of a random script."""

    def __init__(self, seed: int, dictionary: bytes) -> None:
        self.chance = random.Random(seed)
        stated: dict[str, Any] = json.loads(dictionary)
        self.types = {fact["path"]: fact.get("writable") or fact["derived"] for fact in stated["facts"]}
        self.writable = [fact["path"] for fact in stated["facts"] if "writable" in fact]
        self.derived = [fact["path"] for fact in stated["facts"] if "derived" in fact]
        self.lists = [path for path in self.writable if self.types[path] == "Collection"]
        self.options = {enum["name"]: enum["options"] for enum in stated.get("enums", [])}

    def slot(self, paths: list[str]) -> tuple[str, str]:
        """A slot of one of these facts, or at times of any, and the fact's path."""
        if not paths or self.chance.randrange(15) == 0:
            paths = [*self.types, "/nowhere"]
        path = self.chance.choice(paths)
        return path.replace("*", f"#{self.chance.randrange(1, 6)}"), path

    def value(self, path: str) -> str:
        """A value for a fact."""
        kind, _, of = self.types.get(path, "Text").partition("(")
        return some_value(self.chance, kind, self.options.get(of.rstrip(")"), []))

    def line(self) -> bytes:
        """The next line, without its newline."""
        if self.chance.randrange(40) == 0:
            return self.chance.choice(STRANGE)
        verb = self.chance.choices(list(VERBS), list(VERBS.values()))[0]
        if verb in ("undo", "redo", "touched"):
            return verb.encode()
        of_lists = {"add": self.lists, "open": self.lists, "remove": self.lists}
        paths = {"set": self.writable, "clear": self.writable, "override": self.derived, "release": self.derived, **of_lists}
        slot, path = self.slot(paths.get(verb, list(self.types)))
        if verb in ("set", "override"):
            return f"{verb} {slot} {self.value(path)}".encode()
        if verb == "remove":
            return f"remove {slot} #{self.chance.randrange(1, 6)}".encode()
        if verb in ("watch", "unwatch"):
            return f"{verb} {self.chance.choice(WATCHES)} {slot}".encode()
        return f"{verb} {slot}".encode()

    def lines(self, count: int) -> bytes:
        """So many lines."""
        return b"".join(self.line() + b"\n" for _ in range(count))
