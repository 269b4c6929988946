"""Lines of a script as the calls that they are, and what these come to as the program writes it."""

from __future__ import annotations

import re

from fact_graph import Answer, Desk, Party, Refused, Session
from fact_graph.dictionary import path_of
from fact_graph.values import READERS, said, text_of, text_of_any

VALUED = ("set", "override")
CHANGES = {"clear": "clear", "open": "open_list", "release": "release"}
STEPS = ("undo", "redo")
WATCHES = {"watch": Session.watch, "unwatch": Session.unwatch}
# A line of a party, and the commands that a desk doesn't have.
OF_PARTY = re.compile(rb"@([1-9]|1[0-6]) (.*)", re.DOTALL)
NO_DESK = ("watch", "unwatch")
# The most bytes of a line, one last byte 13 counted.
LIMIT = 4_096
# The forms of commands; any other line is no call.
FORMS = [
    re.compile(r"(set|override) ([^ ]*) (.*)", re.DOTALL),
    re.compile(r"(remove) ([^ ]*) #([1-9][0-9]*)"),
    re.compile(r"(watch|unwatch) ([^ ]*) (.*)", re.DOTALL),
    re.compile(r"(clear|open|add|release|get|final|stamp|missing) (.*)", re.DOTALL),
    re.compile(r"(undo|redo|touched)"),
]


def parts_of(line: bytes) -> list[str]:
    """The verb of a line and what stands behind it; nothing where the line is no call."""
    if len(line) > LIMIT:
        return []
    try:
        text = line.removesuffix(b"\r").decode()
    except UnicodeDecodeError:
        return []
    found = (form.fullmatch(text) for form in FORMS)
    return next((list(match.groups()) for match in found if match), [])


def type_of(session: Session | Party, slot: str) -> str:
    """The name of a slot's type, where there is one."""
    dictionary = session.desk.dictionary if isinstance(session, Party) else session.dictionary
    fact = dictionary.facts.get(path_of(slot))
    return fact.type.name if fact else ""


def typed(session: Session | Party, slot: str, text: str) -> Answer:
    """The value of a text, where it is written as a session prints it; else the text itself."""
    try:
        value = READERS[type_of(session, slot)](text)
        return value if not isinstance(value, tuple) and text_of(value) == text else text
    except (ArithmeticError, KeyError, TypeError, ValueError):
        return text


def change(session: Session | Party, verb: str, rest: list[str]) -> str:
    """Makes a change, and says what its reply says of it; nothing where the verb makes none."""
    if verb in VALUED:
        getattr(session, verb)(rest[0], typed(session, *rest))
    elif verb in CHANGES:
        getattr(session, CHANGES[verb])(*rest)
    elif verb in STEPS:
        getattr(session, verb)()
    elif verb == "remove":
        session.remove(rest[0], int(rest[1]))
    elif verb == "add":
        return f"ok #{session.add(*rest)}"
    else:
        return ""
    return "ok"


def question(session: Session | Party, verb: str, rest: list[str]) -> list[str]:
    """The lines of what a question is answered."""
    if verb == "get":
        return [said(session.get(*rest), type_of(session, rest[0]))]
    if verb == "final":
        value = session.final(*rest)
        return ["open" if value is None else f"final {text_of_any(value, type_of(session, rest[0]))}"]
    if verb == "missing":
        missing = session.missing(*rest)
        return [f"missing {len(missing)}", *missing]
    if verb == "stamp":
        return [f"stamp {session.stamp(*rest)}"]
    if verb == "touched":
        return [f"touched {session.touched()}"]
    assert isinstance(session, Session)
    WATCHES[verb](session, *rest)
    return ["ok"]


def replied(session: Session | Party, verb: str, rest: list[str]) -> list[str]:
    """The lines of the reply to a call."""
    changed = change(session, verb, rest)
    if not changed:
        return question(session, verb, rest)
    return [changed, *(f"watch {name} {slot}" for name, slot in (session.fired if isinstance(session, Session) else ()))]


def called(session: Session | Party, parts: list[str]) -> list[str]:
    """The lines of the reply to a call, or of its refusal."""
    try:
        return replied(session, parts[0], parts[1:])
    except Refused as refused:
        return [str(refused)]


def reply(session: Session | Desk, line: bytes) -> str:
    """What the program writes to a line, from the call that it is; from the line itself where it is none."""
    if isinstance(session, Session):
        parts, mark, whose = parts_of(line), "", session
        lines = called(whose, parts) if parts else None
    else:
        of_party = OF_PARTY.fullmatch(line) if len(line) <= LIMIT else None
        parts = parts_of(of_party[2]) if of_party else []
        mark = f"@{of_party[1].decode()} " if of_party else ""
        lines = called(session.party(int(of_party[1])), parts) if of_party and parts and parts[0] not in NO_DESK else None
    return session.line(line) if lines is None else "".join(f"{mark}{text}\n" for text in lines)


def replies(session: Session | Desk, script: bytes) -> str:
    """What the program writes to a script, call by call, up to `quit`."""
    written = []
    for line in script.split(b"\n"):
        if re.fullmatch(rb"(@([1-9]|1[0-6]) )?quit\r?", line) and isinstance(session, Desk) == line.startswith(b"@"):
            break
        written.append(reply(session, line))
    return "".join(written)
