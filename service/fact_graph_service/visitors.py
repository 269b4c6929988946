"""The visitors of a service, and what each call of a page does with the visitor's session.

A session in memory is a cache of the store: it is brought up to the store before each call, and thrown away where a call fails. A
change is written before it is told that it was made.
"""

from __future__ import annotations

import hashlib
import json
import secrets
import threading
import time
from collections import OrderedDict
from collections.abc import Iterable, Sequence
from dataclasses import dataclass
from typing import NamedTuple

from fact_graph import SavedRefused, Session

from . import history
from .history import Snapshot
from .sealing import Keys, Seal
from .store import Change, Head, Hold, Store
from .upload import Dropped, resumed

REFUSED = "refused "
BAD_LINE = "refused 1 BadLine"
MADE = (*history.CHANGES, *history.STEPS, *history.WATCHING)
"""The verbs of changes."""


class Ended(Exception):
    """The answers of which the page knows aren't there any more."""


class Damaged(Exception):
    """A line that was accepted has another reply now, or a snapshot isn't taken any more, as by another library: which one it is."""


class Asked(NamedTuple):
    """What a page knows, and what it asks for."""

    visit: str | None
    """The stay of which the page knows, or None where nothing was answered yet."""
    revision: int
    """The last revision of which the page knows."""
    change: str = ""
    """The id of the change."""
    line: str | None = None
    """The change, if there is one."""
    questions: Sequence[str] = ()


class Answered(NamedTuple):
    """What a page is answered."""

    visit: str | None
    revision: int
    seconds: int | None
    """How long the answers are still kept; None where there are none."""
    stale: bool = False
    """Whether the page didn't know of the last revision, so that its change wasn't made."""
    reply: str | None = None
    replies: Sequence[str] = ()
    dropped: Sequence[Dropped] = ()


@dataclass
class Kept:
    """A session in memory, and the place of the store's history at which it stands."""

    session: Session
    visit: str
    digest: str
    base: int
    revision: int

    def is_behind(self, head: Head) -> bool:
        """Whether the changes that the store has behind this place bring the session up to it."""
        return (self.visit, self.digest, self.base) == (head.visit, head.digest, head.base) and self.revision <= head.revision


@dataclass
class Call:
    """A call of a visitor while it is made."""

    hold: Hold
    seal: Seal
    head: Head | None

    def snapshot(self, head: Head) -> Snapshot:
        """The snapshot of the session's row."""
        return Snapshot.of_bytes(self.seal.open(head.snapshot, f"snapshot {head.visit} {head.base}"))

    def begun(self, head: Head, dictionary: bytes) -> Session:
        """The session as it stood at the snapshot."""
        try:
            return self.snapshot(head).session(dictionary)
        except SavedRefused as refused:
            raise Damaged(f"snapshot {head.visit} {head.base}") from refused

    def sealed(self, visit: str, base: int, snapshot: Snapshot) -> bytes:
        """A snapshot for the row."""
        return self.seal.close(snapshot.to_bytes(), f"snapshot {visit} {base}")

    def append(self, head: Head, change: str, line: str, reply: str, dropped: Sequence[Dropped] = ()) -> None:
        """Writes a change at the head's revision, which it has come to."""
        self.hold.append(_change(self.seal, head.visit, head.revision, change, [line, reply, dropped]), head.expires)


class Visitors:
    """The sessions of all visitors over one dictionary. A visitor has one call at a time; calls may raise `StoreFailed`."""

    def __init__(self, dictionary: bytes, store: Store, *, seconds: int, most: int, cache: int) -> None:
        self._dictionary, self.digest = dictionary, hashlib.sha256(dictionary).hexdigest()
        self._store, self._seconds, self._most, self._cache = store, seconds, most, cache
        self._kept: OrderedDict[bytes, Kept] = OrderedDict()
        self._kept_lock = threading.Lock()
        self._blank = Session(dictionary)
        store.prepare(self.digest, dictionary)

    # ---- the calls of a page

    def answer(self, keys: Keys, asked: Asked) -> Answered:
        """Makes the change, and answers the questions. Raises `Ended`, `StoreFull`."""
        if asked.line is None:
            return self._look(keys, asked)
        answered = self._step(keys, asked, asked.line)
        if answered:
            return answered
        with self._store.held(keys.name) as hold:
            call = Call(hold, keys.seal, hold.head())
            kept, answered = self._change(keys.name, call, asked, asked.line)
        return self._told(keys.name, kept, answered, asked.questions)

    def save(self, keys: Keys, asked: Asked) -> bytes:
        """The saved text. Raises `Ended` where nothing was answered."""
        with self._store.seen(keys.name) as hold:
            call = Call(hold, keys.seal, hold.head())
            kept = self._current(keys.name, call, _known(call.head, asked))
        self._keep(keys.name, kept)
        return kept.session.save()

    def resume(self, keys: Keys, asked: Asked, text: bytes) -> Answered:
        """Goes on from a saved text. Raises `Ended`, `StoreFull`, and `SavedRefused` where it is none."""
        session, dropped = resumed(self._dictionary, text)
        with self._store.held(keys.name) as hold:
            call = Call(hold, keys.seal, hold.head())
            made = self._made_before(call, asked)
            if made:
                return made
            head = self._rebased(call, session)
            call.append(head, asked.change, "", "ok", dropped)
        self._keep(keys.name, Kept(session, head.visit, head.digest, head.base, head.revision))
        return self._answered(head, reply="ok", dropped=dropped)

    def stay(self, keys: Keys, asked: Asked) -> Answered:
        """Keeps the answers for longer. Raises `Ended`."""
        with self._store.held(keys.name) as hold:
            head = _known(hold.head(), asked)._replace(expires=self._expires())
            hold.stay(head.expires)
        return self._answered(head)

    def end(self, keys: Keys, asked: Asked) -> None:
        """Erases the answers. Raises `Ended` where they are gone."""
        with self._store.held(keys.name) as hold:
            _known(hold.head(), asked)
            hold.erase()
        self._take(keys.name)

    # ---- how

    def _look(self, keys: Keys, asked: Asked) -> Answered:
        """Answers questions."""
        with self._store.seen(keys.name) as hold:
            call = Call(hold, keys.seal, hold.head())
            if call.head is None and asked.visit is None:
                return Answered(None, 0, None, replies=_replies(self._blank, asked.questions))
            head = _known(call.head, asked)
            kept = self._current(keys.name, call, head) if head.digest == self.digest else None
        if kept is None:
            return self._moved(keys, asked)
        return self._told(keys.name, kept, self._answered(head), asked.questions)

    def _moved(self, keys: Keys, asked: Asked) -> Answered:
        """Answers questions where the session stands over another dictionary, by carrying it to this one."""
        with self._store.held(keys.name) as hold:
            call = Call(hold, keys.seal, hold.head())
            kept, answered = self._carried(keys.name, call, _known(call.head, asked))
        return self._told(keys.name, kept, answered, asked.questions)

    def _step(self, keys: Keys, asked: Asked, line: str) -> Answered | None:
        """Makes a change where the session in memory comes to where the page stands: there first, and then in the store by one
        statement, which writes it where the store's session stands there too. Else nothing is made, and None is returned: what the
        session in memory has then gone through, the store doesn't know of, so it is thrown away."""
        kept = self._take(keys.name)
        if kept is None:
            return None
        if kept.revision < asked.revision:
            _catch_up(kept, keys.seal, self._store.changes(keys.name, kept.visit, kept.base, kept.revision))
        is_there = (kept.visit, kept.revision, kept.digest) == (asked.visit, asked.revision, self.digest)
        reply = _reply(kept.session, line, MADE) if is_there and not _is_long(kept.base, kept.revision + 1) else None
        if reply is None or reply.startswith(REFUSED):
            self._keep(keys.name, kept)
            return None
        kept.revision += 1
        change = _change(keys.seal, kept.visit, kept.revision, asked.change, [line, reply, ()])
        if not self._store.step(keys.name, kept.visit, kept.base, change, self._expires()):
            return None
        return self._told(keys.name, kept, Answered(kept.visit, kept.revision, self._seconds, reply=reply), asked.questions)

    def _change(self, name: bytes, call: Call, asked: Asked, line: str) -> tuple[Kept, Answered]:
        """Makes a change that wasn't made before."""
        made = self._made_before(call, asked)
        if call.head is None:
            visit = secrets.token_urlsafe(12)
            head = Head(visit, self.digest, 0, 0, call.sealed(visit, 0, Snapshot(None)), self._expires())
            kept = Kept(self._blank.further(), visit, self.digest, 0, 0)
        elif call.head.digest != self.digest:
            kept, answered = self._carried(name, call, call.head)
            return kept, answered._replace(stale=made is None or made.stale, reply=made.reply if made else None)
        else:
            head, kept = call.head, self._current(name, call, call.head)
        if made:
            return kept, made
        reply = _reply(kept.session, line, MADE)
        if reply.startswith(REFUSED):
            return kept, self._answered(call.head, reply=reply)
        if call.head is None:
            call.hold.begin(head, self._most)
        head = head._replace(revision=head.revision + 1, expires=self._expires())
        kept.revision = head.revision
        call.append(head, asked.change, line, reply)
        self._cut(call, head)
        return kept, self._answered(head, reply=reply)

    def _made_before(self, call: Call, asked: Asked) -> Answered | None:
        """What stands in the way of a change: it was made before, or the page doesn't know what stands."""
        if call.head is None:
            if asked.visit is not None:
                raise Ended
            return None
        if asked.visit not in (None, call.head.visit):
            raise Ended
        made = call.hold.change_of(asked.change)
        if made:
            _, reply, dropped = _read(call.seal, call.head.visit, made)
            return self._answered(call.head, reply=reply, dropped=dropped)
        if (asked.visit, asked.revision) != (call.head.visit, call.head.revision):
            return self._answered(call.head, stale=True)
        return None

    def _current(self, name: bytes, call: Call, head: Head) -> Kept:
        """The session as the store has it, out of memory as far as it goes. It is put back by `_keep`, where all went well."""
        kept = self._take(name)
        if kept is None or not kept.is_behind(head):
            session = call.begun(head, self._dictionary_of(call, head))
            kept = Kept(session, head.visit, head.digest, head.base, head.base)
        if kept.revision < head.revision:
            _catch_up(kept, call.seal, call.hold.changes(kept.revision))
        return kept

    def _carried(self, name: bytes, call: Call, head: Head) -> tuple[Kept, Answered]:
        """The session, carried to this dictionary from an earlier one."""
        before = self._current(name, call, head)
        session, dropped = resumed(self._dictionary, before.session.save())
        head = self._rebased(call, session)
        return Kept(session, head.visit, head.digest, head.base, head.revision), self._answered(head, stale=True, dropped=dropped)

    def _rebased(self, call: Call, session: Session) -> Head:
        """Writes a session in place of the one that stands, or as the first."""
        visit, revision = (call.head.visit, call.head.revision + 1) if call.head else (secrets.token_urlsafe(12), 1)
        snapshot = call.sealed(visit, revision, Snapshot(session.save().decode()))
        head = Head(visit, self.digest, revision, revision, snapshot, self._expires())
        if call.head is None:
            call.hold.begin(head, self._most)
        else:
            call.hold.rebase(head)
        return head

    def _cut(self, call: Call, head: Head) -> None:
        """Puts a snapshot in place of the older changes, where there are many. Sessions in memory then begin anew from it."""
        if not _is_long(head.base, head.revision):
            return
        lines = [_read(call.seal, head.visit, change)[0] for change in call.hold.changes(head.base)]
        cut = history.cut_of(lines)
        if cut:
            snapshot = call.snapshot(head).behind(self._dictionary, lines[:cut])
            base = head.base + cut
            call.hold.rebase(head._replace(base=base, snapshot=call.sealed(head.visit, base, snapshot)))

    def _told(self, name: bytes, kept: Kept, answered: Answered, questions: Sequence[str]) -> Answered:
        """What is answered, once what was made is written."""
        replies = _replies(kept.session, questions)
        if answered.visit:
            self._keep(name, kept)
        return answered._replace(replies=replies)

    def _answered(self, head: Head | None, *, stale: bool = False, reply: str | None = None, dropped: Sequence[Dropped] = ()) -> Answered:
        if head is None:
            return Answered(None, 0, None, stale, reply, (), dropped)
        return Answered(head.visit, head.revision, max(0, head.expires - int(time.time())), stale, reply, (), dropped)

    def _dictionary_of(self, call: Call, head: Head) -> bytes:
        return self._dictionary if head.digest == self.digest else call.hold.dictionary(head.digest)

    def _expires(self) -> int:
        return int(time.time()) + self._seconds

    # ---- the sessions in memory

    def _take(self, name: bytes) -> Kept | None:
        """Takes a session out of memory."""
        with self._kept_lock:
            return self._kept.pop(name, None)

    def _keep(self, name: bytes, kept: Kept) -> None:
        """Puts a session into memory, and lets go of those that were there longest without a call."""
        with self._kept_lock:
            self._kept[name] = kept
            while len(self._kept) > self._cache:
                self._kept.popitem(last=False)


def _is_long(base: int, revision: int) -> bool:
    """Whether it is time to see whether a snapshot can take the place of older changes."""
    count = revision - base
    return count >= 2 * history.REACH and count % history.REACH == 0


def _place(visit: str, revision: int, change: str) -> str:
    """The place of a change, for which it is encrypted."""
    return f"change {visit} {revision} {change}"


def _change(seal: Seal, visit: str, revision: int, change: str, said: list[object]) -> Change:
    """A change as the store has it: its line, its reply, and what it dropped."""
    return Change(revision, change, seal.close(json.dumps(said).encode(), _place(visit, revision, change)))


def _read(seal: Seal, visit: str, change: Change) -> tuple[str, str, list[Dropped]]:
    """The line of a change, its reply, and what it dropped."""
    line, reply, dropped = json.loads(seal.open(change.sealed, _place(visit, change.revision, change.id)))
    return line, reply, [Dropped(*one) for one in dropped]


def _catch_up(kept: Kept, seal: Seal, changes: Iterable[Change]) -> None:
    """Brings a session in memory up to the store, by the changes that it lacks."""
    for change in changes:
        line, reply, _ = _read(seal, kept.visit, change)
        if kept.session.line(line).removesuffix("\n") != reply:
            raise Damaged(_place(kept.visit, change.revision, change.id))
        kept.revision = change.revision


def _known(head: Head | None, asked: Asked) -> Head:
    """The session's row, where it is that of which the page knows. Raises `Ended`."""
    if head is None or asked.visit not in (None, head.visit):
        raise Ended
    return head


def _replies(session: Session, questions: Sequence[str]) -> list[str]:
    return [_reply(session, line, history.QUESTIONS) for line in questions]


def _reply(session: Session, line: str, verbs: Sequence[str]) -> str:
    """The reply to a line of some kinds, without its last newline."""
    if history.verb_of(line) not in verbs or "\n" in line or "\r" in line:
        return BAD_LINE
    return session.line(line).removesuffix("\n")
