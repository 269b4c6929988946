"""Lines of parties that no text shows: blanks at their end, a byte 13, long ones, bytes that are no UTF-8. What a desk and the session behind
it count, at its most: changes, looks, slots that a change touches, missing answers, lines of a script."""
import json
from collections.abc import Iterable, Iterator

from stored_cases import Made

DICTIONARY = b'{"version":"1","facts":[{"path":"/text","writable":"Text"},{"path":"/number","writable":"Int"}]}'


def case(name: str, script: bytes, text: bytes) -> Made:
    return name, "desk d", DICTIONARY, script, text, 0


# ---- at the limits

Fact = dict[str, object]
CHANGES = 100_000
MEMBERS = range(1, 101)
PARTIES = range(1, 17)
# A dictionary has 2,000 facts: a collection, another one, and these.
FIELDS = range(1, 1_999)
LOOKED_AT = range(1, 51)
LONGEST_SCRIPT = 67_108_864


def told(name: str, facts: Iterable[Fact], lines: Iterable[tuple[str, list[str]]]) -> Made:
    """A desk, of which each line stands with its reply, both without the party's mark, which stands in front."""
    script: list[str] = []
    text: list[str] = []
    for line, reply in lines:
        mark = line.split(" ")[0]
        script.append(line)
        text.extend(f"{mark} {each}" for each in reply)
    of = json.dumps({"version": "1", "facts": list(facts)}).encode()
    return name, "desk d", of, "".join(f"{it}\n" for it in script).encode(), "".join(f"{it}\n" for it in text).encode(), 0


def changes() -> Iterator[tuple[str, list[str]]]:
    """Changes of two parties by turns, each of its own fact. Each undoes and redoes its own."""
    def party(k: int) -> int:
        return 1 + k % 2

    for k in range(1, CHANGES + 1):
        yield f"@{party(k)} set /n{party(k)} {k}", ["ok"]
    yield "@1 undo", ["ok"]
    yield "@1 undo", ["refused 21 NotYours 2"]
    yield "@2 redo", ["refused 21 NotYours 1"]
    yield "@1 redo", ["ok"]
    for k in range(CHANGES, 0, -1):
        yield f"@{party(k)} undo", ["ok"]
    yield "@1 undo", ["refused 13 NothingToUndo"]
    yield "@1 get /n1", ["incomplete"]
    for k in range(1, CHANGES + 1):
        yield f"@{party(k)} redo", ["ok"]
    yield "@1 redo", ["refused 14 NothingToRedo"]
    # of all changes, two of which were that undo and that redo, the last is that of /n1
    yield "@1 stamp /n1", [f"stamp {3 * CHANGES + 2}"]
    yield "@1 stamp /n2", [f"stamp {3 * CHANGES + 1}"]
    yield "@2 get /n1", [f"complete {CHANGES}"]
    yield "@2 get /n2", [f"complete {CHANGES - 1}"]


def looks() -> Iterator[tuple[str, list[str]]]:
    """Each party looks at each field of each member, and one sets the first and the last."""
    first, last = "/c/#1/f1", f"/c/#{MEMBERS[-1]}/f{LOOKED_AT[-1]}"
    for k in MEMBERS:
        yield "@1 add /c", [f"ok #{k}"]
    yield f"@2 set {first} 1", ["refused 20 Stale 1"]
    for party in PARTIES:
        for k in MEMBERS:
            for n in LOOKED_AT:
                yield f"@{party} get /c/#{k}/f{n}", ["incomplete"]
    for party in PARTIES:
        yield f"@{party} set /c/#{party}/f{party} {party}", ["ok"]
    yield f"@2 set {last} 7", ["ok"]
    yield f"@16 set {last} 8", [f"refused 20 Stale {len(MEMBERS) + len(PARTIES) + 1}"]
    yield f"@15 get {last}", ["complete 7"]
    yield f"@15 set {last} 9", ["ok"]


def touched() -> Iterator[tuple[str, list[str]]]:
    """A fact that each field of each member reads."""
    slots = 1 + len(FIELDS) * len(MEMBERS)
    for k in MEMBERS:
        yield "@1 add /c", [f"ok #{k}"]
    for line, result in (("set /x 1", "complete 1"), ("set /x 2", "complete 2"), ("undo", "complete 1"), ("undo", "incomplete"), ("redo", "complete 1")):
        yield f"@1 {line}", ["ok"]
        yield "@1 touched", [f"touched {slots}"]
        for k in (MEMBERS[0], MEMBERS[-1]):
            for n in (FIELDS[0], FIELDS[-1]):
                yield f"@1 get /c/#{k}/f{n}", [result]


def missing() -> Iterator[tuple[str, list[str]]]:
    """A sum of sums over all fields of all members, which are missing but for the last, once that is answered."""
    slots = [f"/c/#{k}/f{n}" for n in FIELDS for k in MEMBERS]
    for k in MEMBERS:
        yield "@1 add /c", [f"ok #{k}"]
    yield "@1 missing /s", [f"missing {len(slots)}", *slots]
    yield f"@1 set {slots[-1]} 1", ["ok"]
    yield "@1 missing /s", [f"missing {len(slots) - 1}", *slots[:-1]]


def limits() -> Iterator[Made]:
    """Each of these, over its dictionary."""
    listed: Fact = {"path": "/c", "writable": "Collection"}
    yield told("100,000 changes of two parties, undone and redone", [{"path": f"/n{p}", "writable": "Int"} for p in (1, 2)], changes())
    looked_at: list[Fact] = [{"path": f"/c/*/f{n}", "writable": "Int"} for n in LOOKED_AT]
    yield told("sixteen parties look at 5,000 slots each", [listed, *looked_at], looks())
    fields: list[Fact] = [{"path": f"/c/*/f{n}", "derived": "Int", "is": ["Dependency", "/x"]} for n in FIELDS]
    yield told("a change that touches 199,801 slots", [listed, {"path": "/x", "writable": "Int"}, *fields], touched())
    sums = ["Add", *(["CollectionSum", f"/c/*/f{n}"] for n in FIELDS)]
    asked: list[Fact] = [{"path": f"/c/*/f{n}", "writable": "Int"} for n in FIELDS]
    yield told("199,800 missing answers", [listed, *asked, {"path": "/s", "derived": "Int", "is": sums}], missing())
    end = b"@1 get /number"
    yield case("as many lines as a script has bytes, but for the last", b"\n" * (LONGEST_SCRIPT - len(end)) + end, b"@1 incomplete\n")


def cases() -> Iterator[Made]:
    yield from limits()
    longest = b"@1 set /number " + b"1" * 4081
    yield case("a party's mark without a command", b"@1 \n@16 \r\n@17 \n@1\r\n", b"@1 refused 1 BadLine\n@16 refused 1 BadLine\nrefused 1 BadLine\nrefused 1 BadLine\n")
    yield case("one byte 13 is dropped before the party is read", b"\r\n@1 get /number\r\n@1 get /number\r\r\n", b"@1 incomplete\n@1 refused 1 BadLine\n")
    yield case("a line of 4096 bytes is read, and a longer one is no party's", longest + b"\n" + longest + b"1\n@1 get /number", b"@1 refused 6 BadValue\nrefused 2 LongLine\n@1 incomplete\n")
    yield case("a line that is no UTF-8 is refused behind its mark", b"@1 get /number\xff\n\xff@1 get /number\n@\xff get /number\n", b"@1 refused 1 BadLine\nrefused 1 BadLine\nrefused 1 BadLine\n")
    yield case("a note need be no UTF-8", b"#\xff\xfe\n@1 get /number\n", b"@1 incomplete\n")
    texts = [b"a b", b"", b" @2 get /text", b"#"]
    yield case("a text is all behind the second blank", b"".join(b"@1 set /text " + text + b"\n@1 get /text\n" for text in texts), b"".join(b"@1 ok\n@1 complete " + text + b"\n" for text in texts))
    everyone = b"".join(b"@%d get /number\n" % party for party in range(1, 17))
    yield case("sixteen parties, each of which looks and sets", b"".join(b"@%d get /number\n@%d set /number %d\n" % (p, p, p) for p in range(1, 17)) + everyone,
               b"@1 incomplete\n@1 ok\n" + b"".join(b"@%d complete %d\n@%d ok\n" % (p, p - 1, p) for p in range(2, 17))
               + b"".join(b"@%d complete 16\n" % p for p in range(1, 17)))
    yield case("sixteen parties, of which none looked", b"".join(b"@%d set /number %d\n" % (p, p) for p in range(1, 17)), b"@1 ok\n" + b"".join(b"@%d refused 20 Stale 1\n" % p for p in range(2, 17)))
