"""What is counted, at its most: members that a node lists, readers of a fact, operands, missing answers, changes, answers that are saved,
lines that carrying drops."""
import json
from collections.abc import Iterable, Iterator

from stored_cases import Made

Fact = dict[str, object]
MEMBERS = range(1, 101)
# A dictionary has 2,000 facts and 40,000 nodes.
FACTS, NODES = 2_000, 40_000
CHANGES = 2_000
DROPPED = 6_000


def dictionary(facts: Iterable[Fact], **more: object) -> bytes:
    return json.dumps({"version": "1", "facts": list(facts), **more}).encode()


def writable(path: str, kind: str = "Int") -> Fact:
    return {"path": path, "writable": kind}


def derived(path: str, kind: str, expression: object) -> Fact:
    return {"path": path, "derived": kind, "is": expression}


def read(path: str) -> list[str]:
    return ["Dependency", path]


def lines(texts: Iterable[str]) -> bytes:
    return "".join(f"{text}\n" for text in texts).encode()


def run(name: str, of: bytes, told: list[tuple[str, list[str]]]) -> Made:
    """A run, of which each line stands with its reply."""
    return name, "run d", of, lines(line for line, _ in told), lines(it for _, reply in told for it in reply), 0


# ---- the members of a collection

SOURCES = ("c", "kept", "again", "same")


def nodes_over_members() -> Iterator[Fact]:
    """Each node that lists members, over a collection and over what is kept of it."""
    yield writable("/c", "Collection")
    yield {"path": "/c/*/v", "writable": "Int", "placeholder": ["Int", "1"]}
    yield writable("/c/*/b", "Boolean")
    yield derived("/c/*/w", "Int", ["Add", read("../v"), read("../v")])
    yield derived("/kept", "Collection(/c)", ["Filter", "/c", read("b")])
    yield derived("/again", "Collection(/c)", ["Filter", "/kept", read("b")])
    yield derived("/none", "Collection(/c)", ["Filter", "/again", ["Not", read("b")]])
    yield derived("/same", "Collection(/c)", read("/again"))
    yield derived("/last", "Item(/c)", ["Find", "/again", ["Equal", read("v"), ["Int", "100"]]])
    yield derived("/v", "Int", read("/last/v"))
    for source in SOURCES:
        yield derived(f"/{source}-size", "Int", ["CollectionSize", f"/{source}"])
        yield derived(f"/{source}-sum", "Int", ["CollectionSum", f"/{source}/*/w"])
        yield derived(f"/{source}-count", "Int", ["Count", f"/{source}/*/b"])


def hundred_members() -> Made:
    """All are kept, and the last is found: it is answered 100, and each of the others stands at 1, its placeholder."""
    told = [("add /c", [f"ok #{k}"]) for k in MEMBERS]
    for fact, field in (("c-sum", "v"), ("kept", "b"), ("c-count", "b")):
        told.append((f"missing /{fact}", [f"missing {len(MEMBERS)}", *(f"/c/#{k}/{field}" for k in MEMBERS)]))
    told += [(f"set /c/#{k}/b true", ["ok"]) for k in MEMBERS]
    told.append((f"set /c/#{MEMBERS[-1]}/v 100", ["ok"]))
    listed = "[%s]" % " ".join(f"#{k}" for k in MEMBERS)
    for source in SOURCES:
        told += [(f"get /{source}", [f"complete {listed}"]), (f"final /{source}", [f"final {listed}"])]
        told += [(f"get /{source}-{of}", [f"complete {len(MEMBERS)}"]) for of in ("size", "count")]
        told.append((f"get /{source}-sum", [f"placeholder {2 * (len(MEMBERS) - 1 + 100)}"]))
    told += [("get /none", ["complete []"]), ("get /last", [f"placeholder #{MEMBERS[-1]}"]), ("get /v", ["placeholder 100"])]
    return run("a hundred members in each node that lists them", dictionary(nodes_over_members()), told)


# ---- the facts and the nodes of a dictionary

def readers() -> Made:
    """One fact is read by all others. Each change touches all."""
    of = dictionary([writable("/x"), *(derived(f"/r{k}", "Int", ["Add", read("/x"), ["Int", str(k)]]) for k in range(1, FACTS))])
    told: list[tuple[str, list[str]]] = []
    for command, x in (("set /x 1", 1), ("set /x 2", 2), ("undo", 1)):
        told += [(command, ["ok"]), ("touched", [f"touched {FACTS}"])]
        told += [(f"get /r{k}", [f"complete {x + k}"]) for k in range(1, FACTS)]
    return run("a fact that 1,999 read", of, told)


def read_facts() -> Made:
    """One fact reads all others."""
    others = range(1, FACTS)
    of = dictionary([*(writable(f"/f{k}") for k in others), derived("/s", "Int", ["Add", *(read(f"/f{k}") for k in others)])])
    told = [("missing /s", [f"missing {len(others)}", *(f"/f{k}" for k in others)])]
    for k in others:
        told.append((f"set /f{k} {k}", ["ok"]))
    told += [("missing /s", ["missing 0"]), ("get /s", [f"complete {sum(others)}"]), ("final /s", [f"final {sum(others)}"])]
    return run("a fact that reads 1,999", of, told)


def wide() -> Iterator[Made]:
    """All nodes of a dictionary in one expression: operands, and the cases of a Switch, of which the last is the one that holds."""
    operands = NODES - 1
    for kind, fact, value, told in (
        ("Add", "Int", ["Int", "1"], str(operands)), ("GreaterOf", "Int", ["Int", "7"], "7"),
        ("All", "Boolean", ["True"], "true"), ("Any", "Boolean", ["False"], "false"),
    ):
        yield run(f"{kind} of {operands} operands", dictionary([derived("/s", fact, [kind, *[value] * operands])]), [("get /s", [f"complete {told}"])])
    of = dictionary([writable("/x"), derived("/s", "Int", ["Add", *[read("/x")] * operands])])
    twice = [("set /x 2", ["ok"]), ("get /s", [f"complete {2 * operands}"]), ("touched", ["touched 2"])]
    yield run(f"a fact that reads another one {operands} times", of, twice)
    # a Case is no node, and has two
    count = operands // 2
    switch = ["Switch", *[["Case", read("/b"), ["Int", "1"]]] * (count - 1), ["Case", ["True"], ["Int", "2"]]]
    of = dictionary([writable("/b", "Boolean"), derived("/s", "Int", switch)])
    by_case = [("get /s", ["incomplete"]), ("set /b false", ["ok"]), ("get /s", ["complete 2"]), ("set /b true", ["ok"]), ("get /s", ["complete 1"])]
    yield run(f"a Switch of {count} cases", of, by_case)


def deep() -> Made:
    """An expression 48 nodes deep, which says no 46 times."""
    expression: object = read("/b")
    for _ in range(46):
        expression = ["Not", expression]
    of = dictionary([writable("/b", "Boolean"), derived("/s", "Boolean", ["All", expression])])
    told = [("set /b true", ["ok"]), ("get /s", ["complete true"]), ("set /b false", ["ok"]), ("get /s", ["complete false"])]
    return run("an expression 48 nodes deep", of, told)


def options() -> Made:
    """The lists of options, and the last option of the last list."""
    lists = [{"name": f"e{k}", "options": [f"o{n}" for n in range(100)]} for k in range(200)]
    told = [("set /e o99", ["ok"]), ("get /e", ["complete o99"]), ("get /same", ["complete true"]), ("set /e o100", ["refused 6 BadValue"])]
    of = dictionary([writable("/e", "Enum(e199)"), derived("/same", "Boolean", ["Equal", read("/e"), ["Enum", "e199", "o99"]])], enums=lists)
    return run("the last of 100 options of the last of 200 lists", of, told)


def checks() -> Made:
    """The last of eight limits."""
    limits = [["Check", "printable-ascii"]] * 7 + [["Check", "digits"]]
    of = dictionary([{"path": "/t", "writable": "Text", "limits": limits}])
    return run("a text that breaks the last of eight limits", of, [("set /t a", ["refused 8 Check 8"]), ("set /t 1", ["ok"])])


# ---- changes, and what is saved of them

def changes() -> Made:
    """Changes that are undone and made again, one by one."""
    rising = range(1, CHANGES + 1)
    told: list[tuple[str, list[str]]] = []
    for k in rising:
        told += [(f"set /n {k}", ["ok"]), ("get /n", [f"complete {k}"])]
    for k in reversed(rising):
        told += [("undo", ["ok"]), ("get /n", [f"complete {k - 1}" if k > 1 else "incomplete"])]
    told.append(("undo", ["refused 13 NothingToUndo"]))
    for k in rising:
        told += [("redo", ["ok"]), ("get /n", [f"complete {k}"])]
    told += [("redo", ["refused 14 NothingToRedo"]), ("stamp /n", [f"stamp {3 * CHANGES}"])]
    return run("2,000 changes, undone and made again", dictionary([writable("/n")]), told)


def saved() -> Iterator[Made]:
    """Ten thousand answers and as many overrides, saved and loaded: a hundred fields of each kind at a hundred members."""
    fields = range(1, 101)
    facts = [writable("/c", "Collection"), *(writable(f"/c/*/v{n}") for n in fields), *(derived(f"/c/*/w{n}", "Int", read(f"../v{n}")) for n in fields)]
    answers = [f"/c/#{k}/v{n} {n * k}" for n in fields for k in MEMBERS]
    overrides = [f"/c/#{k}/w{n} {n + k}" for n in fields for k in MEMBERS]
    listed = "list /c" + "".join(f" #{k}" for k in MEMBERS)
    text = lines(["saved 1", "next 101", listed, *(f"value {it}" for it in answers), *(f"override {it}" for it in overrides), "end"])
    of = dictionary(facts)
    script = lines([*["add /c"] * len(MEMBERS), *(f"override {it}" for it in overrides), *(f"set {it}" for it in answers)])
    yield "10,000 answers and 10,000 overrides are saved", "save d", of, script, text, 0
    asked = [(f"get /c/#{k}/{field}{n}", [f"complete {value}"]) for n in (1, 50, 100) for k in MEMBERS for field, value in (("v", n * k), ("w", n + k))]
    yield "and loaded", "load d s", of, lines(line for line, _ in asked), lines(it for _, reply in asked for it in reply), 0, text


def dropped() -> Made:
    """Lines of facts that there aren't, answers and overrides, with one between them that is kept."""
    names = [f"/x{n}" for n in range(DROPPED)]
    text = lines(["saved 1", "next 1", *(f"value {name} {n}" for n, name in enumerate(names)), "value /n 5", *(f"override {name} 1" for name in names), "end"])
    due = lines([*(f"dropped value {name}" for name in names), *(f"dropped override {name}" for name in names), "complete 5"])
    return "12,000 lines are dropped", "carry d s", dictionary([writable("/n")]), b"get /n\n", due, 0, text


def cases() -> Iterator[Made]:
    yield hundred_members()
    yield readers()
    yield read_facts()
    yield from wide()
    yield deep()
    yield options()
    yield checks()
    yield changes()
    yield from saved()
    yield dropped()
