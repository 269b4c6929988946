"""The stored cases of tests/rows, as tests/README.md says how they are written, and what each of them is under other words."""
import runpy
from collections.abc import Callable, Iterator
from pathlib import Path
from typing import NamedTuple, NoReturn

from harness import ROWS, TOP

# The first words of the lines that the program writes, but for the slots behind `missing N`.
FIRST_WORDS = {
    "ok", "complete", "placeholder", "incomplete", "fault", "final", "open", "stamp", "touched", "missing", "watch", "refused",
    "dictionary", "usage:", "dropped", "saved",
}
# The mark of a party, and the longest line that has room for one.
MARK = b"@1 "
LONGEST_MARKED = 4_096 - len(MARK)
# The replies that the engine without stamps refuses.
OF_STAMPS = (b"stamp ", b"touched ")
NO_STAMPS = b"refused 15 NoStamps"
# The words with which a session or a desk of the library begins, and how many there are with them, and the statuses that it knows. What
# the system refuses has no part there.
SERVED = {"run": 2, "save": 2, "desk": 2, "load": 3, "carry": 3}
# The most lines of a script at a desk that is run through the library: what a desk counts at its most is shown by the program.
LINES_AT_DESK = 20_000
SERVED_STATUSES = {0, 1, 8}
# The dictionaries that come with the program and the library.
BUILT_IN = ("year 2023", "year 2024", "income 2023")


# A case as a module of cases makes it: what it shows, the words, the file `d` or None, the script, the text, the status, and the file `s`
# where there is one.
Made = (
    tuple[str, str | list[str], bytes | None, bytes, bytes, int]
    | tuple[str, str | list[str], bytes | None, bytes, bytes, int, bytes]
)


class Malformed(Exception):
    """What a file of cases says isn't a case."""


class Case(NamedTuple):
    """A run of the program, and what is due of it."""

    place: str  # where it stands, and what it shows
    words: list[str]
    shared: Path  # the folder of dictionaries by their names
    dictionary: bytes | None  # the file `d`, or None where there is none
    script: bytes
    due: bytes
    status: int
    both: bool = True  # whether a run is also one of the other engine
    saved: bytes | None = None  # the file `s`, or None where there is none


# ---- cases written as text

def blocks(text: str) -> Iterator[list[tuple[int, str]]]:
    """The runs of lines between blank lines, each line with its number."""
    block: list[tuple[int, str]] = []
    for number, line in enumerate(text.split("\n"), 1):
        if line.strip():
            block.append((number, line))
        elif block:
            yield block
            block = []
    if block:
        yield block


def shared_by(path: Path) -> Path:
    """The folder of dictionaries that the cases of a file share."""
    return path.resolve().parent.parent / "dictionaries"


class Rest:
    """What is left of the lines of a case, which are taken one after another."""

    def __init__(self, path: Path, block: list[tuple[int, str]]) -> None:
        self.name = shown(path)
        self.shared = shared_by(path)
        self.block = list(block)
        self.number = block[0][0]

    def fail(self, what: str) -> NoReturn:
        """Says what is wrong with the line that was taken last."""
        raise Malformed(f"{self.name}:{self.number}: {what}")

    def take(self) -> str:
        """The next line."""
        self.number, line = self.block.pop(0)
        return line

    def take_all(self, is_meant: Callable[[str], bool]) -> list[str]:
        """The next lines of a kind."""
        found = []
        while self.block and is_meant(self.block[0][1]):
            found.append(self.take())
        return found

    def title(self) -> str:
        """What the case shows."""
        notes = self.take_all(lambda line: line.startswith("#"))
        return next(filter(None, (line.lstrip("# ") for line in notes)), "")

    def dictionary(self) -> bytes | None:
        """The case's own dictionary."""
        if not self.block or self.block[0][1].split(" ")[0] != "dictionary":
            return None
        return (self.take().removeprefix("dictionary").removeprefix(" ") + "\n").encode()

    def words(self) -> list[str]:
        """The words of the command line."""
        if not self.block:
            self.fail("a case without words")
        line = self.take()
        words = line.split(" ")
        if line.startswith(">") or words[0] in FIRST_WORDS or words[0] == "status" or "" in words:
            self.fail(f"no words of a command line: {line!r}")
        for word in words[1:]:
            if word.endswith(".json") and not (self.shared / word).is_file():
                self.fail(f"no dictionary {word}")
        return words

    def saved(self) -> bytes | None:
        """The saved text, the last line of which may have no newline."""
        whole = self.take_all(lambda line: line.startswith("| "))
        last = [self.take()] if self.block and (self.block[0][1] == "|-" or self.block[0][1].startswith("|- ")) else []
        if not whole and not last:
            return None
        return "".join([*(line[2:] + "\n" for line in whole), *(line[3:] for line in last)]).encode()

    def run(self) -> tuple[list[str], list[str], int]:
        """The script, what is written, and the status."""
        script: list[str] = []
        due: list[str] = []
        while self.block:
            line = self.take()
            if line == ">" or line.startswith("> "):
                script.append(line[2:])
            elif line.split(" ")[0] in FIRST_WORDS or line.startswith(("/", "@")):
                due.append(line)
            elif line.startswith("status ") and line[7:].isdecimal() and not self.block:
                return script, due, int(line[7:])
            else:
                self.fail(f"neither a command, nor a line that the program writes, nor a last status: {line!r}")
        return script, due, 0


def case_of(path: Path, block: list[tuple[int, str]]) -> Case:
    """The case that a block of lines is."""
    rest = Rest(path, block)
    title, dictionary, words = rest.title(), rest.dictionary(), rest.words()
    if dictionary is not None and "d" not in words[1:]:
        rest.fail("a dictionary that isn't named")
    saved = rest.saved()
    if saved is not None and "s" not in words[1:]:
        rest.fail("a saved text that isn't named")
    script, due, status = rest.run()
    return Case(
        f"{rest.name}:{block[0][0]}: {title or ' '.join(words)}",
        words,
        rest.shared,
        dictionary,
        "".join(line + "\n" for line in script).encode(),
        "".join(line + "\n" for line in due).encode(),
        status,
        saved=saved,
    )


def cases_of_text(path: Path) -> Iterator[Case | Malformed]:
    """The cases of a file, and what is wrong in place of each that is none."""
    found = list(blocks(path.read_bytes().decode()))
    if found and len(found) > 1 and all(line.startswith("#") for _, line in found[0]):
        found.pop(0)  # what the file is about
    if not found:
        yield Malformed(f"{shown(path)}: no case")
    for block in found:
        try:
            yield case_of(path, block)
        except Malformed as wrong:
            yield wrong


# ---- cases made by a program

def cases_of_program(path: Path) -> Iterator[Case]:
    """The cases that a module makes."""
    name = shown(path)
    module = runpy.run_path(str(path))
    for made in module["cases"]():
        title, words, dictionary, script, due, status, *saved = made
        if isinstance(words, str):
            words = words.split()
        kinds = [(title, str), (script, bytes), (due, bytes), (status, int)]
        if dictionary is not None:
            kinds.append((dictionary, bytes))
        kinds += [(text, bytes) for text in saved]
        if len(saved) > 1 or not all(isinstance(value, kind) for value, kind in kinds):
            raise Malformed(f"{name}: {title}: name, words, dictionary or None, script, text, status are wanted, and a saved text where there is one")
        both = module.get("BOTH_ENGINES", True)
        yield Case(f"{name}: {title}", list(words), shared_by(path), dictionary, script, due, status, both, *saved)


def shown(path: Path) -> str:
    """A path below the top, by the way from there."""
    path = path.resolve()
    return str(path.relative_to(TOP)) if path.is_relative_to(TOP) else str(path)


def cases_of(path: Path) -> Iterator[Case | Malformed]:
    """The cases of a file, and what is wrong in place of each that is none."""
    try:
        yield from cases_of_program(path) if path.suffix == ".py" else cases_of_text(path)
    except Malformed as wrong:
        yield wrong
    except Exception as wrong:  # pylint: disable=broad-except  # a file that can't be read, or a program of cases that fails
        yield Malformed(f"{shown(path)}: {type(wrong).__name__}: {wrong}")


def files_of_cases() -> list[Path]:
    """All files of cases."""
    return sorted([*ROWS.glob("*.row"), *ROWS.glob("*.py")])


def all_cases() -> Iterator[Case]:
    """All stored cases. One that is malformed is raised."""
    for path in files_of_cases():
        for case in cases_of(path):
            if isinstance(case, Malformed):
                raise case
            yield case


# ---- the same cases under other words

def without_stamps(due: bytes) -> bytes:
    """What is due of the engine that keeps no stamps."""
    if not any(word in due for word in OF_STAMPS):
        return due
    return b"\n".join(NO_STAMPS if line.startswith(OF_STAMPS) else line for line in due.split(b"\n"))


def is_silent(line: bytes) -> bool:
    """Whether a line has no reply."""
    return line.removesuffix(b"\r") == b"" or line.startswith(b"#")


def at_desk(case: Case) -> Iterator[Case]:
    """The case of a run as that of one party at a desk; nothing where it watches, or where a line has no room for the mark."""
    lines, replies = case.script.split(b"\n"), case.due.split(b"\n")
    if any(line.startswith((b"watch ", b"unwatch ")) or len(line) > LONGEST_MARKED for line in lines):
        return
    script = [line if is_silent(line) else MARK + line for line in lines]
    due = [line if line == b"" else MARK + line for line in replies]
    yield under("desk", case)._replace(script=b"\n".join(script), due=b"\n".join(due))


def under(word: str, case: Case) -> Case:
    """The same case under another word."""
    return case._replace(place=f"{case.place}, {word}", words=[word, *case.words[1:]])


def also(case: Case) -> Iterator[Case]:
    """The case; for a check that is refused the run of the same dictionary; and for a run that of the other engine, and that at a desk."""
    yield case
    if case.words[:1] == ["check"] and case.due.startswith(b"dictionary refused "):
        yield from also(under("run", case))
    if case.both and case.words[:1] == ["run"] and len(case.words) == 2:
        yield under("run-plain", case)._replace(due=without_stamps(case.due))
        if case.status == 0:
            yield from at_desk(case)


class Served(NamedTuple):
    """A case that the library serves."""

    case: Case
    word: str  # `run`, `save`, `desk`, `load`, `carry`; or `built-in`, a run over a dictionary that comes with the library
    dictionary: bytes  # its text, or the words of the one that comes with the library
    saved: bytes | None


def served(case: Case) -> Served | None:
    """The case with its files, or None where the library doesn't serve it."""
    if " ".join(case.words) in BUILT_IN and case.status in SERVED_STATUSES:
        return Served(case, "built-in", " ".join(case.words).encode(), None)
    if not case.words or len(case.words) != SERVED.get(case.words[0]) or case.status not in SERVED_STATUSES:
        return None
    if case.words[0] == "desk" and case.script.count(b"\n") > LINES_AT_DESK:
        return None
    texts = {"d": case.dictionary, "s": case.saved}
    shared = {word: (case.shared / word).read_bytes() for word in case.words[1:] if word and (case.shared / word).is_file()}
    dictionary, *saved = ({**texts, **shared}.get(word) for word in case.words[1:])
    if dictionary is None or None in saved:
        return None
    return Served(case, case.words[0], dictionary, saved[0] if saved else None)
