"""Wrong bodies: edits of a crate's code, each of which breaks the clause that its first line names.

A file of must-fail/ begins with `clause: FUNCTION: CLAUSE`, which is what the prover has to refuse. Behind it stand lines `file: PATH`, and
behind each of them pairs of lines `old: TEXT` and `new: TEXT`: the old text stands in the file exactly once, and the new one takes its place.
"""
import re
from collections.abc import Iterable, Iterator
from pathlib import Path
from typing import NamedTuple

# Where a function begins, a block of functions of a type, and of which trait, and what stands above a function that calls itself.
FUNCTION = re.compile(r"^( *)(?:pub(?:\([\w ]+\))? )?(?:const )?(?:unsafe )?(?:extern \"C\" )?fn (\w+)")
BLOCK = re.compile(r"^impl(?:<.*?>)? (?:(?:\w+::)*(\w+)(?:<.*>)? for )?(?:\w+::)*(\w+)")
CYCLE = re.compile(r"^ *#\[cycle\((\w+)\)\]")
# Where a type is declared.
TYPE = re.compile(r"^(?:pub(?:\([\w ]+\))? )?(?:struct|enum) (\w+)", re.MULTILINE)


class Function(NamedTuple):
    """A function of a crate."""

    name: str  # below the crate, as the prover prints it
    proof: str  # the folder of its proof, which functions that call one another share


class Change(NamedTuple):
    """A text in the place of another one."""

    file: str  # by its path in the crate
    old: str
    new: str


class WrongBody(NamedTuple):
    """A wrong body of a crate."""

    name: str
    changes: tuple[Change, ...]
    functions: frozenset[Function]  # those that it changes or that its clause names; none where it may be any of the crate
    is_of_functions: bool  # whether it changes nothing but functions

    @property
    def proofs(self) -> set[str]:
        """The folders of their proofs."""
        return {it.proof for it in self.functions}


class BadEdit(Exception):
    """An edit that can't be read, or that the code has no place for."""


def module_of(file: str) -> list[str]:
    """The module that a source file is."""
    return [] if file in ("src/lib.rt", "src/main.rt") else file.removeprefix("src/").removesuffix(".rt").split("/")


def changes_of(text: str) -> Iterator[Change]:
    """The changes that an edit lists."""
    file = old = ""
    for line in text.splitlines():
        if line.startswith("file: "):
            file = line[len("file: ") :].strip()
        elif line.startswith("old: "):
            old = line[len("old: ") :]
        elif line.startswith("new:"):
            if not file or not old:
                raise BadEdit("a new: stands before its file: or its old:")
            yield Change(file, old, line[len("new:") :].removeprefix(" "))
            old = ""


class Texts(dict[str, str]):
    """The files of a crate that were changed, as they are then; any other file is as it stands."""

    def __init__(self, crate: Path) -> None:
        super().__init__()
        self.crate = crate
        self.files = sorted(str(it.relative_to(crate)) for it in (crate / "src").rglob("*.rt"))
        self.homes = {name: module_of(file) for file in self.files for name in TYPE.findall(self[file])}

    def __missing__(self, file: str) -> str:
        try:
            return (self.crate / file).read_text(encoding="utf-8")
        except FileNotFoundError:
            raise BadEdit(f"there is no {file}") from None

    def functions(self, file: str) -> Iterator[tuple[int, int, Function]]:
        """Each function of a source file, with the offsets where it begins and ends.

        It begins with its attributes, and ends with the next line whose brace stands as far to the left as its first word. The name of
        a method is below the module that declares its type, and that of a trait's method below the module where it stands.
        """
        module, at, begins, margin, name, cycle, owner = module_of(file), 0, -1, "", "", "", list[str]()
        for line in self[file].splitlines(keepends=True):
            if not name:
                block, function, calls_itself = BLOCK.match(line), FUNCTION.match(line), CYCLE.match(line)
                if block:
                    owner = [*module, block[2] + block[1]] if block[1] else [*self.homes.get(block[2], module), block[2]]
                if calls_itself:
                    cycle = calls_itself[1]
                if line.isspace():
                    begins = -1
                elif begins < 0 and (function or line.lstrip().startswith("#[")):
                    begins = at
                if function:
                    margin, name = function[1], function[2]
            at += len(line)
            if name and re.match(rf"{margin}(\}}|\{{.*\}}$)", line):
                path = owner if margin else module
                yield begins, at, Function("::".join([*path, name]), "/".join(["proofs", *path, f"+{cycle}" if cycle else name]))
                begins, name, cycle = -1, "", ""

    def place(self, change: Change) -> int:
        """Where the old text stands."""
        count = self[change.file].count(change.old)
        if count != 1:
            raise BadEdit(f"{change.file} has `{change.old}` {count} times, and not once")
        return self[change.file].index(change.old)

    def make(self, change: Change) -> None:
        """Makes a change."""
        self.place(change)
        self[change.file] = self[change.file].replace(change.old, change.new)

    def at(self, file: str, place: int) -> set[Function]:
        """The function that a place of a file is in; none where it is between functions."""
        return {function for begins, ends, function in self.functions(file) if begins <= place < ends}

    def named(self, clause: str) -> set[Function]:
        """The functions of the crate whose name is, or ends with, the one that the clause begins with."""
        end = f"::{clause.partition(': ')[0]}"
        return {it for file in self.files for _, _, it in self.functions(file) if f"::{it.name}".endswith(end)}


def read(path: Path) -> WrongBody:
    """The wrong body that a file has."""
    text, texts = path.read_text(encoding="utf-8"), Texts(path.parent.parent)
    changes = tuple(changes_of(text))
    if not changes or not text.startswith("clause: "):
        raise BadEdit("it changes nothing, or names no clause")
    functions, is_of_functions = texts.named(text.partition("\n")[0].removeprefix("clause: ")), True
    for change in changes:
        around = texts.at(change.file, texts.place(change))
        functions |= around
        is_of_functions &= bool(around)
        texts.make(change)
    return WrongBody(path.stem, changes, frozenset(functions), is_of_functions)


class Round:
    """Wrong bodies that are tried together."""

    def __init__(self, crate: Path) -> None:
        self.bodies: list[WrongBody] = []
        self.texts = Texts(crate)

    def take(self, body: WrongBody) -> bool:
        """Takes a body in, unless another one speaks of its functions, or one of them changes more than functions."""
        if self.bodies and not (body.is_of_functions and all(it.is_of_functions and it.proofs.isdisjoint(body.proofs) for it in self.bodies)):
            return False
        texts = Texts(self.texts.crate)
        texts.update(self.texts)
        try:
            for change in body.changes:
                texts.make(change)
        except BadEdit:
            return False
        self.bodies.append(body)
        self.texts = texts
        return True


def rounds(crate: Path, bodies: Iterable[WrongBody]) -> list[Round]:
    """The bodies, each in the first round that takes it."""
    found: list[Round] = []
    for body in bodies:
        if not any(it.take(body) for it in found):
            found.append(Round(crate))
            found[-1].take(body)
    return found
