"""What the runners of the built program share: places, words of the command line, how a run ends, and the tally."""
import argparse
import os
import shutil
import subprocess
import sys
from collections.abc import Mapping, Sequence
from pathlib import Path
from typing import IO, NamedTuple, Union

TOP = Path(__file__).resolve().parent.parent
EXAMPLES = TOP / "examples"
ROWS = TOP / "tests" / "rows"
DICTIONARIES = TOP / "tests" / "dictionaries"
PROGRAM = TOP / "crates" / "interview" / "out" / "interview"
SECONDS = 300

# The statuses of which a line stands on standard error.
STATUS_NAMES = {3: "FetchFault", 4: "ReadFault", 5: "WriteFault", 6: "ScriptTooLong", 7: "NoMemory", 9: "WordsFault"}

# A word of a command: bytes where it is no text.
Word = Union[str, bytes, Path]

# (nothing is written beside the sources)
sys.dont_write_bytecode = True


def a_program(text: str) -> Path:
    """The file of a program, for argparse."""
    path = Path(text).resolve()
    if not path.is_file() or not os.access(path, os.X_OK):
        raise argparse.ArgumentTypeError(f"{path} is no program")
    return path


def a_library(text: str) -> Path:
    """The file of the C library, for argparse."""
    path = Path(text).resolve()
    if not path.is_file():
        raise argparse.ArgumentTypeError(f"no library is built at {path}: tools/build_library.py builds it")
    return path


def words_of(doc: str | None) -> argparse.ArgumentParser:
    """The words of a runner's command line, with its module's text as the help."""
    return argparse.ArgumentParser(description=doc, formatter_class=argparse.RawDescriptionHelpFormatter)


def add_program(words: argparse.ArgumentParser) -> None:
    """The word --program. Where it names none, the status is 2."""
    words.add_argument("--program", type=a_program, default=str(PROGRAM), metavar="PATH", help="crates/interview/out/interview where none is given")


def add_library(words: argparse.ArgumentParser) -> None:
    """The word --library. Where there is none, the status is 2."""
    built = os.environ.get("FACT_GRAPH_LIBRARY") or str(TOP / "out" / "libfact_graph.so")
    there = "what FACT_GRAPH_LIBRARY names, or out/libfact_graph.so, where none is given"
    words.add_argument("--library", type=a_library, default=built, metavar="PATH", help=there)


def tool(name: str, package: str = "") -> str:
    """The path of a tool that a test needs. Without it the status is 2: nothing is passed over in silence."""
    found = shutil.which(name)
    if found is None:
        print(f"{Path(sys.argv[0]).name}: {name} isn't installed: see dev/packages.txt{f' ({package})' if package else ''}", file=sys.stderr)
        sys.exit(2)
    return found


def compiled(source: Path, target: Path, *flags: Word) -> Path:
    """A C source, compiled to a program or a library. CC names another compiler than cc. Where it fails, the status is 2."""
    compiler = tool(os.environ.get("CC", "cc"))
    made = subprocess.run([compiler, "-std=c11", "-Wall", "-Wextra", "-Werror", "-o", target, source, *flags], check=False)
    if made.returncode:
        sys.exit(2)
    return target


class Ended(NamedTuple):
    """How a run ended: what was written, the exit status, and what stands on standard error."""

    text: bytes
    status: int | None  # None where it didn't end in time
    error: bytes

    @classmethod
    def due(cls, text: bytes, status: int) -> "Ended":
        """The end that is due of the program with a status."""
        name = STATUS_NAMES.get(status)
        return cls(text, status, f"interview: {status} {name}\n".encode() if name else b"")


def run(command: Sequence[Word], folder: Path, script: bytes | IO[bytes] | int, env: Mapping[str, str] | None = None) -> Ended:
    """Runs a command in a folder over a script: its bytes, or an open file."""
    text, source = (script, None) if isinstance(script, bytes) else (None, script)
    given = {**os.environ, **(env or {})}
    try:
        ran = subprocess.run(command, cwd=folder, input=text, stdin=source, capture_output=True, timeout=SECONDS, check=False, env=given)
    except subprocess.TimeoutExpired:
        return Ended(b"", None, f"no end within {SECONDS} seconds".encode())
    return Ended(ran.stdout, ran.returncode, ran.stderr)


class Tally:
    """How many passed, and how many failed, each of which is said."""

    def __init__(self) -> None:
        self.passed = 0
        self.failed = 0

    def judge(self, what: str, wrong: str) -> None:
        """Counts a case by what is wrong with it, which is no text where it passed."""
        if wrong:
            self.failed += 1
            print(f"failed: {what}: {wrong}", flush=True)
        else:
            self.passed += 1

    def expect(self, what: str, came: object, due: object) -> None:
        """Counts a case by what came of it and what is due."""
        self.judge(what, "" if came == due else f"expected {due!r}, came {came!r}")

    def end(self) -> int:
        """Says how many there were, with the runner's name, and returns its exit status."""
        print(f"{Path(sys.argv[0]).stem}: {self.passed} passed, {self.failed} failed", flush=True)
        return 0 if self.passed and not self.failed else 1
