#!/usr/bin/env python3
"""Times `interview check` over two dictionaries: one of 8,388,608 bytes that are nearly all description, and one of 2,000 facts with
40,000 nodes. Beside each stand the reader of JSON alone, and a plain reader in Rust (tests/plain_check.rs), on the same file. The
start of the process is counted. Nothing is judged, but a run that refuses a dictionary ends the benchmark.

    bench/check.py [--program PATH]
"""
import subprocess
import sys
from collections.abc import Iterator
from pathlib import Path

from building import built
from timing import TOP, Word, add_program, least, tool, words_of, write_dictionary

# As many bytes as a dictionary may have.
MOST_BYTES = 8_388_608
PROGRAM = r"""//! Reads a file as JSON, and prints nothing where it is.
#![tactic(auto)]

use fg_io::{FolderShelf, Shelf};
use serde_json::Value;
use std::env;
use std::process::ExitCode;

fn is_json(rt: HostRuntime) -> Option<bool> {
    let name = env::args(&rt).ok()?.nth(1)?;
    let mut shelf = FolderShelf::new(rt, rt.alloc());
    let bytes = shelf.fetch(&(), &(), name.as_str(), 8_388_608).ok()?;
    Some(Value::from_slice(rt.alloc(), bytes.as_slice()).is_ok())
}

fn main(rt: HostRuntime) -> ExitCode {
    match is_json(rt) {
        Some(true) => ExitCode::from(0),
        _ => ExitCode::from(1),
    }
}
"""


def write_description(path: Path) -> None:
    """A dictionary of the greatest length that is nearly all description."""
    front, back = '{"version":"1","facts":[],"description":"', '"}'
    path.write_text(front + "x" * (MOST_BYTES - len(front) - len(back)) + back, encoding="utf-8")


def sums() -> Iterator[dict[str, object]]:
    """A hundred writable facts, and sums over 20 facts that stand before them, the first hundred sums over 21."""
    for fact in range(1, 101):
        yield {"path": f"/f{fact}", "writable": "Int"}
    for fact in range(101, 2_001):
        operands = [["Dependency", f"/f{1 + (7 * fact + 11 * k) % (fact - 1)}"] for k in range(21 if fact <= 200 else 20)]
        yield {"path": f"/f{fact}", "derived": "Int", "is": ["Add", *operands]}


def show(what: str, command: list[Word], file: Path) -> None:
    """Prints what a command takes with a file, and how much of it that is a second."""
    seconds = least([*command, file], file.parent).user
    speed = f"{file.stat().st_size / seconds / 1e6:.0f} MB/s" if seconds else "too short to tell"
    print(f"{what:<44} {1000 * seconds:6.0f} ms {speed:>12}", flush=True)


def main(argv: list[str]) -> int:
    """Builds the readers beside the program, and times all three."""
    words = words_of(__doc__)
    add_program(words)
    program, rustc = words.parse_args(argv).program, tool("rustc")
    with built("json_bench", "fg_io serde_json", PROGRAM) as it:
        plain = it.folder / "plain"
        subprocess.run([rustc, "-O", "--edition", "2021", TOP / "tests/plain_check.rs", "-o", plain], check=True)
        description, facts = it.folder / "description.json", it.folder / "facts.json"
        write_description(description)
        write_dictionary(facts, sums())
        for what, file in (("8,388,608 bytes of description", description), ("2,000 facts with 40,000 nodes", facts)):
            show(f"{what}, check", [program, "check"], file)
            show("  JSON alone", [it.program], file)
            show("  plain Rust", [plain, "check"], file)
    return 0


if __name__ == "__main__":
    sys.exit(main(sys.argv[1:]))
