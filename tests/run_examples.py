#!/usr/bin/env python3
"""Runs the program over each example, and compares what it writes with what is due.

    tests/run_examples.py [--program PATH]

Each example with a script is run, each household of a tax year, also on to its tax, and a desk of several parties; a session is
saved and gone on from; each dictionary whose line is given is checked. So is each transcript of README.md and docs/ run, a block of
text with a command and its reply in each line, and a note perhaps: `<!-- transcript: WORDS -->` above it has the words of the command
line, in which `above` is the block of JSON above it, or `of SCRIPT`, a script of the examples of which it is a part. Nothing is built.
An example passes where the text is the same to the byte, the exit status is 0, and nothing comes on standard error. The exit status is
0 where none failed, 1 where some did, and 2 where there is no such program.
"""
import difflib
import os
import re
import sys
import tempfile
from collections.abc import Iterator
from pathlib import Path

from harness import EXAMPLES, TOP, Ended, Tally, add_program, run, words_of

MARK = "<!-- transcript: "
TRANSCRIPT = re.compile(MARK + r"(.*) -->\n```text\n((?:(?!```).*\n)*)```$", re.MULTILINE)
JSON = re.compile(r"^```json\n((?:(?!```).*\n)*)```$", re.MULTILINE)


def examples() -> Iterator[tuple[str, str, str, list[str]]]:
    """Each example: its name, the file of what is due, the script, and the words."""
    for script in sorted(EXAMPLES.glob("*.script")):
        yield script.stem, f"{script.stem}.replies", script.name, ["run", f"{script.stem}.json"]
    for word, folder in (("year", "years"), ("income", "income")):
        for script in sorted((EXAMPLES / folder).glob("*.script")):
            yield f"{word} {script.stem}", f"{folder}/{script.stem}.replies", f"{folder}/{script.name}", [word, script.stem]
    yield "three at a desk", "desk/household.replies", "desk/household.script", ["desk", "screener.json"]
    yield "saved on Monday", "saved/monday.saved", "saved/monday.script", ["save", "screener.json"]
    yield "loaded on Tuesday", "saved/tuesday.replies", "saved/tuesday.script", ["load", "screener.json", "saved/monday.saved"]
    yield "carried to the next year", "next_year/2024.replies", "next_year/2024.script", ["carry-year", "2024", "next_year/2023.saved"]
    yield "carried on Thursday", "saved/thursday.replies", "saved/thursday.script", ["carry", "saved/mended.json", "saved/monday.saved"]
    for due in sorted(EXAMPLES.glob("*.check")):
        yield f"{due.stem}, checked", due.name, os.devnull, ["check", f"{due.stem}.json"]


def difference(due: Ended, came: Ended) -> str:
    """What is wrong with how a run ended, line by line; no text where nothing is."""
    if came == due:
        return ""
    wanted, got = (it.text.decode(errors="backslashreplace").splitlines() for it in (due, came))
    return "\n".join([f"status {came.status}", came.error.decode(errors="backslashreplace"), *difflib.unified_diff(wanted, got, "due", "came", lineterm="")])


def turns(block: str) -> list[tuple[str, str]]:
    """The commands of a transcript, each with its reply. Where no command stands in a line, the reply before goes on."""
    lines = [re.split(r" {2,}", line) for line in block.splitlines()]
    return [(command, reply[0] if reply else "") for command, *reply in lines]


def run_transcript(words: list[str], shown: list[tuple[str, str]], page: str, program: Path) -> str:
    """What is wrong with a transcript: the program is run over its commands, in a folder with the examples' files and the page's JSON."""
    script = "".join(f"{command}\n" for command, _ in shown if command)
    due = "".join(f"{reply}\n" for _, reply in shown if reply)
    with tempfile.TemporaryDirectory(prefix="transcript.") as name:
        folder = Path(name)
        for path in EXAMPLES.glob("*.json"):
            (folder / path.name).symlink_to(path)
        (folder / "above").write_text("".join(JSON.findall(page)[-1:]), encoding="utf-8")
        return difference(Ended.due(due.encode(), 0), run([program, *words], folder, script.encode()))


def part_of(script: str, shown: list[tuple[str, str]]) -> str:
    """What is wrong with a transcript that is a part of an example, whose commands have a reply of one line each."""
    commands = [line for line in (EXAMPLES / script).read_text(encoding="utf-8").splitlines() if line and not line.startswith("#")]
    whole = iter(zip(commands, (EXAMPLES / script).with_suffix(".replies").read_text(encoding="utf-8").splitlines(), strict=True))
    lost = [turn for turn in shown if turn not in whole]
    return f"{script} doesn't go on with {' and '.join(lost[0])}" if lost else ""


def judge_transcripts(path: Path, program: Path, tally: Tally) -> None:
    """Judges each transcript of a page."""
    page, place = path.read_text(encoding="utf-8"), path.relative_to(TOP)
    found = list(TRANSCRIPT.finditer(page))
    tally.expect(f"the marks of {place} that stand above a transcript", len(found), page.count(MARK))
    for block in found:
        words, shown = block[1].split(), turns(block[2])
        wrong = part_of(words[1], shown) if words[0] == "of" else run_transcript(words, shown, page[: block.start()], program)
        tally.judge(f"{place}: {block[1]}: {shown[0][0]}", wrong)


def main(argv: list[str]) -> int:
    """Runs the examples."""
    words = words_of(__doc__)
    add_program(words)
    program = words.parse_args(argv).program
    tally = Tally()
    for name, due, script, command in examples():
        with open(EXAMPLES / script, "rb") as source:
            came = run([program, *command], EXAMPLES, source)
        tally.judge(name, difference(Ended.due((EXAMPLES / due).read_bytes(), 0), came))
    for page in [TOP / "README.md", *sorted((TOP / "docs").glob("*.md"))]:
        judge_transcripts(page, program, tally)
    return tally.end()


if __name__ == "__main__":
    sys.exit(main(sys.argv[1:]))
