"""Saves: a script runs without its replies, and the answers that stand at its end are written."""
from collections.abc import Iterable, Iterator

from stored_cases import Made

USAGE = "usage: interview COMMAND ARGUMENTS"
EMPTY = ["saved 1", "next 1", "end"]


def text(lines: Iterable[str]) -> bytes:
    return "".join(line + "\n" for line in lines).encode()


def save(name: str, dictionary: str, script: list[str], due: list[str], status: int = 0) -> Made:
    return (name, ["save", dictionary], None, text(script), text(due), status)


def cases() -> Iterator[Made]:
    yield save(
        "an answer and an override",
        "two_amounts.json",
        ["set /a 5", "override /s 9"],
        ["saved 1", "next 1", "value /a 5.00", "override /s 9.00", "end"],
    )
    yield save(
        "a member that was removed keeps its number",
        "members_kept.json",
        ["add /c", "add /c", "remove /c #1", "set /c/#2/v 7"],
        ["saved 1", "next 3", "list /c #2", "value /c/#2/v 7", "end"],
    )
    yield save("nothing is answered", "two_amounts.json", [], EMPTY)
    yield save("an open list without members", "members_kept.json", ["open /c"], ["saved 1", "next 1", "list /c", "end"])
    yield save(
        "lists and slots stand in the order of the facts, and then of the members",
        "members_and_overrides.json",
        ["set /a 3", "add /d", "add /c", "add /c", "override /sum 8", "override /c/#3/twice 1", "set /c/#3/n 2", "override /c/#2/twice 4", "set /c/#2/n -2"],
        [
            "saved 1", "next 4", "list /c #2 #3", "list /d #1", "value /c/#2/n -2", "value /c/#3/n 2", "value /a 3",
            "override /c/#2/twice 4", "override /c/#3/twice 1", "override /sum 8", "end",
        ],
    )
    yield save(
        "what was undone isn't saved, and no change that is ahead",
        "two_amounts.json",
        ["set /a 5", "set /b 6", "set /a 7", "undo", "undo"],
        ["saved 1", "next 1", "value /a 5.00", "end"],
    )
    yield save("and what was redone is", "two_amounts.json", ["set /a 5", "undo", "redo"], ["saved 1", "next 1", "value /a 5.00", "end"])
    yield save("what is taken away isn't saved", "two_amounts.json", ["set /a 5", "override /s 9", "clear /a", "release /s"], EMPTY)
    yield save("what stands behind `quit` has no effect", "two_amounts.json", ["set /a 5", "quit", "set /a 6", "set /b 1"], ["saved 1", "next 1", "value /a 5.00", "end"])
    yield save(
        "questions and refused lines say nothing",
        "two_amounts.json",
        [
            "get /a", "no command", "set /x 1", "set /a text", "missing /s", "watch changed /s", "set /a 5", "touched", "stamp /s", "final /s", "redo",
            "0" * 4097, "# note", "",
        ],
        ["saved 1", "next 1", "value /a 5.00", "end"],
    )
    yield (
        "the last line may do without its newline, and a byte 13 is dropped",
        ["save", "two_amounts.json"], None, b"set /a 5\r\nset /b 1", text(["saved 1", "next 1", "value /a 5.00", "value /b 1.00", "end"]), 0,
    )
    yield save("a script of 67,108,864 bytes is saved", "two_amounts.json", ["set /a 5", "#" * 67_108_854], ["saved 1", "next 1", "value /a 5.00", "end"])
    yield save("of one byte more nothing is", "two_amounts.json", ["set /a 5", "#" * 67_108_855], [], 6)
    yield save("but where it was quit before", "two_amounts.json", ["set /a 5", "quit", "#" * 67_108_860], ["saved 1", "next 1", "value /a 5.00", "end"])
    for year in ("2023", "2024"):
        yield (
            f"over the dictionary of {year}",
            ["save-year", year],
            None,
            text(["set /spouseDied false", "set /married true", "set /dateOfBirth 1980-02-29", "get /standardDeduction"]),
            text(["saved 1", "next 1", "value /dateOfBirth 1980-02-29", "value /married true", "value /spouseDied false", "end"]),
            0,
        )
    refused = b'{"version":"1","facts":[{"path":"/x","derived":"Int","is":["Add",["Int","1"],["Dollar","1"]]}]}'
    yield ("a refused dictionary comes to its line", ["save", "d"], refused, b"set /x 1\n", b"dictionary refused 12 IllTyped fact 1 node 1\n", 1)
    yield ("a name that isn't there", ["save", "nowhere"], None, b"set /a 5\n", b"", 3)
    years = [["save-year"], ["save-year", "2022"], ["save-year", "2025"], ["save-year", "02023"]]
    for words in [["save"], *years, ["save", "two_amounts.json", "2"], ["save-plain", "two_amounts.json"]]:
        yield (f"{' '.join(words)!r} has no form", words, None, b"", text([USAGE]), 2)
    yield save(
        "values of all kinds, an empty text among them",
        "kinds.json",
        ["set /e red", "set /t ", "set /d 2024-02-29", "set /r 4/6", "override /o green"],
        ["saved 1", "next 1", "value /r 2/3", "value /d 2024-02-29", "value /t ", "value /e red", "override /o green", "end"],
    )
