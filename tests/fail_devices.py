#!/usr/bin/env python3
"""Compares each call of a device that the program makes with the call that is due, and makes each of them fail in turn.

    tests/fail_devices.py [--program PATH]

Nothing is built but preload/failing_devices.c, which is loaded before the C library: it writes down each open, read and write, moves
files, script and replies in pieces, and lets one call fail. device_calls.py works out which calls are due, in which order, with how
much room. For each form of the words below, and for each way to end, the program runs once undisturbed, whole and in pieces; then
once with its first call failing, once with its second, and so on. A case passes where the calls are those that are due up to the
failing one, the text is what was taken by then, and the status and its line on standard error name the device. The stored cases that
are written out run undisturbed, whole and with one byte of the script at a time. The exit status is 0 where none failed, 1 where one
did, and 2 where nothing could be run.
"""
import os
import sys
import tempfile
from collections.abc import Iterator
from concurrent.futures import ThreadPoolExecutor
from pathlib import Path
from typing import NamedTuple

from device_calls import LONGEST_DICTIONARY, LONGEST_SCRIPT, LONGEST_TEXT, Call, Devices, Run, taken
from harness import DICTIONARIES, TOP, Ended, Tally, add_program, compiled, run, words_of
from stored_cases import Case, cases_of, files_of_cases

DICTIONARY = b"""{"version":"1","facts":[{"path":"/a","writable":"Dollar"},{"path":"/b","writable":"Dollar"},
{"path":"/s","derived":"Dollar","is":["Add",["Dependency","/a"],["Dependency","/b"]]}]}"""
ACCEPTED = b"dictionary accepted 3 facts 3 nodes\n"
REFUSED = b"dictionary refused 3 Shape fact 0\n"
USAGE = b"usage: interview COMMAND ARGUMENTS\n"
# What a run could read, were it to ask for it: a file stands also where the words name none.
FILES = {
    "d": DICTIONARY,
    "zz": DICTIONARY,
    "2023": DICTIONARY,
    "refused": b"[]",
    "saved": b"saved 1\nnext 1\nvalue /a 5.00\nend\n",
    "carried": b"saved 1\nnext 1\nvalue /a 5\nvalue /x 1\noverride /y 2\nend\n",
    "household": b"saved 1\nnext 1\nvalue /married false\nvalue /x 1\nend\n",
    "cut": b"saved 1\nnext 1\n",
}

SCRIPT, REPLIES = b"set /a 5\nget /s\nmissing /s\n", b"ok\nincomplete\nmissing 1\n/b\n"
# Lines without a reply, a watch that fires, and a last line without its newline.
TOLD = b"\n# note\nwatch changed /a\nset /a 5\r\nquit no\nget /a"
TOLD_REPLIES = b"ok\nok\nwatch changed /a\nrefused 1 BadLine\ncomplete 5.00\n"
PARTIES = b"@1 set /a 5\n@2 missing /s\nget /a\n@2 set /a 6\n"
PARTIES_REPLIES = b"@1 ok\n@2 missing 1\n@2 /b\nrefused 1 BadLine\n@2 refused 20 Stale 1\n"
HOUSEHOLD, HOUSEHOLD_REPLIES = b"set /married false\nget /joint\n", b"ok\ncomplete false\n"
SAVED_HOUSEHOLD = b"saved 1\nnext 1\nvalue /married false\nend\n"
DROPPED = b"dropped value /x\ndropped override /y\n"
SUMMARY = b"gen 1\nfacts 4 nodes 4 lines 7\ncomplete 2 placeholder 0 incomplete 1 fault 0 refused 0\nlast complete 2\n"

# The words, the script, the text and the status.
FORMS: list[tuple[str, bytes, bytes, int]] = [
    ("run d", SCRIPT, REPLIES, 0),
    ("run d", TOLD, TOLD_REPLIES, 0),
    ("run d", b"", b"", 0),
    ("run d", b"get /a\nquit\nget /b\nset /a 5\n", b"incomplete\n", 0),
    ("run-plain d", SCRIPT, REPLIES, 0),
    ("desk d", PARTIES, PARTIES_REPLIES, 0),
    ("desk d", b"@1 get /a\n@16 quit\n@1 get /b\n", b"@1 incomplete\n", 0),
    ("check d", SCRIPT, ACCEPTED, 0),
    ("save d", SCRIPT + b"override /s 9\n", b"saved 1\nnext 1\nvalue /a 5.00\noverride /s 9.00\nend\n", 0),
    ("save d", b"quit\n" + SCRIPT, b"saved 1\nnext 1\nend\n", 0),
    ("load d saved", SCRIPT, REPLIES, 0),
    ("carry d carried", SCRIPT, DROPPED + REPLIES, 0),
    ("carry d carried", b"quit\n" + SCRIPT, DROPPED, 0),
    ("year 2023", HOUSEHOLD, HOUSEHOLD_REPLIES, 0),
    ("year 2024", HOUSEHOLD, HOUSEHOLD_REPLIES, 0),
    ("income 2023", HOUSEHOLD, HOUSEHOLD_REPLIES, 0),
    ("save-year 2023", HOUSEHOLD, SAVED_HOUSEHOLD, 0),
    ("save-year 2024", HOUSEHOLD, SAVED_HOUSEHOLD, 0),
    ("carry-year 2023 household", b"get /joint\n", b"dropped value /x\ncomplete false\n", 0),
    ("carry-year 2024 household", b"get /joint\n", b"dropped value /x\ncomplete false\n", 0),
    ("gen 1", SCRIPT, SUMMARY, 0),
    *((f"{word} refused", SCRIPT, REFUSED, 1) for word in ("run", "run-plain", "desk", "check", "save")),
    *((f"{word} refused saved", SCRIPT, REFUSED, 1) for word in ("load", "carry")),
    *((words, SCRIPT, USAGE, 2) for words in (
        "", "zz", "zz zz", "zz zz zz", "run", "run d d", "check", "check d d", "load d", "load d saved saved", "carry d", "save", "save d d", "desk",
        "desk d d", "gen", "gen 0", "gen 1001", "gen 1 1", "year", "year 2022", "year 2023 d", "income 2024", "save-year d", "carry-year 2023",
        "carry-year 2022 household", "carry-year d household",
    )),
    *((f"{word} nowhere", SCRIPT, b"", 3) for word in ("run", "run-plain", "desk", "check", "save", "load d", "carry d", "carry-year 2023")),
    *((f"{word} nowhere saved", SCRIPT, b"", 3) for word in ("load", "carry")),
    *((f"{word} cut", SCRIPT, b"saved refused line 3\n", 8) for word in ("load d", "carry d", "carry-year 2024")),
]
WAYS = (Devices(), Devices(fetched=50, pulled=5, put=1), Devices(pulled=1, put=2))
BY_BYTE = Devices(pulled=1)


class Exchange(NamedTuple):
    """A run by devices, the calls that are due and what comes of them."""

    what: str
    run: Run
    devices: Devices
    calls: list[Call]
    due: Ended


def undisturbed(what: str, of: Run, devices: Devices) -> Exchange:
    """The run where no call fails."""
    return Exchange(what, of, devices, of.calls(devices), Ended.due(of.text, of.status))


def disturbed(what: str, of: Run, devices: Devices) -> Iterator[Exchange]:
    """The run once with each call failing."""
    calls = of.calls(devices)
    for number, call in enumerate(calls, 1):
        before = calls[:number - 1]
        due = Ended.due(of.text[:taken(before)], call.status())
        yield Exchange(f"{what}: call {number}, {call.asked}, fails", of, devices._replace(failing=number), [*before, call.fails()], due)


def exchanges_of_forms() -> Iterator[Exchange]:
    """Each form of the words."""
    for words, script, text, status in FORMS:
        of = Run(words.split(), FILES, script, text, status)
        for devices in WAYS:
            what = f"{words!r} over {script!r} by {devices}"
            yield undisturbed(what, of, devices)
            yield from disturbed(what, of, devices)


def exchanges_at_limits() -> Iterator[Exchange]:
    """Files and scripts of the greatest length, and longer by a byte; lines of the greatest length in pieces of about as many bytes."""
    def exchange(words: str, script: bytes, text: bytes, status: int, long: bytes = b"") -> Exchange:
        what = f"{words} of a script of {len(script)} bytes, where `long` has {len(long)}"
        return undisturbed(what, Run(words.split(), {**FILES, "long": long}, script, text, status), Devices())

    longest = DICTIONARY.ljust(LONGEST_DICTIONARY)
    yield exchange("check long", b"", ACCEPTED, 0, long=longest)
    yield exchange("check long", b"", b"dictionary refused 1 TooLong\n", 1, long=longest + b" ")
    yield exchange("load d long", SCRIPT, b"saved refused line 3\n", 8, long=b"saved 1\nnext 1\n".ljust(LONGEST_TEXT, b"\n"))
    yield exchange("load d long", SCRIPT, b"saved refused line 0\n", 8, long=b"saved 1\nnext 1\n".ljust(LONGEST_TEXT + 1, b"\n"))
    script = SCRIPT + b"get /a\n#"
    yield exchange("run d", script.ljust(LONGEST_SCRIPT), REPLIES + b"complete 5.00\nrefused 2 LongLine\n", 0)
    yield exchange("run d", script.ljust(LONGEST_SCRIPT + 1), REPLIES + b"complete 5.00\n", 6)
    yield exchange("save d", script.ljust(LONGEST_SCRIPT + 1), b"", 6)
    yield exchange("run d", b"quit\n".ljust(LONGEST_SCRIPT + 1), b"", 0)
    lines = b"\n# note\nset /a 5\r\n" + b"0" * 4096 + b"\n" + b"0" * 4097 + b"\nget /a"
    text = b"ok\nrefused 1 BadLine\nrefused 2 LongLine\ncomplete 5.00\n"
    for pulled in (1, 7, 4095, 4096, 4097):
        yield undisturbed(f"lines of the greatest length in pieces of {pulled} bytes", Run(["run", "d"], FILES, lines, text, 0), Devices(pulled=pulled, put=1))


def exchanges_of_cases() -> Iterator[Exchange]:
    """The stored cases that are written out."""
    for path in files_of_cases():
        for case in cases_of(path) if path.suffix == ".row" else ():
            if not isinstance(case, Case):
                raise case
            shared = {word: (DICTIONARIES / word).read_bytes() for word in case.words[1:] if (DICTIONARIES / word).is_file()}
            own = {name: text for name, text in (("d", case.dictionary), ("s", case.saved)) if text is not None}
            of = Run(case.words, {**own, **shared}, case.script, case.due, case.status)
            for devices in (Devices(), BY_BYTE):
                yield undisturbed(f"{case.place} by {devices}", of, devices)


def wrong_with(came: list[str], due: list[Call]) -> str:
    """The first call that isn't the one that is due; no text where all are."""
    wanted = [str(call) for call in due]
    if came == wanted:
        return ""
    at = next((k for k, (a, b) in enumerate(zip(wanted, came)) if a != b), min(len(wanted), len(came)))
    shown = [f"{calls[at]!r}" if at < len(calls) else "none" for calls in (wanted, came)]
    return f"call {at + 1}: expected {shown[0]}, came {shown[1]}"


def wrong_in(program: Path, library: Path, exchange: Exchange) -> str:
    """What is wrong with a run; no text where nothing is."""
    with tempfile.TemporaryDirectory(prefix="fail_devices.") as path:
        folder, calls = Path(path, "folder"), Path(path, "calls")
        folder.mkdir()
        for name, content in exchange.run.files.items():
            (folder / name).write_bytes(content)
        script = Path(path, "script")
        script.write_bytes(exchange.run.script)
        with open(script, "rb") as source:
            came = run([program, *exchange.run.words], folder, source, {"LD_PRELOAD": str(library), "CALLS": str(calls), **exchange.devices.variables()})
        made = calls.read_bytes().decode(errors="replace").splitlines() if calls.exists() else []
    ended = "" if came == exchange.due else f"expected {exchange.due!r}, came {came!r}"
    return "; ".join(filter(None, (wrong_with(made, exchange.calls), ended)))


def main(argv: list[str]) -> int:
    """Runs the cases."""
    words = words_of(__doc__)
    add_program(words)
    program = words.parse_args(argv).program
    tally = Tally()
    with tempfile.TemporaryDirectory(prefix="fail_devices.") as path, ThreadPoolExecutor(os.cpu_count()) as pool:
        library = compiled(TOP / "tests/preload/failing_devices.c", Path(path, "failing.so"), "-O1", "-shared", "-fPIC", "-ldl")
        exchanges = [*exchanges_of_forms(), *exchanges_at_limits(), *exchanges_of_cases()]
        for exchange, wrong in zip(exchanges, pool.map(lambda it: wrong_in(program, library, it), exchanges)):
            tally.judge(exchange.what, wrong)
    return tally.end()


if __name__ == "__main__":
    sys.exit(main(sys.argv[1:]))
