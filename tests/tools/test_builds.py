"""How tools/build_program.py goes on: the order of builds, what it expects, what it shows, and a build that fails or is interrupted."""
import io
import re
import signal
import subprocess
import sys
import time
from pathlib import Path

import pytest

TOP = Path(__file__).resolve().parent.parent.parent
sys.path.insert(0, str(TOP / "tools"))
# pylint: disable=wrong-import-position # found by the path above
from kit import once_a_look  # noqa: E402
from progress import Screen, drawn, in_words, meter  # noqa: E402
from schedule import Build, Plan, chains, expected  # noqa: E402
from side_by_side import Command, run_side_by_side  # noqa: E402

GATE = "| Crate | Proof | Tests |\n|---|---|---|\n| low | 2.0 | 0.0 |\n| high | 0.0 | 9.0 |\n| all | 2.0 | 9.0 |\n"


def diamond(low: float = 10, left: float = 40, right: float = 20, top: float = 30) -> dict[str, Build]:
    """A crate, two that stand on it, and one on these."""
    on_low = frozenset({"low"})
    return {
        "low": Build(frozenset(), low),
        "left": Build(on_low, left),
        "right": Build(on_low, right),
        "top": Build(on_low | {"left", "right"}, top),
    }


def wide(count: int) -> dict[str, Build]:
    """Crates that stand on nothing, of one size."""
    return {f"c{at}": Build(frozenset(), 10) for at in range(count)}


class Terminal(io.StringIO):
    """A stream that says that it is a terminal."""

    def isatty(self) -> bool:
        return True


def test_expected_is_what_the_page_on_the_gate_says_and_else_goes_by_lines() -> None:
    assert expected({"low": 400, "high": 100, "new": 1000}, GATE) == {"low": 120, "high": 6, "new": 1000 * 126 / 500}
    assert expected({"new": 1000}, "no table") == {"new": 100}


def test_every_crate_of_the_page_on_the_gate_is_expected() -> None:
    due = expected({"interview": 1, "fact_values": 1}, (TOP / "docs" / "GATE.md").read_text(encoding="utf-8"))
    assert due["interview"] > due["fact_values"] > 6


def test_a_chain_is_as_long_as_all_above() -> None:
    assert chains(diamond()) == {"low": 80, "left": 70, "right": 50, "top": 30}


def test_a_crate_starts_where_all_below_it_are_built() -> None:
    plan = Plan(diamond(), 4)
    assert [name for name, _ in plan.start(0)] == ["low"]
    assert not [*plan.start(1)]
    assert plan.end("low", 5, True) == 5
    assert [name for name, _ in plan.start(5)] == ["left", "right"]
    plan.end("left", 20, True)
    assert not [*plan.start(20)]
    plan.end("right", 25, True)
    assert [name for name, _ in plan.start(25)] == ["top"]
    plan.end("top", 40, True)
    assert not plan.not_built()


def test_what_stands_already_is_kept() -> None:
    plan = Plan(diamond(), 4, {"low", "left"})
    assert [name for name, _ in plan.start(0)] == ["right"]


def test_what_many_others_wait_for_comes_first() -> None:
    builds = diamond() | {"alone": Build(frozenset(), 60)}
    assert [*Plan(builds, 1).start(0)] == [("low", 1)]


def test_no_more_jobs_run_than_there_are_processors() -> None:
    for lanes in (1, 2, 3, 4, 8):
        plan = Plan(wide(5) | diamond(), lanes)
        assert sum(jobs for _, jobs in plan.start(0)) <= lanes


def test_each_of_many_gets_one_processor_and_the_last_gets_more() -> None:
    plan = Plan(wide(5), 4)
    assert [jobs for _, jobs in plan.start(0)] == [1, 1, 1, 1]
    for name in [*plan.running]:
        plan.end(name, 10, True)
    assert [jobs for _, jobs in plan.start(10)] == [4]


def test_where_fewer_wait_the_first_gets_more() -> None:
    plan = Plan(wide(2) | {"first": Build(frozenset(), 300), "last": Build(frozenset({"first"}), 300)}, 4)
    assert [*plan.start(0)] == [("first", 2), ("c0", 1), ("c1", 1)]


def test_what_stands_on_a_failed_build_is_not_started() -> None:
    plan = Plan(diamond(), 4)
    assert [name for name, _ in plan.start(0)] == ["low"]
    plan.end("low", 5, True)
    assert [name for name, _ in plan.start(5)] == ["left", "right"]
    plan.end("left", 6, False)
    plan.end("right", 7, True)
    assert not [*plan.start(7)]
    assert plan.not_built() == ["left", "top"]


def test_the_rest_takes_what_the_plan_takes_when_it_is_gone_through() -> None:
    assert Plan(wide(6), 1).seconds_left(0) == 60
    assert Plan(wide(8), 4).seconds_left(100) == 20
    assert Plan(diamond(), 1).seconds_left(0) == 100


def test_the_rest_is_scaled_by_what_was_measured() -> None:
    plan = Plan(wide(6), 1)
    assert [*plan.start(0)] == [("c0", 1)]
    plan.end("c0", 25, True)
    assert plan.seconds_left(25) == 125
    assert [*plan.start(25)] == [("c1", 1)]
    assert plan.seconds_left(35) == 115
    assert plan.seconds_left(60) == 102.5, "one that takes longer has a tenth left"


def test_a_failed_build_is_no_measure() -> None:
    plan = Plan(wide(3), 1)
    assert [*plan.start(0)] == [("c0", 1)]
    plan.end("c0", 1, False)
    assert plan.seconds_left(1) == 20


def test_the_part_that_is_done_goes_by_the_work_of_this_run() -> None:
    plan = Plan(diamond(), 4, {"low"})
    assert plan.part() == 0
    plan.done.add("left")
    assert plan.part() == 40 / 90
    plan.done |= {"right", "top"}
    assert plan.part() == 1
    assert Plan(diamond(), 4, {*diamond()}).part() == 1


def test_the_bar_is_filled_by_parts() -> None:
    assert meter(0) == f"[{'-' * 24}]"
    assert meter(0.5) == f"[{'#' * 12}{'-' * 12}]"
    assert meter(1) == f"[{'#' * 24}]"


def test_time_is_told_to_the_minute() -> None:
    assert [in_words(seconds) for seconds in (0, 29, 60, 1110)] == [
        "less than a minute left",
        "less than a minute left",
        "about 1 minute left",
        "about 18 minutes left",
    ]


def test_the_bar_names_what_is_built_and_fits_the_terminal() -> None:
    plan = Plan(diamond(600, 600, 600, 600), 2, {"low"})
    assert [name for name, _ in plan.start(0)] == ["left", "right"]
    assert drawn(plan, 0, 200) == f"{meter(0)} 1 of 4 crates, 0% of the work, about 18 minutes left: left, right"
    assert len(drawn(plan, 0, 40)) == 39


def run(plan: Plan, script: str, stream: io.StringIO) -> list[str]:
    """Runs a plan whose builds are a script of the shell with the name as $1 and the jobs as $2."""
    return run_side_by_side(plan, lambda name, jobs: Command(["sh", "-c", script, "sh", name, str(jobs)], TOP), Screen(stream))


def test_builds_run_in_order_and_are_told_in_plain_lines(tmp_path: Path) -> None:
    stream = io.StringIO()
    assert not run(Plan(diamond(), 2), f"echo $1 >> {tmp_path}/order", stream)
    first, *between, last = (tmp_path / "order").read_text(encoding="utf-8").split()
    assert (first, sorted(between), last) == ("low", ["left", "right"], "top")
    lines = stream.getvalue().splitlines()
    assert [line.partition(";")[0] for line in lines][:1] == ["low: proved in 0 s"]
    assert re.fullmatch(r"top: proved in 0 s; 4 of 4 crates, 100% of the work, less than a minute left", lines[-1])
    assert "\x1b" not in stream.getvalue()


def test_a_terminal_has_a_bar_below_the_lines(monkeypatch: pytest.MonkeyPatch) -> None:
    monkeypatch.setenv("TERM", "xterm")
    stream = Terminal()
    assert not run(Plan(diamond(), 2), "true", stream)
    assert stream.getvalue().count("\r\x1b[K[") >= 3
    assert stream.getvalue().count("\r\x1b[Kleft: proved in 0 s\n") == 1
    assert stream.getvalue().endswith("\r\x1b[K")


def test_a_build_that_fails_is_named_with_its_last_lines_and_others_go_on() -> None:
    stream = io.StringIO()
    script = "seq 30; test $1 != left || { echo not proved >&2; exit 3; }"
    assert run(Plan(diamond(), 2), script, stream) == ["left", "top"]
    said = stream.getvalue()
    assert "left: not built, after 0 s:\n" + "".join(f"  {at}\n" for at in range(20, 31)) + "  not proved\n" in said
    assert "  19\n" not in said
    assert "right: proved" in said and "top: proved" not in said


@pytest.mark.parametrize("number", [signal.SIGINT, signal.SIGTERM])
def test_an_interrupt_ends_what_runs(tmp_path: Path, number: signal.Signals) -> None:
    code = f"""
import sys
sys.path.insert(0, {str(TOP / "tools")!r})
from pathlib import Path
from progress import Screen
from schedule import Build, Plan
from side_by_side import Command, run_side_by_side
plan = Plan({{"a": Build(frozenset(), 10), "b": Build(frozenset(), 10)}}, 2)
command = lambda name, jobs: Command(["sh", "-c", f"echo $$ > {tmp_path}/{{name}}; exec sleep 60"], Path("/"))
try:
    run_side_by_side(plan, command, Screen(sys.stdout))
except KeyboardInterrupt:
    sys.exit(130)
"""
    with subprocess.Popen([sys.executable, "-c", code]) as builds:
        noted = [tmp_path / name for name in "ab"]
        while not all(path.is_file() and path.read_text(encoding="utf-8") for path in noted):
            time.sleep(0.05)
        builds.send_signal(number)
        try:
            assert builds.wait(30) == 130
        finally:
            builds.kill()
    for path in noted:
        assert not Path("/proc", path.read_text(encoding="utf-8").strip()).exists()


class Texts:
    """A crate as rt's is, whose stamp asks for those of the crates below it."""

    def __init__(self, folder: str, below: list["Texts"]) -> None:
        self.folder = folder
        self.below = below
        self.text = folder
        self.reads = 0

    def stamp(self) -> str:
        """What its text and those below it are."""
        self.reads += 1
        return self.text + repr([it.stamp() for it in self.below])


def test_a_stamp_reads_each_text_once_and_anew_each_time(monkeypatch: pytest.MonkeyPatch) -> None:
    crates: list[Texts] = []
    for at in range(8):
        crates.append(Texts(f"c{at}", [*crates]))
    top, plain = crates[-1], crates[-1].stamp()
    assert crates[0].reads == 2**6
    monkeypatch.setattr(Texts, "stamp", once_a_look(Texts.stamp))
    before = crates[0].reads
    assert top.stamp() == plain and crates[0].reads == before + 1
    crates[0].text = "changed"
    assert top.stamp() != plain and crates[0].reads == before + 2
