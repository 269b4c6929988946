"""`run` and `ask` at a pseudo-terminal."""

from pathlib import Path

from terminal import Terminal

EXAMPLES = Path(__file__).resolve().parents[3] / "examples"
SCREENER = str(EXAMPLES / "screener.json")


def test_run_answers_what_is_typed(tmp_path: Path) -> None:
    with Terminal(["run", SCREENER], tmp_path) as terminal:
        terminal.answers("set /bill 1240.50\r")
        terminal.shows("ok\n")
        terminal.answers("get /bill\r")
        terminal.shows("complete 1240.50\n")
        assert "\x1b[32mcomplete 1240.50" in terminal.raw  # complete is green
        terminal.answers("get /savings\r")
        terminal.shows("placeholder 0.00\n")
        assert "\x1b[33mplaceholder 0.00" in terminal.raw  # a placeholder is yellow
        terminal.answers("final /bill\r")
        terminal.shows("final 1240.50\n")
        assert "\x1b[32m\x1b[1mfinal 1240.50" in terminal.raw  # final is bold
        terminal.answers("set /bill 9000\r")
        terminal.shows("refused 7 Limit 2\n")
        terminal.shows("The value breaks the limit")
        terminal.answers("quit\r")
        assert terminal.ends() == 0


def test_run_completes_commands_slots_and_values(tmp_path: Path) -> None:
    with Terminal(["run", SCREENER], tmp_path) as terminal:
        terminal.shows(">")
        for begun, offered in (("ad", "add a member"), (" /peo", "Collection: Who lives in the home.")):
            terminal.type(begun)
            terminal.shows(offered)
            terminal.type("\t")
        terminal.type("\r")
        terminal.shows("ok #1\n")
        terminal.shows(">")
        for begun, offered in (("set /ten", "Enum tenure"), (" o", "other")):
            terminal.type(begun)
            terminal.shows(offered)
            terminal.type("\t")
        terminal.type("\r")
        terminal.shows("ok\n")
        terminal.answers("get /people/#1/w")
        terminal.shows("Dollar")
        terminal.type("\t\r")
        terminal.shows("incomplete\n")
        terminal.answers("get /tenure\r")
        terminal.shows("complete owns\n")
        terminal.answers("\x04")
        assert terminal.ends() == 0


def test_run_remembers_what_was_typed(tmp_path: Path) -> None:
    with Terminal(["run", SCREENER], tmp_path) as terminal:
        terminal.answers("get /savings\r")
        terminal.shows("placeholder 0.00\n")
        terminal.answers("\x04")
        assert terminal.ends() == 0
    with Terminal(["run", SCREENER], tmp_path) as terminal:
        terminal.answers("\x1b[A\r")  # the key Up
        terminal.shows("placeholder 0.00\n")
        terminal.answers("\x04")
        assert terminal.ends() == 0


def test_ask_asks_for_what_is_missing_and_goes_on_from_what_was_kept(tmp_path: Path) -> None:
    saved = tmp_path / "mine"
    with Terminal(["ask", SCREENER, "--saved", str(saved), "--figure", "/help"], tmp_path) as terminal:
        terminal.shows("Help with the heating bill")
        terminal.shows("How do you live there? (rents, owns, other)")
        terminal.answers("leases\r")
        terminal.shows("Please answer with rents, owns, other.")
        terminal.answers("re")
        terminal.shows("rents")
        terminal.type("\t\r")
        terminal.shows("0.00 is taken until you answer")
        terminal.shows("What the household has in the bank.")
        terminal.answers("\r")  # left out
        terminal.shows("People in the home (how many)")
        terminal.answers("1\r")
        terminal.shows("Person 1: Born on")
        terminal.answers("1958-11-30\r")
        terminal.shows("Person 1: Wages of a year")
        terminal.answers("12000\r")
        terminal.shows("Heating bill (an amount, as 1240.50; at least 0; at most 5000.00)")
        terminal.answers("9,000\r")
        terminal.shows("Please answer with at most 5000.00.")
        terminal.answers("$1,240.50\r")
        terminal.shows("Amount of help: 1240.50 (estimate)")
        terminal.shows("Not answered: Savings.")
        assert terminal.ends() == 0
    assert "value /people/#1/wages 12000.00\n" in saved.read_text()
    with Terminal(["ask", SCREENER, "--saved", str(saved), "--figure", "/help"], tmp_path) as terminal:
        terminal.shows("Savings (")
        terminal.answers("0\r")
        terminal.shows("Amount of help: 1240.50 (final)")
        terminal.shows(f"The answers are kept in {saved}.")
        assert terminal.ends() == 0
    assert "value /savings 0.00\n" in saved.read_text()


def test_an_answer_is_taken_back(tmp_path: Path) -> None:
    with Terminal(["ask", SCREENER, "--figure", "/size"], tmp_path) as terminal:
        terminal.shows("People in the home (how many)")
        terminal.answers(":back\r")
        terminal.shows("There is no answer to take back.")
        terminal.answers("three\r")
        terminal.shows("Please answer with a number from 0 to 100.")
        terminal.answers("3\r")
        terminal.shows("Size: 3 (final)")
        assert terminal.ends() == 0
    with Terminal(["ask", SCREENER, "--figure", "/elderlyCount"], tmp_path) as terminal:
        terminal.shows("People in the home (how many)")
        terminal.answers("2\r")
        terminal.shows("Person 1: Born on")
        terminal.answers(":back\r")
        terminal.shows("The last answer is taken back.")
        terminal.shows("People in the home (how many)")
        terminal.answers("0\r")
        terminal.shows("People of 65 and more: 0 (final)")
        assert terminal.ends() == 0


def test_ask_ends_where_the_person_stops(tmp_path: Path) -> None:
    for key in (":stop\r", "\x04", "\x03"):
        with Terminal(["ask", SCREENER], tmp_path) as terminal:
            terminal.shows("How do you live there?")
            terminal.answers(key)
            terminal.shows("Not answered: How do you live there?")
            assert terminal.ends() == 0
