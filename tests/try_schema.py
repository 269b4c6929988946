#!/usr/bin/python3
"""Tries docs/dictionary.schema.json on each dictionary of the stored cases and of the examples.

    tests/try_schema.py

It has to fit those without a fault of form, and none with one. A line is printed for each that it judges otherwise. The exit status is
0 where there is none, and 1 where there is one.
"""
import json
import sys
from collections.abc import Iterator

import jsonschema

from harness import DICTIONARIES, EXAMPLES, TOP, Tally, words_of
from stored_cases import Case, cases_of, files_of_cases

REFUSED = "dictionary refused"
# What no schema says, in the words of the cases: of two parts that they are alike or in order, of a name that it is one of others, of a
# text that it has a meaning beyond its form.
UNSAID = ("one name", "isn't there", "no such option", "don't rise", "no day", "beyond the range", "bytes")


def dictionaries_of_cases() -> Iterator[tuple[str, bytes, str]]:
    """The dictionaries of the stored cases, each with what its case shows, and the first line that is due."""
    for path in files_of_cases():
        for case in cases_of(path) if path.suffix == ".row" else ():
            if isinstance(case, Case) and case.dictionary is not None:
                yield case.place, case.dictionary, case.due.decode().partition("\n")[0]


def try_schema(tally: Tally) -> None:
    """The schema fits the dictionaries of the right form, and no other."""
    form = jsonschema.Draft202012Validator(json.loads((TOP / "docs/dictionary.schema.json").read_text(encoding="utf-8")))
    for path in sorted([*EXAMPLES.glob("*.json"), *DICTIONARIES.glob("*.json")]):
        tally.expect(f"the schema on {path.name}", form.is_valid(json.loads(path.read_bytes())), True)
    for what, text, due in dictionaries_of_cases():
        try:
            value = json.loads(text)
        except ValueError:
            continue
        if not due.startswith(REFUSED):
            tally.expect(f"the schema on {what}", form.is_valid(value), True)
        elif due.startswith(f"{REFUSED} 3 ") and not any(words in what for words in UNSAID):
            tally.expect(f"the schema on {what}", form.is_valid(value), False)


def main(argv: list[str]) -> int:
    """Tries the schema."""
    words_of(__doc__).parse_args(argv)
    tally = Tally()
    try_schema(tally)
    return tally.end()


if __name__ == "__main__":
    sys.exit(main(sys.argv[1:]))
