#!/usr/bin/env python3
"""Holds the pages to crates.txt, the one list of crates, and to one another.

    dev/check_pages.py [--write]

- docs/ARCHITECTURE.md has a row for each crate, in the order of crates.txt; what a crate stands on is written there from crates.txt.
- docs/crates.svg is drawn of these rows: the words up to the colon are those in the crate's box.
- docs/PROVED.md has rows for each crate with code, in the same order. Each name that a row has for its clause stands in the sources of
  the crate, or of one that the row names, as `recalc's`; and each field of the headline in its record.
- README.md has a line for each of these crates, its first row there: the main claim, and the clause that carries it.
- README.md and docs/PROVING.md have the minutes of docs/GATE.md, of the last run from nothing that dev/gate_times.py wrote there; and
  README.md what a session holds, of docs/LIBRARY.md.
- docs/TAX_YEARS.md has a row for each fact that the tax years ask for, with its source as the page in a browser has it; and the example
  of the next year clears what these rows say is of the year.
- A block of code below `<!-- from PATH -->` stands so in that file.
- A link in a page leads to a file that is there, and what follows a `#` to a heading of it.

With --write what is made from other pages is written anew. Else it says what differs, and the exit status is 1 where something does.
"""
import argparse
import re
import sys
from collections.abc import Iterator
from functools import cache
from pathlib import Path

from crates import TOP, Crate, crates
from draw_crates import draw
from questions import wrong_questions

DOCS = TOP / "docs"
ARCHITECTURE, PROVED, GATE, LIBRARY, PROVING = (DOCS / f"{name}.md" for name in ("ARCHITECTURE", "PROVED", "GATE", "LIBRARY", "PROVING"))
README, PICTURE = TOP / "README.md", DOCS / "crates.svg"
PROGRAM = "interview"
ROW = re.compile(r"^\| \[`(\w+)`\]\(\.\./crates/\w+\) \| (.*) \| (.*?) ?\|$", re.MULTILINE)
CLAIM = re.compile(r"^\| `(\w+)` \| (.*) \| (.*) \|$", re.MULTILINE)
# A row of any claim: the crate, where the row is its first, and what carries the claim.
CARRIED = re.compile(r"^\| (?:`(\w+)` )?\| .* \| (.*) \|$", re.MULTILINE)
# A row of the headline: the fields of its record.
FIELDS = re.compile(r"^\| (`\w+`(?:, `\w+`)*) \| .* \|$", re.MULTILINE)
HEADLINE = TOP / "crates" / PROGRAM / "specs" / "Ends.antt"
MADE = re.compile(r"(<!-- made by dev/check_pages\.py --write -->\n).*?(<!-- end -->)", re.DOTALL)
CITED = re.compile(r"<!-- from (\S+) -->\n```\w*\n(.*?)```", re.DOTALL)
# Without claims of their own.
WITHOUT_CODE = {"common_lemmas"}
LINK = re.compile(r"\[[^\]]*\]\(([^)\s]+)\)")
# A crate's minutes in docs/GATE.md, and those of the run.
TIMES = re.compile(r"^\| (\w+) \| ([\d.]+) \| ([\d.]+) \| ([\d.]+)(?: \(\d+\))? \| ([\d.]+) \|$", re.MULTILINE)
RUN = re.compile(r"The run took (\d+) minutes on (\d+)\.")
# The bytes of a session that was opened, in docs/LIBRARY.md.
OPENED = re.compile(r"^\| opened \| ([\d,]+) \|$", re.MULTILINE)
# The words with what was measured, by page.
MEASURED = {
    README: ["some {program} minutes of one processor", "it took {run} minutes on {processors} processors", "holds {kilobytes} KB"],
    PROVING: ["Of {all} minutes of one processor the proofs are {proofs}, the tests {tests}, and the wrong bodies {edits}"],
}


def read(path: Path) -> str:
    """The text of a page."""
    return path.read_text(encoding="utf-8")


def all_below(crate: Crate, known: dict[str, Crate]) -> set[str]:
    """The names of all crates that a crate stands on, by way of others too."""
    return {name for low in crate.below for name in (low, *all_below(known[low], known))}


def stands_on(crate: Crate, known: dict[str, Crate]) -> str:
    """What a crate stands on, without what those crates stand on themselves."""
    by_way = {name for low in crate.below for name in all_below(known[low], known)}
    names = [f"`{low}`" for low in crate.below if low not in by_way]
    kit = [f"`{name}`" for name in crate.kit]
    return ", ".join([*names, f"the kit's {', '.join(kit)}"] if kit else names)


def architecture(page: str) -> str:
    """The page, with what each crate stands on."""
    known = {it.name: it for it in crates()}
    return ROW.sub(lambda row: f"| [`{row[1]}`](../crates/{row[1]}) | {row[2]} | {stands_on(known[row[1]], known)} |" if row[1] in known else row[0], page)


def readme(page: str, proved: str) -> str:
    """The page, with a line for each crate's main claim."""
    rows = ["| Crate | Main claim | Clause |", "|---|---|---|"]
    rows += [f"| [`{name}`](crates/{name}) | {claim} | {clause} |" for name, claim, clause in CLAIM.findall(proved)]
    return MADE.sub(lambda made: made[1] + "\n".join([*rows, made[2]]), page)


def minutes(gate: str) -> dict[str, str]:
    """The minutes of the page on the gate by what they are of; none where it has no run from nothing."""
    rows, run, known = {name: [*map(float, cells)] for name, *cells in TIMES.findall(gate)}, RUN.search(gate), {it.name: it for it in crates()}
    if run is None or "all" not in rows:
        return {}
    program = sum(rows[name][0] for name in (PROGRAM, *all_below(known[PROGRAM], known)) if name in rows)
    taken = dict(zip(("proofs", "tests", "edits", "all"), rows["all"])) | {"program": program}
    return {what: f"{each:.0f}" for what, each in taken.items()} | {"run": run[1], "processors": run[2]}


def kilobytes(library: str) -> dict[str, str]:
    """The kilobytes of a session, of the page on the library; none where it doesn't say."""
    return {"kilobytes": f"{int(opened[1].replace(',', '')) / 1000:.0f}" for opened in OPENED.finditer(library)}


def with_any_number(words: str) -> str:
    """The pattern of words with what was measured."""
    return re.sub(r"\{\w+\}", r"\\d+", words)


def measured(path: Path, page: str) -> str:
    """The page, with what the pages on the gate and on the library have measured."""
    taken = minutes(read(GATE)) | kilobytes(read(LIBRARY))
    for words in MEASURED[path]:
        page = re.sub(with_any_number(words), words.format_map(taken), page)
    return page


def wrong_measures() -> Iterator[str]:
    """Where what was measured is wanting."""
    if not minutes(read(GATE)):
        yield "docs/GATE.md has no run from nothing: run dev/gate_times.py docs/GATE.md --anew"
    if not kilobytes(read(LIBRARY)):
        yield "docs/LIBRARY.md has no row of a session that was opened"
    for path, said in MEASURED.items():
        yield from (f"{path.relative_to(TOP)} doesn't say: {words}" for words in said if not re.search(with_any_number(words), read(path)))


def picture(page: str) -> str:
    """The picture of the rows of the page on the architecture."""
    return draw({name: words.partition(":")[0] for name, words, _ in ROW.findall(page)})


def wrong_order(names: list[str], due: list[str], page: Path) -> Iterator[str]:
    """Where the rows of a page aren't those of crates.txt."""
    for name in sorted(set(due) - set(names)):
        yield f"{page.name} has no row for {name}"
    for name in sorted(set(names) - set(due)):
        yield f"{page.name} has a row for {name}, which crates.txt doesn't have so"
    if sorted(names) == sorted(due) and names != due:
        name, wanted = [pair for pair in zip(names, due) if pair[0] != pair[1]][0]
        yield f"{page.name} has {name} where crates.txt has {wanted}"


@cache
def words_of(crate: str) -> set[str]:
    """The words of a crate's code, definitions and proofs."""
    files = [path for part in ("src", "specs", "proofs") for path in (TOP / "crates" / crate / part).rglob("*") if path.is_file()]
    return {word for path in files for word in re.findall(r"\w+", read(path))}


def wrong_clauses(proved: str) -> Iterator[str]:
    """The clauses of the page on proofs that aren't where it says."""
    headline, _, rows = proved.partition("## Crate by crate")
    for fields in FIELDS.findall(headline):
        yield from (f"{HEADLINE.name} has no {name}" for name in re.findall(r"\w+", fields) if not re.search(rf"\b{name} :", read(HEADLINE)))
    crate, known = "", {it.name for it in crates()}
    for first, carrier in CARRIED.findall(rows):
        crate = first or crate
        homes = [crate, *(known & set(re.findall(r"(\w+)'", carrier)))] if crate else []
        for name in re.findall(r"`([^`]+)`", carrier) if crate else []:
            stands = (TOP / name).is_file() if "/" in name else all(any(word in words_of(home) for home in homes) for word in re.findall(r"\w+", name))
            if not stands:
                yield f"{PROVED.name}: {crate} has no {name}"


def anchors(page: str) -> set[str]:
    """The anchors of a page's headings."""
    headings = re.findall(r"^#+ (.*)$", page, re.MULTILINE)
    return {re.sub(r"[^\w\- ]", "", heading.lower()).replace(" ", "-") for heading in headings}


def pages() -> list[Path]:
    """All pages."""
    return sorted(path for path in TOP.glob("**/*.md") if not {"out", "node_modules"} & set(path.relative_to(TOP).parts))


def wrong_citations() -> Iterator[str]:
    """The blocks of code that don't stand in the file that they are from."""
    for path in pages():
        for name, code in CITED.findall(read(path)):
            if code not in read(TOP / name):
                yield f"{path.relative_to(TOP)} cites what {name} doesn't have"


def broken_links() -> Iterator[str]:
    """The links in pages that lead nowhere."""
    for path in pages():
        for link in LINK.findall(re.sub(r"^```.*?^```", "", read(path), flags=re.DOTALL | re.MULTILINE)):
            name, _, anchor = link.partition("#")
            target = path.parent / name if name else path
            if "://" in link or link.startswith("mailto:"):
                continue
            if not target.exists():
                yield f"{path.relative_to(TOP)}: no {name}"
            elif anchor and target.suffix == ".md" and anchor not in anchors(read(target)):
                yield f"{path.relative_to(TOP)}: no heading #{anchor} in {name or path.name}"


def main(argv: list[str]) -> int:
    """Checks the pages, or writes what is made of others."""
    words = argparse.ArgumentParser(description=__doc__, formatter_class=argparse.RawDescriptionHelpFormatter)
    words.add_argument("--write", action="store_true")
    is_writing = words.parse_args(argv).write
    page, proved = architecture(read(ARCHITECTURE)), read(PROVED)
    wrong = [*wrong_order([row[0] for row in ROW.findall(page)], [it.name for it in crates()], ARCHITECTURE)]
    with_code = [it.name for it in crates() if not it.is_of_tests and it.name not in WITHOUT_CODE]
    wrong += wrong_order([claim[0] for claim in CLAIM.findall(proved)], with_code, PROVED)
    wrong += wrong_measures()
    made: dict[Path, str] = {}
    if not wrong:
        made = {ARCHITECTURE: page, PICTURE: picture(page), README: measured(README, readme(read(README), proved)), PROVING: measured(PROVING, read(PROVING))}
    for path, text in made.items():
        if is_writing:
            path.write_text(text, encoding="utf-8")
        elif not path.is_file() or read(path) != text:
            wrong.append(f"{path.relative_to(TOP)} isn't what dev/check_pages.py --write makes")
    wrong += [*wrong_clauses(proved), *wrong_questions(), *wrong_citations(), *broken_links()]
    print("\n".join([*wrong, f"check_pages: {len(wrong)} wrong"]))
    return 1 if wrong else 0


if __name__ == "__main__":
    sys.exit(main(sys.argv[1:]))
