"""Draws the crates by floors, and the ways of a dictionary, of a change and of a question through them, as SVG."""
import textwrap
from collections.abc import Iterator, Mapping
from html import escape
from typing import NamedTuple

from crates import Crate, crates

# Below all others stands what has no code: it makes no floor.
LEMMAS = "common_lemmas"
BOX, GAP, LEFT, FLOOR, TOP_EDGE = (146, 54), 8, 74, 74, 66
LETTERS = 21  # of the words in a box, a line
LEGEND = 280  # from one way to the next


class Way(NamedTuple):
    """The crates that something passes, in this order."""

    name: str
    colour: str
    crates: tuple[str, ...]


WAYS = (
    Way("a dictionary", "#1a4480", (
        "fg_io", "dict_tree", "fact_json", "dict_source", "dict_rules", "node_types", "dict_types", "dict_order", "dictionary",
        "node_compile", "dep_index", "recalc")),
    Way("a change, as set", "#8a3b00", (
        "script_lines", "session_lines", "graph_session", "answers", "session_undo", "recalc", "node_eval", "cell_store")),
    Way("a question, as get", "#154c21", ("script_lines", "session_lines", "graph_session", "recalc", "cell_store", "value_text", "fg_io")),
)


def floors() -> list[list[Crate]]:
    """The crates with code by their floors, lowest first: each a floor above the highest that it stands on."""
    floor: dict[str, int] = {}
    for crate in crates():
        if not crate.is_of_tests:
            floor[crate.name] = max((floor[low] + 1 for low in crate.below if low != LEMMAS), default=0)
    return [[it for it in crates() if floor.get(it.name) == at] for at in range(max(floor.values()) + 1)]


def places() -> dict[str, tuple[int, int]]:
    """Where the box of each crate stands: its left and its upper edge."""
    found, most = {}, max(map(len, floors()))
    for at, row in enumerate(reversed(floors())):
        for column, crate in enumerate(row):
            found[crate.name] = LEFT + (most - len(row) + 2 * column) * (BOX[0] + GAP) // 2, TOP_EDGE + at * FLOOR
    return found


def spot(at: int, place: tuple[int, int]) -> tuple[int, int]:
    """Where the badge of a way stands in a box."""
    return place[0] + BOX[0] - 14 - 20 * at, place[1] + BOX[1] - 9


def text(x: float, y: float, words: str, **more: str) -> str:
    """A line of text."""
    return f'<text x="{x}" y="{y}" {" ".join(f"{key}={chr(34)}{value}{chr(34)}" for key, value in more.items())}>{escape(words)}</text>'


def box(place: tuple[int, int], name: str, words: str) -> Iterator[str]:
    """The box of a crate."""
    left, upper = place
    yield f'<rect x="{left}" y="{upper}" width="{BOX[0]}" height="{BOX[1]}" rx="4" fill="#fff" stroke="#565c65"/>'
    yield text(left + 8, upper + 16, name, **{"class": "name"})
    for at, line in enumerate(textwrap.wrap(words, LETTERS)[:2]):
        yield text(left + 8, upper + 31 + 13 * at, line, **{"class": "words"})


def badge(x: float, y: float, colour: str, number: int) -> Iterator[str]:
    """The number of a step on a way."""
    yield f'<circle cx="{x}" cy="{y}" r="9" fill="{colour}" stroke="#fff" stroke-width="1.5"/>'
    yield text(x, y + 4, str(number), **{"class": "step"})


def way(at: int, one: Way, where: Mapping[str, tuple[int, int]]) -> Iterator[str]:
    """The line of a way, behind the boxes."""
    middles = [spot(at, where[name]) for name in one.crates]
    curve = f"M{middles[0][0]},{middles[0][1]}"
    for (x, y), (to_x, to_y) in zip(middles, middles[1:]):
        bend = (y + to_y) / 2
        curve += f" C{x},{bend} {to_x},{bend} {to_x},{to_y}"
    yield f'<path d="{curve}" fill="none" stroke="{one.colour}" stroke-width="2" stroke-opacity="0.45"/>'


def draw(words: Mapping[str, str]) -> str:
    """The picture, with a few words in the box of each crate."""
    where = places()
    width = max(left for left, _ in where.values()) + BOX[0] + 16
    height = max(upper for _, upper in where.values()) + BOX[1] + 24
    lines = [
        f'<svg xmlns="http://www.w3.org/2000/svg" viewBox="0 0 {width} {height}" role="img" aria-labelledby="title">',
        '<title id="title">The crates by floors, and the ways of a dictionary, of a change and of a question through them</title>',
        "<style>text { font: 11px system-ui, sans-serif; fill: #1b1b1b } .name { font: bold 12px ui-monospace, monospace }",
        ".floor { font-size: 12px; fill: #565c65 } .step { font: bold 11px system-ui, sans-serif; fill: #fff; text-anchor: middle }",
        ".way { font-size: 13px }</style>",
        f'<rect width="{width}" height="{height}" fill="#fff"/>',
    ]
    for at, one in enumerate(WAYS):
        lines += [*badge(LEFT + 9 + LEGEND * at, 26, one.colour, 1), text(LEFT + 24 + LEGEND * at, 31, f"the way of {one.name}", **{"class": "way"})]
    stories = floors()
    for at in range(len(stories)):
        upper = TOP_EDGE + (len(stories) - 1 - at) * FLOOR
        lines.append(f'<rect x="8" y="{upper - 10}" width="{width - 16}" height="{FLOOR - 2}" rx="4" fill="{"#f0f0f0" if at % 2 else "#f7f9fa"}"/>')
        lines.append(text(18, upper + 30, "ground" if at == 0 else f"floor {at}", **{"class": "floor"}))
    for at, one in enumerate(WAYS):
        lines += way(at, one, where)
    for name, place in where.items():
        lines += box(place, name, words[name])
    for at, one in enumerate(WAYS):
        for number, name in enumerate(one.crates, 1):
            lines += badge(*spot(at, where[name]), one.colour, number)
    return "\n".join([*lines, "</svg>", ""])
