"""Comments and blank lines, kept with the parts of the rules by which they stand."""

from __future__ import annotations

from bisect import bisect_left
from dataclasses import dataclass, field

from ..located import Pointer
from .drafts import Span
from .scanning import Comment, Scan


@dataclass
class Notes:
    """The comments of a text, by the pointers of the parts by which they stand."""

    leading: dict[Pointer, list[str]] = field(default_factory=dict)
    """Those on lines of their own before a part."""
    trailing: dict[Pointer, list[str]] = field(default_factory=dict)
    """Those behind a part, with more of its item below."""
    before: dict[Pointer, list[str]] = field(default_factory=dict)
    """The lines before an item: each is a comment, or empty."""
    behind: dict[Pointer, list[str]] = field(default_factory=dict)
    """Those at the end of the last line of an item."""
    below: dict[Pointer, list[str]] = field(default_factory=dict)
    """Those on indented lines of their own at the end of an item."""
    after: list[str] = field(default_factory=list)
    """The lines behind the last item."""


def noted(found: Scan, units: dict[Pointer, Span]) -> Notes:
    """The comments of a text by the parts that these spans have. Each item has a part that begins with it."""
    notes = Notes(after=found.after)
    ordered = sorted(((*span, pointer) for pointer, span in units.items()), key=lambda it: it[:2])
    starts = [start for start, _, _ in ordered]
    items = {start: pointer for start, _, pointer in ordered if _is_item(pointer)}
    for item in found.items:
        pointer = items[item.start]
        notes.before[pointer] = list(item.before)
        own = ordered[bisect_left(starts, item.start) : bisect_left(starts, item.end)]
        last = len(found.bare[item.start : item.end].rstrip()) + item.start
        for comment in item.comments:
            _keep(notes, comment, pointer, own, last)
    return notes


def _is_item(pointer: Pointer) -> bool:
    return pointer == ("version",) or len(pointer) == 2


def _keep(notes: Notes, comment: Comment, item: Pointer, units: list[tuple[int, int, Pointer]], last: int) -> None:
    """Keeps one comment of an item whose last word ends at this place, by one of its parts."""
    at = comment.at
    if at >= last:
        place = notes.below if comment.is_alone else notes.behind
        place.setdefault(item, []).append(comment.text)
    elif comment.is_alone:
        following = [(start, -end, key) for start, end, key in units if start > at]
        if following:
            notes.leading.setdefault(min(following, key=lambda it: it[:2])[2], []).append(comment.text)
        else:
            notes.before[item].append(comment.text)
    else:
        ended = [(end, -start, key) for start, end, key in units if end <= at]
        pointer = max(ended, key=lambda it: it[:2])[2] if ended else item
        notes.trailing.setdefault(pointer, []).append(comment.text)
