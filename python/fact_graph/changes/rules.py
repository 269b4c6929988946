"""What differs between two dictionaries, fact by fact."""

from __future__ import annotations

from collections.abc import Iterator
from typing import Any, NamedTuple

from ..constants import number_of
from ..expressions import FactTree, Node
from ..rulebook import Rulebook, Table, row_words, type_words, value_words
from ..rules.printing import limit_words
from ..values import READERS

JOINING = ("Switch", "All", "Any", "Filter", "Find")
"""The nodes whose operands are read each for itself."""


class Change(NamedTuple):
    """What differs in a fact, in a list of options or in a table: in words."""

    of: str
    words: str


def changes(old: Rulebook, new: Rulebook) -> list[Change]:
    """What differs: lists of options first, then tables, then facts that are gone, facts that are new, and those that are changed."""
    return [*_options(old, new), *_tables(old, new), *_gone(old, new), *_new(old, new), *_changed(old, new)]


def _options(old: Rulebook, new: Rulebook) -> Iterator[Change]:
    before, after = old.dictionary.options, new.dictionary.options
    for name in {**before, **after}:
        if name not in after or name not in before:
            yield Change(f"enum {name}", "is gone" if name not in after else f"is new: {', '.join(after[name])}")
            continue
        gone, come = [it for it in before[name] if it not in after[name]], [it for it in after[name] if it not in before[name]]
        if gone or come:
            words = [f"{', '.join(gone)} {'is' if len(gone) == 1 else 'are'} gone"] * bool(gone)
            words += [f"{', '.join(come)} {'is' if len(come) == 1 else 'are'} new"] * bool(come)
            yield Change(f"enum {name}", ", ".join(words))


def _tables(old: Rulebook, new: Rulebook) -> Iterator[Change]:
    before, after = old.dictionary.tables, new.dictionary.tables
    for name in {**before, **after}:
        if name not in after:
            yield Change(f"table {name}", "is gone")
        elif name not in before:
            rows = len(after[name].rows)
            yield Change(f"table {name}", f"is new: {_types(after[name])}, {row_words(after[name], 0)}, {rows} row{'' if rows == 1 else 's'}")
        else:
            yield from (Change(f"table {name}", words) for words in _of_table(before[name], after[name]))


def _of_table(before: Table, after: Table) -> Iterator[str]:
    if _types(before) != _types(after):
        yield f"{_types(before)} becomes {_types(after)}"
    if not _is_same(before, before.otherwise, after, after.otherwise):
        yield f"{row_words(before, 0)} becomes {value_words(after, after.otherwise)}"
    if before.keys == after.keys:
        yield from _rows(before, after)
    elif before.rows != after.rows:
        yield "the rows are others"
    if before.description != after.description:
        yield f"description: {before.description or 'none'} becomes {after.description or 'none'}"


def _rows(before: Table, after: Table) -> Iterator[str]:
    """The rows that are others, by their keys."""
    one, other = ({number_of(table.keys.name, key): row for row, (key, _) in enumerate(table.rows, 1)} for table in (before, after))
    for key in sorted({**one, **other}):
        if key not in other:
            yield f"{row_words(before, one[key])} is gone"
        elif key not in one:
            yield f"{row_words(after, other[key])} is new"
        elif not _is_same(before, before.rows[one[key] - 1][1], after, after.rows[other[key] - 1][1]):
            yield f"{row_words(before, one[key])} becomes {value_words(after, after.rows[other[key] - 1][1])}"


def _is_same(before: Table, one: str, after: Table, other: str) -> bool:
    """Whether two texts of values spell one value of one type."""
    read = READERS[before.values.name]
    return before.values == after.values and read(one) == read(other)


def _types(table: Table) -> str:
    """The types of a table, as people read them."""
    return f"{type_words(table.keys)} to {type_words(table.values)}"


def _gone(old: Rulebook, new: Rulebook) -> Iterator[Change]:
    fresh = [path for path in new.trees if path not in old.trees]
    for path in old.trees:
        if path not in new.trees:
            twin = next((it for it in fresh if _said(new, it) == _said(old, path)), None)
            yield Change(path, "is gone" + (f": perhaps it is called {twin} now" if twin else ""))


def _new(old: Rulebook, new: Rulebook) -> Iterator[Change]:
    for path, tree in new.trees.items():
        if path not in old.trees:
            how = "is answered" if tree.is_writable else f"follows from {new.shown(tree, tree.main)}" if tree.main else "follows"
            yield Change(path, f"is new: {tree.stated}, {how}")


def _said(rulebook: Rulebook, path: str) -> dict[str, Any]:
    """What is said of a fact beside its path and its description."""
    stated: dict[str, Any] = rulebook.stated["facts"][rulebook.trees[path].number - 1]
    return {key: part for key, part in stated.items() if key not in ("path", "description")}


def _changed(old: Rulebook, new: Rulebook) -> Iterator[Change]:
    for path, before in old.trees.items():
        if path in new.trees:
            for words in _of_fact(old, new, before, new.trees[path]):
                yield Change(path, words)


def _of_fact(old: Rulebook, new: Rulebook, before: FactTree, after: FactTree) -> Iterator[str]:
    if before.is_writable != after.is_writable:
        yield "is answered now, and followed" if after.is_writable else "follows now, and was answered"
    if before.stated != after.stated:
        yield f"type: {before.stated} becomes {after.stated}"
    yield from _limits(before, after)
    for name, one, other in (
        ("", before.main, after.main),
        ("conditional: ", before.test, after.test),
        ("conditional's value: ", before.value, after.value),
        ("placeholder: ", before.placeholder, after.placeholder),
    ):
        if one and other:
            yield from (f"{name}{old.shown(before, left)} becomes {new.shown(after, right)}" for left, right in apart(one, other))
        elif name and one:
            yield f"{name}{old.shown(before, one)} is gone"
        elif name and other:
            yield f"{name}{new.shown(after, other)} is new"
    descriptions = [rulebook.dictionary.facts[before.path].description for rulebook in (old, new)]
    if descriptions[0] != descriptions[1]:
        yield f"description: {descriptions[0] or 'none'} becomes {descriptions[1] or 'none'}"


def _limits(before: FactTree, after: FactTree) -> Iterator[str]:
    """Limits by their names, and each check for itself."""
    one, other = ({(name, text if name == "Check" else ""): text for name, text in tree.limits} for tree in (before, after))
    for name, check in {**one, **other}:
        words = [limit_words(name, limits[name, check], tree.stated) for limits, tree in ((one, before), (other, after)) if (name, check) in limits]
        if len(words) == 1:
            yield f"limit {words[0]} is {'gone' if (name, check) in one else 'new'}"
        elif words[0] != words[1]:
            yield f"limit {words[0]} becomes {words[1]}"


def apart(one: Node, other: Node) -> Iterator[tuple[Node, Node]]:
    """The smallest parts in which two expressions differ: not a constant or a path alone, but with what it is compared or added."""
    if one.name != other.name or one.texts != other.texts or len(one.operands) != len(other.operands):
        yield one, other
        return
    parts = [pair for left, right in zip(one.operands, other.operands) for pair in apart(left, right)]
    if one.name not in JOINING and any(not left.operands and not right.operands for left, right in parts):
        yield one, other
    else:
        yield from parts
