"""Faults of paths: those that have no form, that stand twice, that name what isn't there or isn't meant so."""

from __future__ import annotations

from collections.abc import Iterator

from ..expressions import FactTree
from ..uses import OVER_COLLECTIONS, OVER_FIELDS, WITH_CONDITION, Use, Used, Uses, collection_of, home_of, is_fact_path, item_of, type_of
from .finding import Finding, nearest
from .parts import NAME_RULE

FORMS_OF_USES = "`/rent`, `../age`, `age`, `/people/*/age`, `/eldest/age` and `../partner/age`"


def path_faults(trees: list[FactTree], uses: Uses) -> Iterator[Finding]:
    """What is wrong with the paths of all facts."""
    for tree in trees:
        for finding in _fact(tree, uses):
            yield finding._replace(fact=tree.number)
        for used in uses.in_fact(tree):
            for finding in _use(used, uses):
                yield finding._replace(fact=tree.number)


# ---- of a fact


def _fact(tree: FactTree, uses: Uses) -> Iterator[Finding]:
    path = (*tree.pointer, "path")
    if not is_fact_path(tree.path):
        hint = "a path is `/rent`, or `/people/*/age` for each member of a collection"
        yield Finding("BadPath", path, f"`{tree.path}` is no path of a fact: {NAME_RULE}", hint)
    elif uses.by_path[tree.path] is not tree:
        earlier = uses.by_path[tree.path]
        yield Finding("DuplicatePath", path, f"fact {earlier.number} has the path `{tree.path}`, too", related=((*earlier.pointer, "path"),))
    home = home_of(tree)
    if home and not uses.may_have_members(home):
        yield _no_members(tree, home, uses)
    yield from _type(tree, uses)
    if home and (tree.stated == "Collection" or collection_of(tree.stated) is not None):
        key = "writable" if tree.is_writable else "derived"
        yield Finding("WrongPlace", (*tree.pointer, key), "the members of a collection have no collection of their own", related=(path,))


def _no_members(tree: FactTree, home: str, uses: Uses) -> Finding:
    found = uses.by_path.get(home)
    related = (found.pointer,) if found else ()
    if found:
        reason = f"`{tree.path}` is a fact of the members of `{home}`, and `{home}` is no writable collection"
        return Finding("NoCollection", (*tree.pointer, "path"), reason, f"fact {found.number} has to say `\"writable\":\"Collection\"`", related=related)
    reason = f"`{tree.path}` is a fact of the members of `{home}`, and there is no `{home}`"
    return Finding("NoCollection", (*tree.pointer, "path"), reason, _collection_like(home, uses) or f'add {{"path":"{home}","writable":"Collection"}}')


def _collection_like(path: str, uses: Uses) -> str:
    like = nearest(path, [it for it in uses.by_path if uses.is_writable_collection(it)])
    return f"`{like}` is a collection like it" if like else ""


def _type(tree: FactTree, uses: Uses) -> Iterator[Finding]:
    """What is wrong with the path that a derived type names."""
    base = None if tree.is_writable else collection_of(tree.stated)
    if base is None and not tree.is_writable:
        base = item_of(tree.stated)
    if base is None:
        return
    pointer = (*tree.pointer, "derived")
    if not is_fact_path(base) or "*" in base:
        yield Finding("BadPath", pointer, f"`{base}` is no path of a collection", "a type is as `Collection(/people)` or `Item(/people)`")
    elif not uses.may_have_members(base):
        found = uses.by_path.get(base)
        reason = f"`{base}` is no writable collection" if found else f"there is no `{base}`"
        hint = _collection_like(base, uses)
        if found and collection_of(type_of(found)):
            hint = f"its members are those of `{collection_of(type_of(found))}`: name that"
        yield Finding("NoCollection", pointer, reason, hint, related=(found.pointer,) if found else ())


# ---- of a use


def _use(used: Used, uses: Uses) -> Iterator[Finding]:
    node, use = used.node, used.use
    pointer = (*node.pointer, 1)
    if used.scope.is_condition and node.name in (*WITH_CONDITION, *OVER_FIELDS):
        reason = f"a {node.name} doesn't stand in the condition of a Filter or a Find"
        yield Finding("WrongPlace", node.pointer, reason, "give it a fact of its own, and depend on that")
    if use is None:
        yield Finding("BadPath", pointer, f"`{node.texts[0]}` is no path", f"paths are as {FORMS_OF_USES}")
        return
    if used.first and used.first.is_read:
        yield from _misread(used, use, used.first)
    if not _is_in_place(used, use):
        yield _out_of_place(used, use)
        return
    missing = next((path for path, found in zip(used.paths, (used.first, used.second)) if path and not found), None)
    if missing:
        yield _unknown(used, missing, uses)


def _misread(used: Used, use: Use, first: FactTree) -> Iterator[Finding]:
    name, stated = used.node.name, type_of(first)
    pointer = (*used.node.pointer, 1)
    related = ((*first.pointer, "writable" if first.is_writable else "derived"), (*first.pointer, "path"))
    if name in (*OVER_COLLECTIONS, *OVER_FIELDS) and collection_of(stated) is None:
        yield Finding("NoCollection", pointer, f"{name} is of a collection, and `{first.path}` is {_a(stated)}", related=related)
    elif use.form in ("through", "sibling through") and item_of(stated) is None:
        reason = f"`{use.names[1]}` is read of the member that `{first.path}` names, and `{first.path}` is {_a(stated)}"
        is_collection = collection_of(stated) is not None
        hint = f"`/{use.names[0]}/*/{use.names[1]}` is that of all members, in a CollectionSum or a Count" if is_collection else "an item is found by a Find"
        yield Finding("NoCollection", pointer, reason, hint, related=related)


def _a(stated: str) -> str:
    return f"{'an' if stated[0] in 'IE' else 'a'} {stated}"


def _is_in_place(used: Used, use: Use) -> bool:
    name = used.node.name
    if name in OVER_FIELDS:
        return use.form == "each"
    if use.form == "fact":
        return True
    if name in OVER_COLLECTIONS or use.form == "each":
        return False
    if use.form == "inner":
        return used.scope.is_condition
    return use.form == "through" or used.scope.home is not None


def _out_of_place(used: Used, use: Use) -> Finding:
    name, path = used.node.name, used.node.texts[0]
    pointer = (*used.node.pointer, 1)
    last = use.names[-1]
    if name in OVER_FIELDS:
        reason = f"{name} takes a fact of all members, and `{path}` isn't one"
        return Finding("WrongPlace", pointer, reason, f"write `/people/*/{last}` with the collection's name")
    if name in OVER_COLLECTIONS:
        reason = f"{name} takes the path of a collection, and `{path}` is of another form"
        return Finding("WrongPlace", pointer, reason, f"write `/{use.names[0]}`, if that is the collection")
    if use.form == "each":
        return Finding("WrongPlace", pointer, f"`{path}` are many results, and a {name} takes one", "a CollectionSum or a Count takes all of them")
    if use.form == "inner":
        hint = f"write `/{last}`, or `../{last}` for the same member's" if used.scope.home else f"write `/{last}`"
        return Finding("WrongPlace", pointer, f"`{path}` is a fact of the member that a Filter or a Find tests, and this stands in neither", hint)
    reason = f"`{path}` is a fact of the same member, and this fact is of no collection's members"
    return Finding("WrongPlace", pointer, reason, f"write `/{'/'.join(use.names)}`")


def _unknown(used: Used, missing: str, uses: Uses) -> Finding:
    collection, star, name = missing.partition("/*/")
    if star:
        among = [it for it in uses.by_path if it.startswith(f"{collection}/*/")]
        near = nearest(name, [it.partition("/*/")[2] for it in among])
        found = f"{collection}/*/{near}" if near else nearest(missing, uses.by_path)
        named = used.node.texts[0][: -len(name)] + near if near else ""
    else:
        found = nearest(missing, uses.by_path) or _anywhere(missing[1:], uses)
        named = found or ""
    reason = f"there is no fact `{missing}`" + ("" if missing == used.node.texts[0] else f", which `{used.node.texts[0]}` names here")
    if not found:
        return Finding("UnknownPath", (*used.node.pointer, 1), reason, "add the fact, or correct the name")
    tree = uses.by_path[found]
    hint = f"`{named}` is like it" if named and "*" not in named else f"fact {tree.number} is `{found}`"
    return Finding("UnknownPath", (*used.node.pointer, 1), reason, hint, related=((*tree.pointer, "path"),))


def _anywhere(name: str, uses: Uses) -> str | None:
    """A fact of members with this name."""
    return next((path for path in uses.by_path if path.endswith(f"/*/{name}")), None)
