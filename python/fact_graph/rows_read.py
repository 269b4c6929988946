"""Which rows of tables stand behind a result, where the rule reads them for a fact, a constant or another row.

    >>> from fact_graph import Session
    >>> session = Session('''{"version":"law-1",
    ...   "tables":[{"name":"mostAid","from":"Int","to":"Dollar","rows":[["1","291"],["2","535"]],"else":"0"}],
    ...   "facts":[{"path":"/size","writable":"Int"},
    ...            {"path":"/aid","derived":"Dollar","is":["Lookup","mostAid",["Dependency","/size"]]}]}''')
    >>> session["/size"] = 7
    >>> RowsRead(session).of(session.why("/aid"))
    ['table mostAid, from 2: $535']

What a case of a Switch or a condition on members reads isn't told, nor what is read for a sum.
"""

from __future__ import annotations

from collections.abc import Iterator

from .dictionary import path_of
from .explanation import Explanation
from .expressions import FactTree, Node
from .rulebook import Rulebook, row_words
from .session import Session
from .uses import WITH_CONDITION
from .values import READERS, Answer

NOT_SURE = ("Switch", *WITH_CONDITION)
"""The nodes of whose operands not all are read, or not once."""
NUMBERED = ("Int", "Dollar", "Day")
"""The constants for which a table is read."""


class RowsRead:
    """The rows of tables that stand behind results of a session."""

    def __init__(self, session: Session) -> None:
        self._session = session
        self._rulebook = Rulebook(session.source)

    def of(self, it: Explanation) -> list[str]:
        """The rows that the rule of a slot itself reads, in words."""
        tree = self._rulebook.trees[path_of(it.slot)]
        stands_in = tree.placeholder is not None and it.result.kind == "placeholder"
        if tree.main is None or tree.test or it.is_overridden or stands_in:
            return []
        return list(dict.fromkeys(self._words(tree, tree.main, it.slot)))

    def _words(self, tree: FactTree, node: Node, slot: str) -> Iterator[str]:
        if node.name in NOT_SURE:
            return
        if node.name == "Lookup":
            table, key = self._rulebook.dictionary.tables[node.texts[0]], self._key(tree, node.operands[0], slot)
            if key is not None:
                yield f"table {table.name}, {row_words(table, table.row(key))}"
        for operand in node.operands:
            yield from self._words(tree, operand, slot)

    def _key(self, tree: FactTree, node: Node, slot: str) -> Answer | None:
        """What a node comes to, where that is told without working it out."""
        value = None
        if node.name in NUMBERED:
            value = READERS[node.name](node.texts[0])
        elif node.name == "Dependency":
            named = self._named(tree, node, slot)
            value = self._session.get(named).value if named else None
        elif node.name == "Lookup":
            key = self._key(tree, node.operands[0], slot)
            value = None if key is None else self._rulebook.dictionary.tables[node.texts[0]].value(key)
        return None if isinstance(value, tuple) else value

    def _named(self, tree: FactTree, node: Node, slot: str) -> str | None:
        """The slot that a path names in the end; None where an item on the way isn't there."""
        first, *rest = self._rulebook.targets(tree, node)
        named = first.replace("*", slot.split("/")[2]) if "*" in first else first
        for path in rest:
            item = self._session.get(named).value
            if item is None:
                return None
            named = path.replace("*", f"#{item}")
        return named
