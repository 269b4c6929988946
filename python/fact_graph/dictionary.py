"""What a dictionary says of its facts, for those who show them: types, limits, lists of options, tables, descriptions."""

from __future__ import annotations

import json
from dataclasses import dataclass
from typing import Any, NamedTuple

from .values import READERS, Answer, Value


class FactType(NamedTuple):
    """A type: its name, as `Dollar`, and what it is of, as the list of options of an Enum; None for most.

    >>> FactType("Enum", "tenure")
    FactType(name='Enum', of='tenure')
    """

    name: str
    of: str | None = None

    @classmethod
    def of_text(cls, text: str) -> FactType:
        """Of its text, as `Dollar`, `Enum(tenure)` or `Item(/people)`.

        >>> FactType.of_text("Item(/people)")
        FactType(name='Item', of='/people')
        """
        name, _, of = text.partition("(")
        return cls(name, of[:-1] or None)


class Limit(NamedTuple):
    """A limit: `Min`, `Max`, `MaxLength` or `Check`, and the text of the bound or the name of the check.

    >>> Limit("Max", "5000.00")
    Limit(name='Max', text='5000.00')
    """

    name: str
    text: str


@dataclass(frozen=True, slots=True)
class ListedFact:
    """A fact as the library lists it: its path, whether it is answered, where it isn't it follows from others, and its type.

    >>> from fact_graph import Session
    >>> Session.open("screener.json").facts()["/people/*/wages"]
    ListedFact(path='/people/*/wages', is_writable=True, type=FactType(name='Dollar', of=None))
    """

    path: str
    is_writable: bool
    type: FactType

    @classmethod
    def of_line(cls, line: str) -> ListedFact:
        """Of the library's line, as `/bill writable Dollar`.

        >>> ListedFact.of_line("/size derived Int")
        ListedFact(path='/size', is_writable=False, type=FactType(name='Int', of=None))
        """
        path, kind, type_text = line.split(" ", 2)
        return cls(path, kind == "writable", FactType.of_text(type_text))

    @property
    def collection(self) -> str | None:
        """The path of the collection whose members have the fact, or None where it stands once.

        >>> ListedFact.of_line("/people/*/wages writable Dollar").collection
        '/people'
        """
        return collection_of(self.path)


class Fact(NamedTuple):
    """A fact of a dictionary. That of a collection's members has a path like `/people/*/born`.

    >>> from fact_graph import Session
    >>> bill = Session.open("screener.json").dictionary.facts["/bill"]
    >>> bill.type, bill.limits, bill.description
    (FactType(name='Dollar', of=None), (Limit(name='Min', text='0'), Limit(name='Max', text='5000.00')), 'The heating bill of a year.')
    """

    path: str
    type: FactType
    is_writable: bool
    has_placeholder: bool
    limits: tuple[Limit, ...]
    description: str

    @property
    def collection(self) -> str | None:
        """The path of the collection whose members have the fact, or None where it stands once.

        >>> from fact_graph import Session
        >>> Session.open("screener.json").dictionary.facts["/people/*/born"].collection
        '/people'
        """
        return collection_of(self.path)


class Table(NamedTuple):
    """A table: its name, the types of its keys and of its values, its rows as pairs of texts, and the text of the value below the first.

    >>> aid = Table("mostAid", FactType("Int"), FactType("Dollar"), (("1", "291"), ("2", "535")), "0", "")
    >>> [aid.value(size) for size in (0, 1, 2, 9)]
    [Decimal('0'), Decimal('291'), Decimal('535'), Decimal('535')]
    """

    name: str
    keys: FactType
    values: FactType
    rows: tuple[tuple[str, str], ...]
    otherwise: str
    description: str

    @classmethod
    def stated(cls, stated: dict[str, Any]) -> Table:
        """Of its object in a dictionary that has no fault.

        >>> Table.stated({"name": "t", "from": "Int", "to": "Text", "rows": [["1", "a"]], "else": "b"}).rows
        (('1', 'a'),)
        """
        keys, values = FactType.of_text(stated["from"]), FactType.of_text(stated["to"])
        rows = tuple((key, value) for key, value in stated["rows"])
        return cls(stated["name"], keys, values, rows, stated["else"], stated.get("description", ""))

    def row(self, key: Answer) -> int:
        """The number of the row to which a key leads, from 1: the last whose own key is at most it; 0 where it is below them all.

        >>> Table("t", FactType("Int"), FactType("Text"), (("1", "a"), ("5", "b")), "", "").row(4)
        1
        """
        read: Any = READERS[self.keys.name]
        return sum(read(own) <= key for own, _ in self.rows)

    def value(self, key: Answer) -> Value:
        """What a key comes to.

        >>> Table("t", FactType("Int"), FactType("Text"), (("1", "a"), ("5", "b")), "none", "").value(0)
        'none'
        """
        row = self.row(key)
        return READERS[self.values.name](self.rows[row - 1][1] if row else self.otherwise)


class Dictionary(NamedTuple):
    """A dictionary that was accepted: its facts by their paths, in its order, and its lists of options and tables by their names.

    >>> from fact_graph import Session
    >>> dictionary = Session.open("screener.json").dictionary
    >>> dictionary.description
    'May a household get help with its heating bill?'
    >>> dictionary.options["tenure"]
    ('rents', 'owns', 'other')
    >>> [path for path, fact in dictionary.facts.items() if fact.has_placeholder]
    ['/savings']
    >>> dictionary.tables
    {}
    """

    facts: dict[str, Fact]
    options: dict[str, tuple[str, ...]]
    description: str
    tables: dict[str, Table]

    @classmethod
    def of_json(cls, text: bytes) -> Dictionary:
        """Of the bytes of a dictionary that has no fault.

        >>> list(Dictionary.of_json(b'{"version":"1","facts":[{"path":"/rent","writable":"Dollar"}]}').facts)
        ['/rent']
        """
        stated = json.loads(text)
        return cls(
            {fact["path"]: _fact(fact) for fact in stated["facts"]},
            {enum["name"]: tuple(enum["options"]) for enum in stated.get("enums", [])},
            stated.get("description", ""),
            {table["name"]: Table.stated(table) for table in stated.get("tables", [])},
        )

    def fact_at(self, slot: str) -> Fact:
        """The fact of a slot. Raises KeyError where there is none.

        >>> from fact_graph import Session
        >>> Session.open("screener.json").dictionary.fact_at("/people/#2/born").path
        '/people/*/born'
        """
        return self.facts[path_of(slot)]


def collection_of(path: str) -> str | None:
    """The path of the collection whose members have a fact, or None where it stands once.

    >>> collection_of("/people/*/born"), collection_of("/bill")
    ('/people', None)
    """
    front, star, _ = path.partition("/*/")
    return front if star else None


def path_of(slot: str) -> str:
    """The path of a slot's fact.

    >>> path_of("/people/#2/born"), path_of("/bill")
    ('/people/*/born', '/bill')
    """
    parts = slot.split("/")
    return f"/{parts[1]}/*/{parts[3]}" if len(parts) == 4 and parts[2].startswith("#") else slot


def _fact(stated: dict[str, Any]) -> Fact:
    return Fact(
        stated["path"],
        FactType.of_text(stated["writable"] if "writable" in stated else stated["derived"]),
        "writable" in stated,
        "placeholder" in stated,
        tuple(Limit(name, text) for name, text in stated.get("limits", [])),
        stated.get("description", ""),
    )
