"""The rules that come with the package, those of the tax years, and their pages.

    >>> is_built_in("year 2023"), is_built_in("screener.json")
    (True, False)
"""

from __future__ import annotations

import json
import re
from pathlib import Path
from typing import Any

from .session import BUILT_IN, BUILT_IN_WORDS, Session

PAGES = Path(__file__).with_name("pages")


def is_built_in(name: str) -> bool:
    """Whether a name is words for rules that come along, and none of a file."""
    return BUILT_IN_WORDS.fullmatch(name) is not None


def text_of(words: str) -> bytes:
    """The text of the rules that come along under these words. Raises `UnknownDictionary` where none do."""
    with Session.built_in(words) as session:
        return session.source


def page_of(words: str, language: str = "") -> bytes | None:
    """The page of these rules, or in a language its words alone, where they have one.

    What all of them say stands in one file, and what is said by those of a kind, as `year`, in another. Both leave room for the numbers.

    >>> page = json.loads(page_of("year 2024"))
    >>> page["labels"]["/married"], page["labels"]["/spouseDied"]
    ('Were you married on December 31, 2024?', 'Did your spouse die in 2022 or 2023?')
    """
    kind, _, year = words.partition(" ")
    own, common = (PAGES / ".".join(filter(None, (part, language, "page"))) for part in (kind, "common"))
    if words not in BUILT_IN or not own.is_file():
        return None
    whole = joined(*(json.loads(part.read_text(encoding="utf-8")) for part in (own, common)))
    return json.dumps(with_numbers(whole, numbers_of(int(year), text_of(words))), ensure_ascii=False, indent=2).encode()


def numbers_of(year: int, rules: bytes) -> dict[str, object]:
    """What the pages leave room for: the gross income that a qualifying relative stays below, and what is worked out of the year.

    >>> numbers_of(2024, text_of("year 2024"))
    {'year': 2024, 'before': 2023, 'two_before': 2022, 'birth_year': 1960, 'gross_income': '$5,050'}
    """
    [relative] = [fact for fact in json.loads(rules)["facts"] if fact["path"] == "/dependents/*/qualifyingRelative"]
    [limit] = [float(spelled) for spelled in re.findall(r'\["Dollar", "([^"]+)"\]', json.dumps(relative["is"]))]
    return {"year": year, "before": year - 1, "two_before": year - 2, "birth_year": year - 64, "gross_income": f"${limit:,.0f}"}


def joined(own: Any, common: Any) -> Any:
    """Both in one: objects key by key, and lists one behind the other; else what is the own.

    >>> joined({"a": ["own"], "b": "own"}, {"a": ["common"], "b": "common", "c": "common"})
    {'a': ['own', 'common'], 'b': 'own', 'c': 'common'}
    """
    if isinstance(own, dict):
        return {**own, **{key: joined(own[key], it) if key in own else it for key, it in common.items()}}
    return own + common if isinstance(own, list) else own


def with_numbers(stated: Any, numbers: dict[str, object]) -> Any:
    """The same with its numbers.

    >>> with_numbers({"a": ["of {year}"]}, {"year": 2023})
    {'a': ['of 2023']}
    """
    if isinstance(stated, dict):
        return {key: with_numbers(it, numbers) for key, it in stated.items()}
    return [with_numbers(it, numbers) for it in stated] if isinstance(stated, list) else stated.format_map(numbers)
