"""JSON with places, beside the standard library's reader."""

import json
import math

import pytest
from hypothesis import HealthCheck, given, settings
from hypothesis import strategies as st

from fact_graph.located import MOST_NESTING, Document, NotJson, Place, read

VALUES = st.recursive(
    st.none() | st.booleans() | st.integers() | st.floats(allow_nan=False, allow_infinity=False) | st.text(),
    lambda inner: st.lists(inner, max_size=4) | st.dictionaries(st.text(max_size=5), inner, max_size=4),
    max_leaves=20,
)
MARKS = [*'{}[],:" \n\t\\/-+.0123456789eEaunltrfsd\u00e9\U0001f600\x01', "true", "null", '"a"', "\\u00", "\\ud83d", "\\ude00"]
TEXTS = st.lists(st.sampled_from(MARKS)).map("".join)

PATIENT = settings(deadline=None, suppress_health_check=[HealthCheck.too_slow])
"""A machine may be busy."""


def parts(value: object, pointer: tuple[str | int, ...] = ()) -> list[tuple[tuple[str | int, ...], object]]:
    """Each part of a value with what leads to it."""
    keys = list(value.items()) if isinstance(value, dict) else list(enumerate(value)) if isinstance(value, list) else []
    return [(pointer, value), *(it for key, part in keys for it in parts(part, (*pointer, key)))]


def offset(document: Document, place: Place) -> int:
    """The number of the character at a place."""
    return sum(len(line) + 1 for line in document.text.split("\n")[: place.line - 1]) + place.column - 1


def said_by_json(text: str) -> object:
    """What the standard library reads, less what it takes beyond JSON; a text that is none raises ValueError."""

    def no_constant(word: str) -> None:
        raise ValueError(word)

    value = json.loads(text, parse_constant=no_constant)
    for _, part in parts(value):
        if isinstance(part, float) and math.isinf(part):
            raise ValueError("too large")
        for word in [part] if isinstance(part, str) else list(part) if isinstance(part, dict) else []:
            word.encode()  # half of a character can't be
    return value


@PATIENT
@given(VALUES, st.sampled_from([None, 0, 1, 3]))
def test_values_are_read_and_each_part_stands_at_its_place(value: object, indent: int | None) -> None:
    document = read(json.dumps(value, indent=indent, ensure_ascii=False).encode())
    assert document.value == value
    for pointer, part in parts(value):
        found, _ = json.JSONDecoder().raw_decode(document.text, offset(document, document.place(pointer)))
        assert found == part
        if pointer and isinstance(pointer[-1], str):
            key, _ = json.JSONDecoder().raw_decode(document.text, offset(document, document.key_place(pointer)))
            assert key == pointer[-1]


@PATIENT
@given(TEXTS)
def test_a_text_is_json_exactly_where_the_standard_library_says_so(text: str) -> None:
    try:
        due = said_by_json(text)
    except ValueError:
        with pytest.raises(NotJson) as raised:
            read(text.encode())
        line = text.split("\n")[raised.value.place.line - 1]
        assert 1 <= raised.value.place.column <= len(line) + 1
    else:
        assert read(text.encode()).value == due


@PATIENT
@given(VALUES, st.data())
def test_one_wrong_character_is_found_where_it_stands_or_behind_it(value: object, data: st.DataObject) -> None:
    text = json.dumps(value)
    at = data.draw(st.integers(0, len(text)))
    changed = text[:at] + data.draw(st.sampled_from("}],:'/")) + text[at:]
    try:
        said_by_json(changed)
    except ValueError:
        with pytest.raises(NotJson) as raised:
            read(changed.encode())
        column = raised.value.place.column - 1
        # the place may be where the text, the word or the number begins that it was put into, or the comma before it
        assert column >= at or changed[column] in '",' or not set(changed[column:at]) & set(' ,[]{}:"')


@pytest.mark.parametrize(
    ("text", "place", "said"),
    [
        (b"\xef\xbb\xbf{}", (1, 1), "a byte-order mark"),
        (b'{"a":\n "\xe9"}', (2, 3), "the byte e9 isn't UTF-8"),
        (b'{"a":1,\n}', (1, 7), "a comma too many"),
        (b'{"a" 1}', (1, 6), "a colon belongs behind a key"),
        (b'{"a":1\n "b":2}', (2, 2), "a comma or `}` belongs here"),
        (b"{'a':1}", (1, 2), "a key in double quotes belongs here"),
        (b"['a']", (1, 2), "single quotes"),
        (b"[1, // one\n2]", (1, 5), "a comment stands here"),
        (b'["a]', (1, 2), "a quote is missing"),
        (b'["a\nb"]', (1, 4), "the end of a line stands within a text"),
        (b'["\\x"]', (1, 3), "a backslash"),
        (b'["\\ud800"]', (1, 2), "half of a character"),
        (b"[1e999]", (1, 2), "too large"),
        (b"[01]", (1, 3), "a number ends here"),
        (b"[1] 2", (1, 5), "nothing belongs behind the last bracket"),
        (b"[" * (MOST_NESTING + 1), (1, MOST_NESTING + 1), "127 deep"),
        (b"", (1, 1), "the text ends here"),
    ],
)
def test_each_fault_has_its_place_and_its_reason(text: bytes, place: tuple[int, int], said: str) -> None:
    with pytest.raises(NotJson) as raised:
        read(text)
    assert raised.value.place == place
    assert said in raised.value.reason


def test_a_key_that_stands_twice_is_told_and_its_last_value_counts() -> None:
    document = read(b'{"a": {"b": 1},\n "a": 2}')
    assert document.value == {"a": 2}
    assert document.repeated == [(("a",), Place(2, 2))]
    assert document.place(("a",)) == Place(2, 7)
