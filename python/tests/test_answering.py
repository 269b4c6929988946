"""How the lines of a session are answered: by the compiled module, and by ctypes in the same way."""

# pylint: disable=protected-access # what answers is the package's own

from __future__ import annotations

import ctypes
import importlib.util
from collections.abc import Callable
from types import SimpleNamespace
from typing import Any, cast

import pytest
from compiled_module import NAME, build_compiled

from fact_graph import _answering
from fact_graph._answering import ROOM
from fact_graph._library import Library

# As the library has them, and as the package calls the first: a session is a struct of one pointer, and addresses are numbers.
ANSWER = ctypes.CFUNCTYPE(ctypes.c_uint32, ctypes.c_void_p, ctypes.c_void_p, ctypes.c_size_t, ctypes.c_void_p, ctypes.c_void_p)
CALLED = ctypes.CFUNCTYPE(ctypes.c_uint32, ctypes.c_void_p, ctypes.c_char_p, ctypes.c_size_t, ctypes.c_void_p, ctypes.c_void_p)
READ = ctypes.CFUNCTYPE(ctypes.c_size_t, ctypes.c_void_p, ctypes.c_size_t, ctypes.c_void_p, ctypes.c_size_t, ctypes.c_void_p)


class Echo:
    """What says each line again, as the library says its replies; a line of digits it ends with that number."""

    def __init__(self) -> None:
        self.text = b""
        self.graph, self.size = ctypes.c_void_p(1), ctypes.c_size_t()
        self._answers = ANSWER(self._answer)
        called = CALLED(_answering._address(self._answers))
        self.calls = cast(Library, SimpleNamespace(answer=called, read=READ(self._read)))

    def _answer(self, _graph: int, line: int, size: int, text_size: int, _back: int) -> int:
        given = ctypes.string_at(line, size)
        if given.isdigit():
            return int(given)
        self.text = given
        ctypes.c_size_t.from_address(text_size).value = len(given)
        return 0

    def _read(self, _graph: int, at: int, out: int, out_size: int, _back: int) -> int:
        piece = self.text[at:at + out_size]
        ctypes.memmove(out, piece, len(piece))
        return len(piece)


@pytest.fixture(name="compiled", scope="session")
def _compiled(tmp_path_factory: pytest.TempPathFactory) -> Any:
    """The compiled module, whichever way the package goes in this run."""
    spec = importlib.util.spec_from_file_location(NAME, build_compiled(tmp_path_factory.mktemp("compiled")))
    assert spec and spec.loader
    module = importlib.util.module_from_spec(spec)
    spec.loader.exec_module(module)
    return module


@pytest.fixture(name="answer", params=["compiled", "ctypes"])
def _answer(request: pytest.FixtureRequest, compiled: Any, monkeypatch: pytest.MonkeyPatch) -> Callable[[Any], str | int]:
    """What answers the lines of an echo, in each of the two ways."""
    monkeypatch.setattr(_answering, "compiled", compiled.answer, raising=False)
    monkeypatch.setattr(_answering, "IS_COMPILED", request.param == "compiled")
    echo = Echo()
    answer = _answering.answering(echo.calls, echo.graph, echo.size)
    return lambda line, _echo=echo: answer(line)  # type: ignore[misc] # which keeps the echo


def test_the_run_goes_the_way_that_it_names(pytestconfig: pytest.Config) -> None:
    assert _answering.IS_COMPILED == (pytestconfig.getoption("by") == "compiled")


@pytest.mark.parametrize("size", [0, 1, ROOM - 1, ROOM, ROOM + 1, 70_000])
def test_a_text_comes_whole(answer: Callable[[Any], str | int], size: int) -> None:
    text = ("a€🙂" * (size // 8 + 1)).encode()[:size].decode(errors="ignore")
    assert answer(text) == answer(text.encode()) == text


def test_a_line_may_have_any_character(answer: Callable[[Any], str | int]) -> None:
    assert answer("set /t a\0b\r") == "set /t a\0b\r"


@pytest.mark.parametrize("how", [1, 2, 7, 2**32 - 1])
def test_a_call_without_a_text_says_how_it_ended(answer: Callable[[Any], str | int], how: int) -> None:
    assert answer(str(how)) == how


def test_what_is_no_text_is_an_error(answer: Callable[[Any], str | int]) -> None:
    with pytest.raises(UnicodeEncodeError):
        answer("set /t \ud800")
    for line in (None, 5, 2.5):
        with pytest.raises(TypeError):
            answer(line)


def test_the_compiled_module_takes_addresses_alone(compiled: Any) -> None:
    for given in ((), (1, 2, 3, 4), (1, 2, 3, 4, "get /a", 6)):
        with pytest.raises(TypeError):
            compiled.answer(*given)
    for at in range(4):
        for wrong, error in ((0, ValueError), ("1", TypeError), (2**64, OverflowError)):
            with pytest.raises(error):
                compiled.answer(*[1] * at, wrong, *[1] * (3 - at), "get /a")
