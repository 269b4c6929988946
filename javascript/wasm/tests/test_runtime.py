"""The runtime in C, built for this machine under the sanitizers: its arithmetic and its powers against Python's integers, and its heap."""

import random
import struct
import subprocess
from collections.abc import Iterator
from pathlib import Path

import pytest

from retarget import bytes_of_powers

HERE = Path(__file__).resolve().parent
RUNTIME = HERE.parent / "runtime"
SANITIZED = ["-g", "-O1", "-fsanitize=address,undefined", "-fno-sanitize-recover=all"]
WARNINGS = ["-Wall", "-Wextra", "-Wpedantic", "-Wconversion", "-Werror"]
ALL = 2**128 - 1
PAIRS = 200_000


@pytest.fixture(scope="session", name="host")
def built_host(tmp_path_factory: pytest.TempPathFactory) -> Path:
    """The program that runs the runtime here."""
    host = tmp_path_factory.mktemp("runtime") / "host"
    sources = [HERE / "host.c", *(RUNTIME / name for name in ("heap.c", "powers.c", "wide.c"))]
    subprocess.run(["cc", "-std=c11", *WARNINGS, *SANITIZED, f"-I{RUNTIME}", *sources, "-o", host], check=True)
    return host


def some_number(chance: random.Random) -> int:
    """A number of any size, most often one with long runs of equal bits."""
    bits = chance.randrange(129)
    number = chance.getrandbits(128) & ((1 << bits) - 1)
    kind = chance.randrange(6)
    if kind == 0:
        number = (1 << bits) - chance.randrange(3)
    elif kind == 1:
        number = ALL ^ number
    elif kind == 2:
        number |= chance.randrange(4) << 126
    return number & ALL


def cases(chance: random.Random) -> Iterator[tuple[int, int, int]]:
    """Two numbers, of which the second isn't 0, and a shift. In every fifth case the guess of a quotient's digit is off."""
    for number in range(PAIRS):
        dividend, divisor = some_number(chance), some_number(chance)
        if number % 5 == 0:
            divisor = dividend // (some_number(chance) % 65_536 + 1) + chance.randrange(3)
        yield dividend, divisor & ALL or 1, chance.randrange(128)


def due(dividend: int, divisor: int, shift: int) -> tuple[int, ...]:
    """What Python's integers give."""
    signed = dividend - (1 << 128) if dividend >> 127 else dividend
    numbers = (dividend // divisor, dividend % divisor, dividend * divisor, dividend << shift, dividend >> shift, signed >> shift)
    return tuple(number & ALL for number in numbers)


@pytest.mark.parametrize("seed", [1, 2])
def test_arithmetic_is_that_of_integers(host: Path, seed: int) -> None:
    """Quotient, rest, product and shifts."""
    given = list(cases(random.Random(seed)))
    records = b"".join(a.to_bytes(16, "little") + b.to_bytes(16, "little") + struct.pack("<Q", shift) for a, b, shift in given)
    ended = subprocess.run([host, "wide"], input=records, capture_output=True, check=True)
    came = [int.from_bytes(ended.stdout[at : at + 16], "little") for at in range(0, len(ended.stdout), 16)]
    assert len(came) == 6 * PAIRS
    for number, case in enumerate(given):
        assert tuple(came[6 * number : 6 * number + 6]) == due(*case), case


def test_the_powers_of_5_are_those_of_integers(host: Path) -> None:
    """All of them, as the module's constant has them that they stand for."""
    assert subprocess.run([host, "powers"], capture_output=True, check=True).stdout == bytes_of_powers()


@pytest.mark.parametrize("seed", range(1, 5))
def test_blocks_keep_their_bytes_and_all_memory_comes_back(host: Path, seed: int) -> None:
    """300,000 random steps; the heap is walked over every hundred."""
    subprocess.run([host, "heap", str(seed)], check=True)


def test_division_by_zero_traps(host: Path) -> None:
    """As the instruction of WebAssembly for 64 bits does."""
    assert subprocess.run([host, "wide"], input=bytes(40), capture_output=True, check=False).returncode != 0
