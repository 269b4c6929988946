"""The load that anyone can repeat, with each number of sums that it may have."""
from collections.abc import Iterator

from stored_cases import Made

SUMS = range(1, 1_001)


def usage(words: list[str]) -> Made:
    return (f"{' '.join(words)!r} has no form", words, None, b"", b"usage: interview COMMAND ARGUMENTS\n", 2)


def load(n: int, script: bytes = b"") -> Made:
    """Each of the members, one for each sum and a hundred at most, is added; so many rounds as there are sums answer them in turn by 1, 2, 3 ..
    and ask for the last sum each, which is incomplete until all are answered. Undone, all are unanswered; redone, they have their last answers."""
    members = min(n, 100)
    incomplete, complete = members - 1 + 1, n - (members - 1) + 1
    # each sum is one more than the sum before it, and the first one sums up the answers, each and one
    last = sum(answer + 1 for answer in range(n - members + 1, n + 1)) + n - 1
    text = (
        f"gen {n}\nfacts {n + 3} nodes {3 * n + 1} lines {members + 2 * n + 2 * (n + 1)}\n"
        f"complete {complete} placeholder 0 incomplete {incomplete} fault 0 refused 0\nlast complete {last}\n"
    )
    return (f"a load of {n} sums", ["gen", str(n)], None, script, text.encode(), 0)


def cases() -> Iterator[Made]:
    for n in SUMS:
        yield load(n)
    # the given script isn't read
    yield load(2, b"quit\nno command\n")
    for number in ("0", "01", "1001", "1000000", "1000001", "99999999999999999999", "-1", "+1", "2 ", " 2", "", "two", "2.0"):
        yield usage(["gen", number])
    yield usage(["gen"])
    yield usage(["gen", "2", "3"])
    yield usage(["Gen", "2"])
