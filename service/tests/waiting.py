"""How long tests wait for what is to come: each wait has an end, and then says what it waited for."""

from __future__ import annotations

import time
from collections.abc import Callable

SECONDS = 600
"""After so long without what it waits for, a test has failed. It is far more than a slow machine takes."""
PAUSE = 0.1


def wait_until(what: str, is_so: Callable[[], object]) -> None:
    """Waits until something is so. Raises TimeoutError, which says what, where it isn't in time.

    >>> wait_until("a list has a member", lambda: [1])
    """
    until = time.monotonic() + SECONDS
    while not is_so():
        if time.monotonic() > until:
            raise TimeoutError(f"{what}: not within {SECONDS} seconds")
        time.sleep(PAUSE)
