"""Waits for what another process does, with a bound: a test whose process does not do it fails, and does not hang."""

import contextlib
import signal
import time
from typing import Callable, Iterator

#: The seconds after which what a test waits for is missing.
LIMIT = 60


@contextlib.contextmanager
def time_limit(seconds: int) -> Iterator[None]:
    """Raises `AssertionError` if the block takes more than `seconds`, also while it waits for another process."""

    def end(*_: object) -> None:
        raise AssertionError(f"it has not ended after {seconds} s")

    was = signal.signal(signal.SIGALRM, end)
    signal.alarm(seconds)
    try:
        yield
    finally:
        signal.alarm(0)
        signal.signal(signal.SIGALRM, was)


def wait_until(is_so: Callable[[], bool], what: str) -> None:
    """Returns when `is_so` returns true. Raises `AssertionError` with `what` after `LIMIT` seconds."""
    ends = time.monotonic() + LIMIT
    while not is_so():
        if time.monotonic() > ends:
            raise AssertionError(f"{what} is missing after {LIMIT} s")
        time.sleep(0.02)
