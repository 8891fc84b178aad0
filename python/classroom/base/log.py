"""What is told on standard error: by `logging`, each line behind the name of the command."""
from __future__ import annotations

import logging
import sys
import time
from collections.abc import Callable, Iterator
from contextlib import contextmanager


class Handler(logging.Handler):
    """Writes to what is standard error at the moment, whatever its encoding is."""

    def emit(self, record: logging.LogRecord) -> None:
        line = f"classroom: {self.format(record)}"
        try:
            print(line.encode("utf-8", "backslashreplace").decode(), file=sys.stderr, flush=True)
        except (OSError, ValueError):
            self.handleError(record)


def begin(is_verbose: bool) -> None:
    """Warnings and errors are told, with `--verbose` also what is done meanwhile."""
    logger = logging.getLogger("classroom")
    logger.handlers[:] = [Handler()]
    logger.propagate = False
    logger.setLevel(logging.DEBUG if is_verbose else logging.WARNING)


@contextmanager
def progress(count: int, is_shown: bool) -> Iterator[Callable[[], None]]:
    """Shows on standard error how many of so many steps are done, each time that what it gives is
    called."""
    done, begun, shown = 0, time.monotonic(), 0.0

    def step() -> None:
        nonlocal done, shown
        done += 1
        now = time.monotonic()
        if is_shown and (now - shown >= 0.2 or done == count):
            shown = now
            left = round((now - begun) / done * (count - done))
            print(
                f"\r{done} of {count}, {done * 100 // count}%, {left} s left   ",
                end="",
                file=sys.stderr,
                flush=True,
            )

    try:
        yield step
    finally:
        if is_shown and done:
            print(file=sys.stderr, flush=True)
