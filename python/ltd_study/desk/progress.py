"""A progress bar on standard error, where that is a terminal."""

import sys
import time
from types import TracebackType
from typing import Optional, Type

WIDTH = 30
_SECONDS_BETWEEN = 0.1


class Progress:
    """How far some work is. It is drawn ten times a second at most, and wiped at the end."""

    def __init__(self, what: str, total: int) -> None:
        self._what, self._total, self._drawn_at, self._drawn = what, total, 0.0, False
        self._on = total > 0 and sys.stderr is not None and sys.stderr.isatty()

    def at(self, done: int) -> None:
        """Says how much of the total is done."""
        if not self._on:
            return
        now = time.monotonic()
        if now - self._drawn_at >= _SECONDS_BETWEEN:
            self._drawn_at = now
            self._draw(min(done, self._total))

    def _draw(self, done: int) -> None:
        full = WIDTH * done // self._total
        sys.stderr.write(f"\r{self._what} [{'#' * full}{'.' * (WIDTH - full)}] {100 * done // self._total:3} %")
        sys.stderr.flush()
        self._drawn = True

    def __enter__(self) -> "Progress":
        return self

    def __exit__(self, kind: Optional[Type[BaseException]], error: Optional[BaseException], trace: Optional[TracebackType]) -> None:
        if self._drawn:
            sys.stderr.write("\r" + " " * (len(self._what) + WIDTH + 9) + "\r")
            sys.stderr.flush()
