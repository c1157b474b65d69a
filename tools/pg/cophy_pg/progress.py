"""What goes to the standard error."""
from __future__ import annotations

import contextlib
import functools
import sys
import time

from cophy_pg.speed import duration

SOON, EVERY, LONG = 1.0, 30.0, 10.0
"""A step is told after so many seconds, and then so often how far it is; that so many are left is told."""


class Progress:
    """Tells what is being done once it has taken some time, and how far it is."""

    def __init__(self) -> None:
        self.begun = self.told = time.monotonic()
        self.is_new = True

    def __call__(self, text: str) -> None:
        now = time.monotonic()
        if now - self.told > (SOON if self.is_new else EVERY):
            self.told, self.is_new = now, False
            say(f"{text}, {now - self.begun:.0f} s so far")

    def tell_rest(self, text: str, seconds: float) -> None:
        """Tells about how long all that is left takes, where it is long enough to be waited for."""
        if seconds >= LONG:
            say(f"{text}: about {duration(seconds)} more")

    def still(self, text: str) -> None:
        """Tells how far that has come which was told last."""
        self(text)


def say(text: str) -> None:
    """Writes a line to the standard error, where somebody reads it."""
    with contextlib.suppress(BrokenPipeError):
        print(f"cophy-pg: {text}", file=sys.stderr, flush=True)


@functools.cache
def say_once(text: str) -> None:
    """Writes a line that a call comes upon several times."""
    say(text)
