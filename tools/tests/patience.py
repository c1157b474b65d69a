"""How long tests wait for what has to come: as long as a machine with much other work may need."""
from __future__ import annotations

import time
from collections.abc import Callable

LONG = 1800
"""The seconds after which what hasn't come is taken to be lost."""


def until(holds: Callable[[], object], what: str) -> None:
    """Waits until something holds."""
    end = time.monotonic() + LONG
    while not holds():
        if time.monotonic() > end:
            raise AssertionError(f"it was waited in vain until {what}")
        time.sleep(0.05)
