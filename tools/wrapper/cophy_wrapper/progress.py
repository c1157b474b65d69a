"""What a build tells on the standard error while it runs."""
from __future__ import annotations

import sys
import time
from collections.abc import Callable


def say(text: str) -> None:
    """Writes a line to the standard error, and not to the standard output, which is the program's."""
    print(f"cophy: {text}", file=sys.stderr, flush=True)


class Progress:
    """Tells what is being proved: on a terminal in one line that is written over each second, else in a line each minute."""

    def __init__(self) -> None:
        self._begun = time.monotonic()
        self._is_terminal = sys.stderr.isatty()

    def so_far(self) -> str:
        """How long the build takes already."""
        seconds = int(time.monotonic() - self._begun)
        return f"{seconds // 60} min {seconds % 60:02d} s"

    def tell_while(self, what: Callable[[], str], runs: Callable[[], bool], pause: float = 0.1) -> None:
        """Tells of a step at once, and as long as it runs, which is looked at again after each pause."""
        due = 0.0
        try:
            while True:
                now = time.monotonic()
                if now >= due:
                    due = now + (1 if self._is_terminal else 60)
                    self._tell(what())
                if not runs():
                    break
                time.sleep(pause)
        finally:
            if self._is_terminal:
                print(file=sys.stderr, flush=True)

    def _tell(self, what: str) -> None:
        if self._is_terminal:
            print(f"\rcophy: {what}, {self.so_far()} so far ", end="", file=sys.stderr, flush=True)
        else:
            say(f"{what}, {self.so_far()} so far")
