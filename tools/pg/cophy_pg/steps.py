"""The steps of a long command: how long each takes, with a bar for each on a terminal."""
from __future__ import annotations

import sys
import time
from collections.abc import Iterator
from contextlib import contextmanager
from typing import Any

from cophy_pg.progress import Progress

try:
    from rich.console import Console
    from cophy_pg.bars import Bars
except ImportError:
    Bars = None  # type: ignore[assignment,misc]


class Steps(Progress):
    """A progress of several steps. Where the standard error is a terminal and python3-rich is there, a step is a bar."""

    def __init__(self, is_quiet: bool = False) -> None:
        super().__init__()
        self.seconds: dict[str, float] = {}
        self.shown: Any = None
        self.task: Any = None
        self.is_quiet = is_quiet
        self.part = ""

    def __call__(self, text: str) -> None:
        if self.shown is not None:
            self.shown.advance(self.task)
        elif not self.is_quiet:
            super().__call__(self._within(text))

    def still(self, text: str) -> None:
        if self.shown is not None:
            self.shown.update(self.task, description=self._within(text))
        else:
            self(text)

    def tell_rest(self, text: str, seconds: float) -> None:
        if not self.is_quiet:
            super().tell_rest(text, seconds)

    def begin(self, part: str) -> None:
        """Begins a part, whose name stands before all that is told until the next one begins."""
        self.part = part

    def _within(self, text: str) -> str:
        return f"{self.part}, {text}" if self.part else text

    @contextmanager
    def all(self) -> Iterator[Steps]:
        """Shows the bars until the end."""
        if self.is_quiet or Bars is None or not sys.stderr.isatty():
            yield self
            return
        with Bars(Console(stderr=True)) as self.shown:
            try:
                yield self
            finally:
                self.shown = None

    @contextmanager
    def step(self, name: str, text: str, count: int | None = None) -> Iterator[None]:
        """One step; `count` says how often it is told that something is done. Steps of one name add up, and are told as one."""
        begun = time.monotonic()
        self.is_new |= name not in self.seconds
        if self.shown is not None:
            self.task = self.shown.add_task(self._within(text), total=count)
        else:
            self(text)
        yield
        if self.shown is not None:
            done = {"total": count or 1, "completed": count or 1, "description": self._within(text)}
            self.shown.update(self.task, **done)
        self.seconds[name] = self.seconds.get(name, 0.0) + time.monotonic() - begun
