"""Bars of the steps on a terminal, as many of the last ones as it has lines for."""
from __future__ import annotations

from collections.abc import Iterable

from rich import progress
from rich.console import Console
from rich.table import Table

COUNTS, LEAST, MOST, TEXT = 21, 8, 40, 52
"""What counts and times take of a line, a bar at the least and at the most, and a text before a bar gets more."""


class Bars(progress.Progress):
    """A bar for each step, with what is done of it; the current step is the last one."""

    def __init__(self, console: Console) -> None:
        columns = (
            progress.TextColumn("{task.description}", markup=False),
            progress.BarColumn(bar_width=None),
            progress.MofNCompleteColumn(),
            progress.TimeElapsedColumn(),
        )
        self.screen = console
        super().__init__(*columns, console=console)

    def make_tasks_table(self, tasks: Iterable[progress.Task]) -> Table:
        width, height = self.screen.size
        table = super().make_tasks_table([*tasks][1 - max(2, height) :])
        text, bar, *_ = table.columns
        bar.width = max(LEAST, min(MOST, width - COUNTS - TEXT))
        text.max_width = max(LEAST, width - COUNTS - bar.width)
        text.overflow = "ellipsis"
        return table
