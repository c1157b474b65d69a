"""How long it takes to make an index and to write a table anew, by rates that were measured: tools/pg/README.md."""
from __future__ import annotations

from dataclasses import dataclass

from cophy_text.answers import counted
from cophy_text.shown import space
from cophy_pg.schema import Table

ROWS_A_SECOND = 350_000
"""So many rows a second CREATE INDEX CONCURRENTLY took in."""
PAGES_A_SECOND = 20_000
"""So many pages a second CLUSTER wrote, beside its indexes: PostgreSQL 15.18, November 2026."""


@dataclass(frozen=True)
class Speed:
    """How many rows a second go into an index, and how many pages of a table are written."""

    rows: int = ROWS_A_SECOND
    pages: int = PAGES_A_SECOND

    def of_index(self, table: Table) -> str:
        """How long an index over a table takes. Many of less than a second may take some together."""
        seconds = table.rows / self.rows
        return duration(seconds) if seconds >= 1 else "under a second"

    def seconds(self, table: Table, has_new: bool, is_laid: bool) -> float:
        """How many seconds a new index over a table and its parts takes, and to lay the rows anew."""
        made = table.rows / self.rows if has_new else 0.0
        return made + (self._rewrite(table, int(has_new)) if is_laid else 0.0)

    def _rewrite(self, table: Table, new: int) -> float:
        return table.pages / self.pages + (len(table.indexes) + new) * table.rows / self.rows

    def of_rewrite(self, table: Table, new: int) -> str:
        """How long CLUSTER takes with the indexes that are there and so many new ones."""
        return duration(self._rewrite(table, new))

    def told(self, table: Table, new: int) -> list[str]:
        """What CLUSTER asks of others, and how long."""
        size = f"{counted(table.pages, 'page')} ({space(table.pages)}) and its indexes"
        return [
            "CLUSTER locks the table against all others, readers too (ACCESS EXCLUSIVE), while it is written anew: "
            f"{size}, about {self.of_rewrite(table, new)} by measured rates",
            "until that is done it needs free disk space for a copy of both, and where it sorts for the table once more",
            "rows that are written later aren't kept in this order: the same CLUSTER lays them so",
        ]


def duration(number: float) -> str:
    """Seconds in words, at least one; from two minutes on in minutes, from two hours on in hours, from two days on in days."""
    for name, seconds in (("day", 86400), ("hour", 3600), ("minute", 60)):
        if number >= 2 * seconds:
            return counted(round(number / seconds), name)
    return counted(max(1, round(number)), "second")
