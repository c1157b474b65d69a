"""The server's planner over hypothetical indexes (hypopg), with its calls counted."""
from __future__ import annotations

import json
import time
from collections.abc import Iterable
from dataclasses import dataclass, field
from typing import Any

from columns import Tables, Use, tables_of, uses
from sessions import Connection, Index, made
from statements import Statement


Question = tuple[int, frozenset[Index]]
"""A statement by its place, and the hypothetical indexes on its tables."""


@dataclass(frozen=True)
class Answer:
    """The cost of a call, the hypothetical indexes that its plan takes, and the seconds that the planner took."""

    cost: float
    taken: frozenset[Index]
    seconds: float


@dataclass
class Planner:
    """Prices statements under sets of hypothetical indexes; a price that is known isn't asked for again. What is asked for
    between two calls of `begin` counts as if nothing had been known before."""

    connection: Connection
    statements: list[Statement]
    scale: float
    tables: Tables = field(default_factory=dict)
    uses: list[dict[str, Use]] = field(default_factory=list)
    texts: list[str] = field(default_factory=list)
    _present: dict[Index, tuple[int, str]] = field(default_factory=dict)
    _known: dict[Question, Answer] = field(default_factory=dict)
    _asked: set[Question] = field(default_factory=set)
    _pages: dict[Index, int] = field(default_factory=dict)

    def __post_init__(self) -> None:
        self.tables = tables_of(self.connection)
        self.texts = [it.drawn(0, self.scale) for it in self.statements]
        self.uses = [uses(it, self.tables) for it in self.texts]
        self.made = made(self.connection)

    def is_new(self, index: Index) -> bool:
        """Whether no index that is there begins with its columns."""
        size = len(index.columns)
        return not any(it.table == index.table and it.columns[:size] == index.columns for it in self.made)

    def pages(self, index: Index) -> int:
        """The size as hypopg sees it."""
        if index not in self._pages:
            self._show({*self._present, index})
            row = self.connection.execute(
                "SELECT hypopg.hypopg_relation_size(%s) / 8192", [self._present[index][0]]
            ).fetchone()
            self._pages[index] = max(1, int(row[0])) if row else 1
        return self._pages[index]

    def begin(self) -> None:
        """Forgets what was asked for, but not the answers."""
        self._asked.clear()

    def spent(self) -> tuple[int, float]:
        """How many calls of the planner what was asked for takes, and how many seconds."""
        return len(self._asked), sum(self._known[it].seconds for it in self._asked)

    def price(self, at: int, indexes: Iterable[Index]) -> Answer:
        """What the planner says of a statement."""
        wanted = frozenset(it for it in indexes if it.table in self.uses[at])
        self._asked.add((at, wanted))
        if (at, wanted) not in self._known:
            self._show(set(wanted))
            began = time.monotonic()
            plan = explained(self.connection, self.texts[at])
            took = time.monotonic() - began
            names = {name: it for it, (_, name) in self._present.items()}
            taken = frozenset(names[it] for it in index_names(plan) if it in names)
            self._known[at, wanted] = Answer(plan["Total Cost"], taken, took)
        return self._known[at, wanted]

    def total(self, indexes: Iterable[Index]) -> float:
        """The cost of the workload."""
        listed = list(indexes)
        return sum(it.calls * self.price(at, listed).cost for at, it in enumerate(self.statements))

    def _show(self, wanted: set[Index]) -> None:
        for it in self._present.keys() - wanted:
            self.connection.execute("SELECT hypopg.hypopg_drop_index(%s)", [self._present.pop(it)[0]])
        for it in wanted - self._present.keys():
            made = self.connection.execute(
                "SELECT indexrelid::int8, indexname FROM hypopg.hypopg_create_index(%s)",
                [f"CREATE INDEX ON {it.quoted()}"],
            ).fetchone()
            assert made is not None
            self._present[it] = (made[0], made[1])


def explained(connection: Connection, text: str) -> dict[str, Any]:
    """The plan of a statement."""
    row = connection.execute(b"EXPLAIN (FORMAT JSON) " + text.encode()).fetchone()
    assert row is not None
    plan = row[0] if isinstance(row[0], list) else json.loads(row[0])
    found: dict[str, Any] = plan[0]["Plan"]
    return found


def index_names(plan: dict[str, Any]) -> set[str]:
    """The names of all indexes in a plan."""
    own = {plan["Index Name"]} if "Index Name" in plan else set()
    return own.union(*(index_names(it) for it in plan.get("Plans", ())))
