"""The cost of a workload under sets of its candidates, by `cophy whatif`; what is known of a statement isn't asked for again."""
from __future__ import annotations

import sys
from collections.abc import Callable, Iterable, Sequence
from dataclasses import dataclass, field
from pathlib import Path

from cophy_text.answers import Candidate, read_candidates
from cophy_text.tokens import statements, tokens
from cophy_pg.program import Program

Chosen = frozenset[int]
"""Candidates by their numbers."""
UNPRICED = sys.maxsize
"""Stands for a cost that there wasn't time to ask for: it is more than any."""


@dataclass
class Group:
    """Statements over the same tables, by their places, and their costs under what was asked for, by the candidates on these."""

    tables: frozenset[str]
    places: list[int] = field(default_factory=list)
    known: dict[Chosen, list[int]] = field(default_factory=dict)
    sums: dict[Chosen, int] = field(default_factory=dict)


class Pricing:
    """A catalogue and a workload. A statement's cost depends on the candidates over the tables that it names alone."""

    def __init__(self, program: Program) -> None:
        self.program = program
        self.calls = 0
        self.weights: list[int] = []
        self.candidates: dict[int, Candidate] = {it.number: it for it in read_candidates(program.text("candidates"))}
        self._table = {number: it.table.lower() for number, it in self.candidates.items()}
        self._groups: dict[frozenset[str], Group] = {}
        every = frozenset(self._table.values())
        texts = statements(Path(program.workload).read_bytes()).values()
        for at, text in enumerate(texts):
            tables = every & {it.text.decode().strip('"').lower() for it in tokens(text.encode())}
            self._groups.setdefault(tables, Group(tables)).places.append(at)
        self._ask(frozenset())
        if len(self.weights) != len(texts):
            raise ValueError(f"{program.workload} has {len(self.weights)} statements, {len(texts)} were found")

    def cost(self, chosen: Chosen) -> int:
        """The cost of the workload under a set."""
        if not self._is_known(chosen):
            self._ask(chosen)
        return self._sum(chosen)

    def costs(self, base: Chosen, sets: Sequence[Chosen], goes_on: Callable[[], bool] = lambda: True) -> list[int]:
        """The costs under sets that differ little from a base, as long as it goes on. Differences that no statement sees
        together share a call."""
        self.cost(base)
        waiting = list(sets)
        while (waiting := [it for it in waiting if not self._is_known(it)]) and goes_on():
            seen, together = set[frozenset[str]](), base
            for it in waiting:
                changed = self._over(base ^ it)
                sees = {tables for tables in self._groups if tables & changed}
                if not seen & sees:
                    seen |= sees
                    together = self._without(together, changed) | (it - self._without(it, changed))
            self._ask(together)
        return [self._sum(it) if self._is_known(it) else UNPRICED for it in sets]

    def statement_costs(self, chosen: Chosen) -> list[int]:
        """The weighted cost of each statement."""
        self.cost(chosen)
        found = [0] * len(self.weights)
        for group in self._groups.values():
            for at, it in zip(group.places, group.known[self._on(chosen, group)]):
                found[at] = self.weights[at] * it
        return found

    def upkeep_of(self, number: int) -> int:
        """What statements cost more with a candidate alone than without any."""
        none, alone = (self.statement_costs(it) for it in (frozenset[int](), frozenset((number,))))
        return sum(max(0, after - before) for before, after in zip(none, alone))

    def _over(self, chosen: Iterable[int]) -> set[str]:
        return {self._table[it] for it in chosen}

    def _without(self, chosen: Chosen, tables: set[str]) -> Chosen:
        return frozenset(it for it in chosen if self._table[it] not in tables)

    def _on(self, chosen: Chosen, group: Group) -> Chosen:
        """What the statements of a group see of a set."""
        return frozenset(it for it in chosen if self._table[it] in group.tables)

    def _is_known(self, chosen: Chosen) -> bool:
        return all(self._on(chosen, it) in it.known for it in self._groups.values())

    def _sum(self, chosen: Chosen) -> int:
        return sum(it.sums[self._on(chosen, it)] for it in self._groups.values())

    def _ask(self, chosen: Chosen) -> None:
        self.calls += 1
        found = self.program.whatif(chosen)
        costs = [found.statements[it].cost for it in sorted(found.statements)]
        self.weights = [found.statements[it].weight for it in sorted(found.statements)]
        for it in self._groups.values():
            key = self._on(chosen, it)
            it.known[key] = [costs[at] for at in it.places]
            it.sums[key] = sum(self.weights[at] * costs[at] for at in it.places)
        if self._sum(chosen) != found.total:
            raise ValueError("the costs of the statements aren't the total")
