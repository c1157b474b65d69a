"""Picks that save less time than is lost by them: an index makes it take longer to plan whatever reads its table, whether or
not the plan takes it, and to write rows."""
from __future__ import annotations

import math
import re
from collections.abc import Callable, Iterable
from dataclasses import dataclass, field

from cophy_text.answers import Candidate
from cophy_pg.ddl import names_of
from cophy_pg.outcomes import Verdict
from cophy_pg.plans import Plan
from cophy_pg.schema import Schema

MICROSECONDS = 10.0
"""So much longer a statement takes to plan for each index on a table that it reads, as measured: tools/pg/README.md."""
UNIT = 2.0
"""So many microseconds a unit of EXPLAIN's cost takes where few are left, likewise. It isn't what the server took for a
statement: other work makes that many times as much, and planning too."""
COSTLY = "it saves less time than planning and writing take longer for it"

Ask = Callable[[list[Candidate], list[Verdict]], dict[int, Plan]]
"""The plans of some statements under some picks, by the numbers of their verdicts."""


@dataclass(frozen=True)
class Planning:
    """What statements take longer to plan for an index, so many microseconds for each table that they read."""

    schema: Schema
    found: list[Verdict]
    microseconds: float = MICROSECONDS

    def longer(self, pick: Candidate) -> float:
        """What all calls together take longer for a pick, in units of EXPLAIN's cost."""
        number = names_of(self.schema, pick)[0].oid
        calls = sum(it.calls for it in self.found if it.statement is not None and number in it.statement.tables())
        return calls * self.microseconds / UNIT

    def knows(self, pick: Candidate) -> bool:
        """Whether all statements that name its table are explained."""
        name = re.compile(rf"\b{re.escape(names_of(self.schema, pick)[0].name)}\b", re.IGNORECASE)
        return not any(it.fault and name.search(it.input.text) for it in self.found)


@dataclass
class Losses:
    """Picks with the plans of statements under them, and plans of a statement without one of the picks that its plan takes,
    by the numbers of both, as far as these are known."""

    picks: dict[int, Candidate]
    found: dict[int, Verdict]
    plans: dict[int, Plan]
    ask: Ask
    without: dict[tuple[int, int], Plan] = field(default_factory=dict)

    def costly(self, prices: dict[int, float]) -> list[Candidate]:
        """Those of the picks with a price that save less than that, where all others are there: the one by which the most is
        lost, then the next one without it, until none is left."""
        found = list[Candidate]()
        while lost := {it: price - self._saved(it) for it, price in prices.items() if it in self.picks}:
            worst = max(sorted(lost), key=lambda it: lost[it])
            if lost[worst] <= 0:
                break
            found.append(self._drop(worst))
        return found

    def _users(self, number: int) -> list[int]:
        return [at for at, (_, taken) in self.plans.items() if number in taken]

    def _saved(self, number: int) -> float:
        """What all calls save by a pick, in units of EXPLAIN's cost; no end of it where that isn't known."""
        users = self._users(number)
        if new := [self.found[at] for at in users if (number, at) not in self.without]:
            others = [it for it in self.picks.values() if it.number != number]
            self.without |= {(number, at): plan for at, plan in self.ask(others, new).items()}
        if any((number, at) not in self.without for at in users):
            return math.inf
        return sum(self.found[at].calls * (self.without[number, at].cost - self.plans[at].cost) for at in users)

    def _drop(self, number: int) -> Candidate:
        """Leaves a pick out, and forgets the plans that it may have a part in."""
        users = self._users(number)
        self.plans |= {at: self.without[number, at] for at in users}
        self.without = {
            key: plan for key, plan in self.without.items() if key[1] not in users and number not in plan.taken
        }
        return self.picks.pop(number)


def costly_picks(
    picks: Iterable[Candidate],
    planning: Planning,
    upkeep: Callable[[int], float],
    asks_for: Callable[[Candidate], bool],
    ask: Ask,
) -> list[Candidate]:
    """The picks that save less by the server's planner than planning takes longer for them, with their upkeep, but for those
    that are asked for, that are clustered, or of which the planner doesn't know all."""
    listed = {it.number: it for it in picks}
    known = {it.number: it for it in planning.found if it.after is not None and not it.fault}
    plans = {at: Plan(it.after or 0.0, frozenset(it.taken)) for at, it in known.items()}
    taken = frozenset[int]().union(*(it.taken for it in plans.values()))
    prices = {
        number: planning.longer(it) + upkeep(number)
        for number, it in listed.items()
        if number in taken and not it.is_clustered and not asks_for(it) and planning.knows(it)
    }
    return Losses(listed, known, plans, ask).costly(prices)
