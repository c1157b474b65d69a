"""The server's plans of statements without the picks of an advice, with them, and with all picks but one."""
from __future__ import annotations

from collections.abc import Iterable, Sequence
from dataclasses import dataclass, field, replace
from typing import Any, NamedTuple

from cophy_text.answers import Advice, Candidate
from cophy_pg.explain import Explainer
from cophy_pg.outcomes import Verdict
from cophy_pg.parameters import Columns
from cophy_pg.picks import home_of, index_names, make, scans_of
from cophy_pg.progress import Progress
from cophy_pg.schema import Schema
from cophy_pg.server import Server, ServerFault, reading
from cophy_pg.workload import Workload


ALONE = "Index Only Scan"
"""A node of a plan that reads no table, as long as VACUUM has marked its pages."""


class Plan(NamedTuple):
    """What a call of a statement costs, and the picks that it takes, by their numbers."""

    cost: float
    taken: frozenset[int]


class Shown(NamedTuple):
    """A plan as the server gives it, and what the names of hypothetical indexes in it stand for."""

    plan: Any
    names: dict[str, str]


@dataclass
class Plans:
    """Plans by the numbers of their verdicts, and for each pick, by its number, what the statements that take it cost
    without it. `made` and `shown` have the picks by the names of their indexes in plans, and `alone` those that some plans
    read without their tables. `walked` has the statements that walk along a pick in the order of a LIMIT, and `doubted` what
    all their calls are said to save by that, which isn't counted. `by_default` has the plans with what the script makes unless
    it is told otherwise, of the statements that were asked about anew for that; the others' are those with all picks. It is
    nothing where that isn't known."""

    before: dict[int, Any] = field(default_factory=dict)
    after: dict[int, Any] = field(default_factory=dict)
    without: dict[int, dict[int, float]] = field(default_factory=dict)
    shown: dict[str, str] = field(default_factory=dict)
    alone: set[int] = field(default_factory=set)
    made: dict[str, int] = field(default_factory=dict)
    walked: dict[int, set[int]] = field(default_factory=dict)
    doubted: dict[int, float] = field(default_factory=dict)
    by_default: dict[int, Shown] | None = None

    def saved(self, pick: int, verdict: Verdict) -> float:
        """What one call saves by a pick, where all others are there."""
        cost = self.without.get(pick, {}).get(verdict.number)
        return cost - float(self.after[verdict.number]["Total Cost"]) if cost is not None else 0.0

    def cost_by_default(self, verdict: Verdict) -> float | None:
        """What a call costs with what the script makes unless it is told otherwise; nothing where that isn't known."""
        if self.by_default is None:
            return None
        shown = self.by_default.get(verdict.number)
        return float(shown.plan["Total Cost"]) if shown else verdict.after

    def document(self, workload: Workload) -> dict[str, Any]:
        """The plans of each input of a workload, in their order, with the numbers of its statements; with what is made by
        default where that was asked about anew."""
        made = {at: {"made": it.plan, "made_shown": it.names} for at, it in (self.by_default or {}).items()}
        listed = [
            {"numbers": it.numbers, "before": self.before.get(at), "after": self.after.get(at), **made.get(at, {})}
            for at, it in enumerate(workload.records, 1)
        ]
        return {"statements": listed, "shown": self.shown}


def plans_of(server: Server, schema: Schema, advice: Advice, found: list[Verdict], progress: Progress) -> Plans:
    """The plans of statements that were explained before."""
    plans = Plans()
    explainer = Explainer(server, Columns())
    known = [it for it in found if it.statement is not None and not it.fault and not it.statement.is_empty]
    with reading(server, "READ COMMITTED"):
        home_of(server)
        plans.before = each_plan(explainer, known, progress)
        _, made = make(server, schema, advice)
        plans.made, plans.shown = made, {name: _shown(advice, number) for name, number in made.items()}
        plans.after = each_plan(explainer, known, progress)
        scans = {it for plan in plans.after.values() for it in scans_of(plan) if it[0] in made}
        plans.alone = {made[it] for it, kind in scans if kind == ALONE}
        for pick in advice.picks:
            names = {name for name, number in made.items() if number == pick.number}
            users = [it for it in known if names & index_names(plans.after.get(it.number, {}))]
            if users:
                plans.without[pick.number] = _costs_without(explainer, schema, advice, pick, users, progress)
    return plans


def costs_without(
    server: Server, schema: Schema, advice: Advice, pick: Candidate, found: list[Verdict], progress: Progress
) -> dict[int, float]:
    """What a call of the statements that take a pick costs without it, by the numbers of their verdicts."""
    users = [it for it in found if pick.number in it.taken and it.after is not None]
    if not users:
        return {}
    with reading(server, "READ COMMITTED"):
        home_of(server)
        return _costs_without(Explainer(server, Columns()), schema, advice, pick, users, progress)


def under(
    server: Server, schema: Schema, advice: Advice, listed: Iterable[Verdict], progress: Progress
) -> dict[int, Plan]:
    """The plans of some statements under picks, by the numbers of their verdicts."""
    with reading(server, "READ COMMITTED"):
        _, made = make(server, schema, advice)
        plans = each_plan(Explainer(server, Columns()), [*listed], progress)
    taken = {at: frozenset(made[name] for name in index_names(it) if name in made) for at, it in plans.items()}
    return {at: Plan(float(it["Total Cost"]), taken[at]) for at, it in plans.items()}


def _costs_without(
    explainer: Explainer, schema: Schema, advice: Advice, pick: Candidate, users: list[Verdict], progress: Progress
) -> dict[int, float]:
    make(explainer.server, schema, _but(advice, pick))
    return {at: float(it["Total Cost"]) for at, it in each_plan(explainer, users, progress).items()}


def _shown(advice: Advice, number: int) -> str:
    return next(it.shown() for it in advice.picks if it.number == number)


def _but(advice: Advice, pick: Candidate) -> Advice:
    return replace(advice, picks=[it for it in advice.picks if it.number != pick.number])


def each_plan(explainer: Explainer, listed: Sequence[Verdict], progress: Progress) -> dict[int, Any]:
    """The plans of some statements, by the numbers of their verdicts."""
    found: dict[int, Any] = {}
    for at, it in enumerate(listed, 1):
        progress(f"comparing plans, {at} of {len(listed)}")
        if it.statement is None:
            continue
        try:
            found[it.number] = explainer.explain(it.statement)
        except ServerFault as fault:
            if explainer.server.is_lost():
                raise ServerFault(f"the connection was lost at {it.shown()}", fault.code) from None
    return found
