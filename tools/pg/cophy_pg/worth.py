"""What a pick saves: by our model, by the server's planner, and of the measured time."""
from __future__ import annotations

from dataclasses import dataclass

from cophy_text.answers import Prices
from cophy_text.shown import percent
from cophy_pg.guesses import whole_of
from cophy_pg.outcomes import Verdict
from cophy_pg.why import Reason


@dataclass(frozen=True)
class Worth:
    """Percents of the workload's cost without any pick, and of all measured time where that is known; of the latter `planned` is
    saved by the server's planner alone."""

    ours: float
    server: float
    measured: float | None
    planned: float | None = None

    def most(self) -> float:
        """The largest of them."""
        return max(self.ours, self.server, self.measured or 0.0)

    def shown(self) -> str:
        """All of them in words."""
        text = f"{percent(self.ours)} by our model, {percent(self.server)} by the server's planner"
        return text + (f", {percent(self.measured)} of the measured time" if self.measured is not None else "")


def worth_of(
    reason: Reason,
    prices: tuple[Prices, Prices],
    found: list[Verdict],
    without: dict[int, float],
    every: list[float | None],
) -> Worth:
    """What a pick saves where all others are there. `prices` are ours without picks and with all, `without` is what a call of
    a statement costs the server without this one, by the number of its verdict, and `every` are the measured times of all
    statements. Of a statement's time is saved what is saved of its cost, by the server or by us, whichever is more; by us alone
    where the server doesn't say that its plan passes the pick over."""
    none, kept = prices
    ours = 100 * (reason.total_without - kept.total) / none.total if none.total else 0.0
    before = sum(it.calls * it.before for it in found if it.before is not None and it.after is not None)
    server, seconds, planned = 0.0, 0.0, 0.0
    for it in found:
        saved = without[it.number] - (it.after or 0.0) if it.number in without else 0.0
        server += it.calls * saved
        cost = sum(none.statements[at].weight * none.statements[at].cost for at in it.written)
        by_server = saved / it.before if it.before else 0.0
        is_open = it.after is None or reason.pick.is_clustered or reason.pick.number in it.taken
        by_us = sum(reason.changes.get(at, 0) for at in it.written) / cost if cost and is_open else 0.0
        seconds += (it.input.seconds or 0.0) * min(1.0, max(0.0, by_server, by_us))
        planned += (it.input.seconds or 0.0) * by_server
    whole = whole_of(every)
    of_time = [100 * part / whole if whole else None for part in (seconds, planned)]
    return Worth(ours, 100 * server / before if before else 0.0, *of_time)
