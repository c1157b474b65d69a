"""Which picks are recommended: those that plainly save something, and under which no write fails. The script makes these alone
unless it is told otherwise."""
from __future__ import annotations

from collections.abc import Callable, Iterable
from dataclasses import dataclass, field
from typing import Any

from cophy_text.answers import Candidate
from cophy_text.shown import in_row, percent, share
from cophy_pg.findings import is_prefix
from cophy_pg.guesses import FEW, by_server, doubt_of, is_judged, warning_of
from cophy_pg.included import key_count
from cophy_pg.unlimited import warning

LITTLE = 1
"""What an index has to save, in percent, by our model, by the server or of the measured time."""
KINDS = ("ours", "server", "measured")
LEAST_AGAINST = 2
"""What one has to save by the server, in percent, where the workload costs less without it by our model, or where UPDATEs that
could be HOT can't be with it."""
MOST_CHARGED = 0.5
"""Of what a pick saves at reading writes may take so much."""
Costs = tuple[int, float]
"""What the workload costs by our model and by the server's planner."""


@dataclass(frozen=True)
class Recommended:
    """Why each pick that isn't recommended isn't, by its number, and what the workload costs with all others."""

    why_not: dict[int, str] = field(default_factory=dict)
    costs: Costs = (0, 0.0)


def caveat_of(pick: dict[str, Any], document: dict[str, Any]) -> str:
    """Why a pick isn't recommended as it stands among all others; nothing where it is. Of one that was allowed to lay the rows of
    its table anew the server says too little."""
    if fails := warning(pick["long_likely"]):
        return fails
    if pick["outcome"] == "unknown" and not pick["clustered"]:
        return "whether plans take it isn't known"
    saved = max(pick["saves"].get(it) or 0 for it in KINDS)
    if saved < LITTLE:
        return f"it saves {percent(saved)} at most, by any measure"
    charged = -sum(min(0.0, it["ours"]) for it in pick["changes"])
    # Where our model sees no gain, a charge is weighed against what the server saves.
    gained = max(saved, sum(max(0.0, it["ours"]) for it in pick["changes"]))
    if charged > MOST_CHARGED * gained and is_judged(pick):
        return f"writes take {share(charged, gained)} of what it saves"
    return _cost_of(pick, document) or _hot_of(pick) or doubt_of(pick) or warning_of(pick, document)


def _cost_of(pick: dict[str, Any], document: dict[str, Any]) -> str:
    """What there is to say of a pick without which the workload costs less by our model, and that saves little by the server."""
    saved, what = by_server(pick)
    if not is_judged(pick) or saved >= LEAST_AGAINST or pick["saves"]["cost_without"] >= document["cost"]["after"]:
        return ""
    return f"by our model the workload costs less without it, and {what}"


def _hot_of(pick: dict[str, Any]) -> str:
    """What there is to say of a pick that saves little by the server and lets UPDATEs be HOT no more."""
    saved, what = by_server(pick)
    if not is_judged(pick) or saved >= LEAST_AGAINST or not pick.get("not_hot"):
        return ""
    return f"UPDATEs of {in_row(pick['not_hot'])} can't be HOT with it, and {what}"


def served(pick: dict[str, Any], candidate: Candidate, others: Iterable[Candidate], searched: set[str] | None) -> str:
    """Which index of the server, or else of the others that are recommended the longest, serves what a pick serves that saves few
    percent beside it, or which finds the one row of each value of its first column, where it saves less still; nothing where
    none does."""
    if not is_judged(pick) or by_server(pick)[0] >= FEW:
        return ""

    def keys(it: Candidate) -> tuple[str, ...]:
        return it.columns[: key_count(it, searched)]

    serving = [
        it
        for it in others
        if it.table == candidate.table and is_prefix(keys(candidate), candidate.columns, keys(it), it.columns)
    ]
    longest = max(serving, key=lambda it: len(keys(it)), default=None)
    if name := pick["begins"] or (longest.shown() if longest else ""):
        return f"{name} serves it too"
    if not pick.get("key") or by_server(pick)[0] >= LEAST_AGAINST:
        return ""
    return f"{pick['key']} finds the row of each {candidate.columns[0]}"


def without_caveats(
    picks: Iterable[dict[str, Any]],
    caveats: dict[int, str],
    all_: Costs,
    wholes: Costs,
    costs_of: Callable[[list[int]], Costs],
) -> Recommended:
    """Leaves out the picks that there are caveats about: at once those under which a write fails, and of the others each as long
    as the workload costs no more for it than it does where all others are there, since one may stand for another. `all_` are
    the costs with all picks, `wholes` without any."""
    listed = sorted(picks, key=lambda it: float(it["saves"]["server"]))
    failing = {it["number"] for it in listed if it["long_likely"] and it["number"] in caveats}
    kept = [it["number"] for it in listed if it["number"] not in failing]
    now = costs_of(kept) if failing else all_
    waiting = [it for it in listed if it["number"] in kept and it["number"] in caveats]
    for some in [waiting, *([it] for it in waiting if len(waiting) > 1)]:
        without = [it for it in kept if it not in {one["number"] for one in some}]
        if not some or len(without) == len(kept):
            continue
        costs = costs_of(without)
        allowed = [LITTLE + sum(it["saves"][key] for it in some) for key in ("ours", "server")]
        rises = [100 * (new - old) / (whole or 1) for new, old, whole in zip(costs, now, wholes)]
        if all(rise <= most for rise, most in zip(rises, allowed)):
            kept, now = without, costs
    return Recommended({number: why for number, why in caveats.items() if number not in kept}, now)
