"""Picks that a plan walks along in the order of a LIMIT, in search of rows that pass a filter by `lower()` or `upper()`
of a column: the planner guesses how soon it finds them, so what such a plan is said to save isn't counted."""
from __future__ import annotations

import re
from collections.abc import Iterable
from typing import Any

from cophy_pg.outcomes import Verdict, numbered
from cophy_pg.plans import Plans

_GUESSED = re.compile(r"\b(?:lower|upper)\([^=<>$']*\) = ")
"""A function of a column that a filter of a plan compares."""
STOPS = ("Sort", "Hash", "Aggregate")
"""Nodes that read all before they give a row."""
THROUGH = ("Outer", "Member", "Subquery")


def walked_in(plan: Any, is_limited: bool = False) -> set[str]:
    """The indexes that a plan walks along so."""
    kind = plan.get("Node Type")
    is_limited = kind == "Limit" or is_limited and kind not in STOPS
    is_walk = is_limited and "Index Name" in plan and "Index Cond" not in plan
    found = {str(plan["Index Name"])} if is_walk and _GUESSED.search(plan.get("Filter", "")) else set()
    parts = plan.get("Plans", ())
    return found.union(*(walked_in(it, is_limited and it.get("Parent Relationship") in THROUGH) for it in parts))


def take_back(plans: Plans, found: Iterable[Verdict]) -> None:
    """Lets each statement that walks along picks cost what it does without them."""
    for it in found:
        after = it.after
        for number in {plans.made[name] for name in walked_in(plans.after.get(it.number, {})) if name in plans.made}:
            cost = plans.without.get(number, {}).pop(it.number, None)
            if cost is not None and it.after is not None and after is not None:
                plans.walked.setdefault(number, set()).add(it.number)
                plans.doubted[number] = plans.doubted.get(number, 0.0) + it.calls * max(0.0, cost - it.after)
                it.after = max(it.after, cost)
                it.taken = [one for one in it.taken if one != number]


def walks_told(numbers: list[int]) -> str:
    """What is warned of a pick that these statements walk along."""
    what = f"{numbered('statement', numbers)} would walk along it in the order of LIMIT"
    return f"{what}, until lower() or upper() of a column matches: a guess that isn't counted, and may take longer"
