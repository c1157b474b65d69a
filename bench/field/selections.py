"""Three heuristics of the literature over a workload's candidates: Extend, DB2 Advisor's rule, AutoAdmin's greedy."""
from __future__ import annotations

import random
from collections.abc import Callable
from itertools import combinations

from cophy_pg.pricing import Chosen
from prices import Prices

VARIATIONS, MOST_SWAPPED, SEED = 200, 4, 1
"""DB2 Advisor swaps at random, here so often, and so many indexes at a time."""


def extend(prices: Prices, budget: int) -> Chosen:
    """Adds an index or makes a chosen one longer, whichever saves most for a page, until nothing that fits saves anything.

    Candidates without a front among the others may come first, a longer one where a chosen one begins with its longest
    front, whose place it takes.
    """
    front: dict[int, Chosen] = {}
    for it in prices.candidates:
        fronts = sorted(_fronts(prices, it), key=lambda other: len(prices.candidates[other].columns))
        front[it] = frozenset(fronts[-1:])
    chosen: Chosen = frozenset()
    while True:
        cost, size = prices.cost(chosen), prices.pages(chosen)
        begun = frozenset[int]().union(chosen, *(_fronts(prices, it) for it in chosen))
        steps = [(chosen - front[it]) | {it} for it in prices.candidates if it not in chosen and front[it] <= begun]
        fitting = [it for it in steps if prices.pages(it) <= budget]
        gains = [
            (cost - price) / max(1, prices.pages(it) - size)
            for it, price in zip(fitting, prices.costs(chosen, fitting))
        ]
        if not gains or max(gains) <= 0:
            return chosen
        chosen = fitting[gains.index(max(gains))]


def _fronts(prices: Prices, number: int) -> Chosen:
    """The other candidates whose columns are the first ones of this one."""
    own = prices.candidates[number]
    return frozenset(
        it.number
        for it in prices.candidates.values()
        if it.table == own.table and len(it.columns) < len(own.columns) and own.columns[: len(it.columns)] == it.columns
    )


def db2_advisor(prices: Prices, budget: int) -> Chosen:
    """Fills the budget by benefit for a page, an index having the benefit of each statement whose best plan takes it; then
    swaps at random, and keeps what costs less."""
    none, all_ = prices.statement_costs(frozenset()), prices.statement_costs(frozenset(prices.candidates))
    benefit = dict.fromkeys(prices.candidates, 0)
    for at, (before, after) in enumerate(zip(none, all_), 1):
        for it in prices.taken(at):
            benefit[it] += max(0, before - after)
    ranked = sorted(prices.candidates, key=lambda it: (-benefit[it] / prices.candidates[it].pages, it))
    chosen = _filled(prices, frozenset(), [it for it in ranked if benefit[it] > 0], budget)
    source, useful = random.Random(SEED), [it for it in ranked if benefit[it] > 0]
    cost = prices.cost(chosen)
    for _ in range(VARIATIONS):
        out = source.sample(sorted(chosen), min(len(chosen), source.randint(1, MOST_SWAPPED)))
        others = [it for it in useful if it not in chosen]
        into = source.sample(others, min(len(others), source.randint(1, MOST_SWAPPED)))
        tried = _filled(prices, chosen - frozenset(out), into, budget)
        if tried != chosen and prices.cost(tried) < cost:
            chosen, cost = tried, prices.cost(tried)
    return chosen


def autoadmin(prices: Prices, budget: int) -> Chosen:
    """Greedy(2, k): of the indexes that some statement's best plan takes, the pair that costs least, then the index that costs
    least with them, and so on, until none that fits lowers the cost."""
    taken = sorted(frozenset[int]().union(*(prices.taken(at) for at in range(1, len(prices.weights) + 1))))
    chosen: Chosen = frozenset()
    seeds = [frozenset(it) for size in (1, 2) for it in combinations(taken, size)]
    while True:
        fitting = [chosen | it for it in seeds if prices.pages(chosen | it) <= budget and not it <= chosen]
        found = prices.costs(chosen, fitting)
        if not found or min(found) >= prices.cost(chosen):
            return chosen
        chosen = fitting[found.index(min(found))]
        seeds = [frozenset((it,)) for it in taken]


def _filled(prices: Prices, chosen: Chosen, ranked: list[int], budget: int) -> Chosen:
    for it in ranked:
        if it not in chosen and prices.pages(chosen | {it}) <= budget:
            chosen |= {it}
    return chosen


SELECTIONS: dict[str, Callable[[Prices, int], Chosen]] = {
    "Extend": extend,
    "DB2 Advisor": db2_advisor,
    "AutoAdmin": autoadmin,
}
