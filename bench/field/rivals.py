"""What the field's rivals choose: an index for each foreign key, Dexter's rule, greedy by hypothetical indexes."""
from __future__ import annotations

import heapq
import math
from collections.abc import Callable

from columns import covering, narrow
from hypothetical import Planner
from sessions import Index

Sizes = Callable[[Index], int]
LEAST_SHARE = 0.5
"""Dexter asks that a statement's cost falls to this share."""
_KEYS = """
SELECT c.relname, ARRAY(SELECT a.attname::text FROM unnest(k.conkey) WITH ORDINALITY u(number, at)
    JOIN pg_attribute a ON a.attrelid = k.conrelid AND a.attnum = u.number ORDER BY u.at)
FROM pg_constraint k JOIN pg_class c ON c.oid = k.conrelid WHERE k.contype = 'f' ORDER BY c.reltuples DESC, k.conname"""


def foreign_keys(planner: Planner, sizes: Sizes, budget: int) -> list[Index]:
    """An index for each foreign key that has none, those of large tables first."""
    found = [Index(table, tuple(columns)) for table, columns in planner.connection.execute(_KEYS).fetchall()]
    return _fitted([it for it in dict.fromkeys(found) if planner.is_new(it)], sizes, budget)


def dexter(planner: Planner, sizes: Sizes, budget: int) -> list[Index]:
    """Of indexes over one or two columns those that halve a statement's cost, those that save most first."""
    saved: dict[Index, float] = {}
    for at, statement in enumerate(planner.statements):
        one, two = ([it for it in narrow(planner.uses[at], most) if planner.is_new(it)] for most in (1, 2))
        none, narrow_answer, wide_answer = (planner.price(at, it) for it in ((), one, two))
        is_wide = wide_answer.cost < LEAST_SHARE * narrow_answer.cost
        best = wide_answer if is_wide else narrow_answer
        if best.cost < LEAST_SHARE * none.cost:
            for it in best.taken:
                saved[it] = saved.get(it, 0) + statement.calls * (none.cost - best.cost) / len(best.taken)
    return _fitted(sorted(saved, key=lambda it: (-saved[it], it)), sizes, budget)


def greedy(planner: Planner, sizes: Sizes, budget: int) -> list[Index]:
    """The index that saves most for each of its pages by hypopg, and again, until none fits that saves anything. What an index
    saves is taken to fall as others come, so that one whose last price is below another's new one isn't priced again.
    """
    chosen, cost = list[Index](), planner.total(())
    queue = [(-math.inf, -1, it) for it in candidates(planner) if planner.is_new(it)]
    heapq.heapify(queue)
    while queue:
        gain, priced_with, it = heapq.heappop(queue)
        if gain >= 0:
            continue
        if priced_with < len(chosen):
            saved = cost - planner.total([*chosen, it])
            heapq.heappush(queue, (-saved / planner.pages(it), len(chosen), it))
        elif sizes(it) <= budget:
            budget -= sizes(it)
            chosen.append(it)
            cost = planner.total(chosen)
    return chosen


def candidates(planner: Planner) -> list[Index]:
    """For each statement all indexes over one or two columns that it seeks, and each with all that it reads behind."""
    found: dict[Index, None] = {}
    for it in planner.uses:
        few = narrow(it, 2)
        found |= dict.fromkeys([*few, *covering(it, few)])
    return list(found)


def _fitted(ordered: list[Index], sizes: Sizes, budget: int) -> list[Index]:
    chosen = []
    for it in ordered:
        if sizes(it) <= budget:
            budget -= sizes(it)
            chosen.append(it)
    return chosen


RIVALS = {"foreign keys": foreign_keys, "Dexter": dexter, "greedy": greedy}
