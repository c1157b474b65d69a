"""One choice for each database within a budget of pages, with the least sum of costs: a multiple-choice knapsack.

HiGHS finds the choice in floating point. All that is told of it is computed in whole numbers: its pages, its cost, and by the
price of a page that linear programming gives a sum that no choice undercuts.
"""
from __future__ import annotations

from collections.abc import Iterable, Sequence
from dataclasses import dataclass
from fractions import Fraction

import numpy
from scipy.optimize import Bounds, LinearConstraint, milp
from scipy.sparse import coo_array

EXACT = 2**30
"""The largest coefficient that the solver gets. Greater ones are divided: pages then count as rather more, the room as less."""
SECONDS = 60
"""The seconds that the solver may take."""


@dataclass(frozen=True)
class Item:
    """A choice: what it takes, what it costs, and its number among the choices of its class."""

    pages: int
    cost: int
    number: int


Classes = Sequence[Sequence[Item]]


def useful(items: Iterable[Item]) -> list[Item]:
    """The items to which no other has both fewer pages and less cost, by rising pages."""
    kept: list[Item] = []
    for it in sorted(items, key=lambda it: (it.pages, it.cost)):
        if not kept or it.cost < kept[-1].cost:
            kept.append(it)
    return kept


def hull(items: Sequence[Item]) -> list[Item]:
    """Those of useful items that are best at some price of a page."""
    kept: list[Item] = []
    for it in items:
        while len(kept) > 1 and _saves(kept[-2], kept[-1]) <= _saves(kept[-1], it):
            kept.pop()
        kept.append(it)
    return kept


def _saves(first: Item, second: Item) -> Fraction:
    return Fraction(first.cost - second.cost, second.pages - first.pages)


@dataclass
class Path:
    """Choices from the fewest pages to the least cost: each step takes the next item of one class, and the steps save ever
    less a page. `first` are the items of the beginning."""

    first: list[Item]
    steps: list[tuple[Fraction, int, Item]]


def path(classes: Classes) -> Path:
    """The path over all classes of useful items."""
    hulls = [hull(it) for it in classes]
    steps = [
        (_saves(before, after), at, after)
        for at, kept in enumerate(hulls)
        for before, after in zip(kept, kept[1:], strict=False)
    ]
    # Steps of one class save ever less, so they stay in order.
    return Path([it[0] for it in hulls], sorted(steps, key=lambda it: -it[0]))


def price(way: Path, budget: int) -> Fraction:
    """What a page is worth where the budget ends; it gives the greatest of the sums of `least_sum`."""
    taken = list(way.first)
    pages = sum(it.pages for it in taken)
    for saves, at, item in way.steps:
        pages += item.pages - taken[at].pages
        taken[at] = item
        if pages > budget:
            return saves
    return Fraction(0)


def least_sum(classes: Classes, budget: int, page: Fraction) -> int:
    """A sum of costs that no choice that fits the budget undercuts, at any price of a page that isn't negative."""
    over, under = page.numerator, page.denominator
    total = sum(min(it.cost * under + over * it.pages for it in items) for items in classes) - over * budget
    return -(-total // under)


def along(way: Path, budget: int) -> list[Item]:
    """A choice that fits: every step of the path that does, in order."""
    taken = list(way.first)
    pages = sum(it.pages for it in taken)
    for _, at, item in way.steps:
        more = item.pages - taken[at].pages
        if pages + more <= budget:
            pages, taken[at] = pages + more, item
    return taken


def choose(classes: Classes, budget: int) -> list[Item]:
    """The best choice that is found, an item of each class of useful items; the first items have to fit."""
    way = path(classes)
    best = along(way, budget)
    left = _left(classes, budget, price(way, budget), cost_of(best))
    if all(len(it) == 1 for it in left):
        return [it[0] for it in left]
    room = budget
    while (found := _solved(left, room)) is not None:
        over = sum(it.pages for it in found) - budget
        if over <= 0:
            return min(best, found, key=cost_of)
        # What the solver takes for whole may be so to a millionth only.
        room -= over
    return best


def cost_of(chosen: Iterable[Item]) -> int:
    """The sum of costs."""
    return sum(it.cost for it in chosen)


def _left(classes: Classes, budget: int, page: Fraction, cost: int) -> list[list[Item]]:
    """The items without those that no choice as cheap as this cost has."""
    over, under = page.numerator, page.denominator
    priced = [[it.cost * under + over * it.pages for it in items] for items in classes]
    least = [min(it) for it in priced]
    spare = (cost * under) - (sum(least) - over * budget)
    return [
        [item for item, its in zip(items, prices, strict=True) if its - low <= spare]
        for items, prices, low in zip(classes, priced, least, strict=True)
    ]


def _solved(classes: Classes, budget: int) -> list[Item] | None:
    """What HiGHS chooses."""
    items = [it for kept in classes for it in kept]
    of_class = numpy.repeat(numpy.arange(len(classes)), [len(it) for it in classes])
    least = [(min(it.pages for it in kept), min(it.cost for it in kept)) for kept in classes]
    pages = [it.pages - least[at][0] for at, it in zip(of_class, items, strict=True)]
    costs = [it.cost - least[at][1] for at, it in zip(of_class, items, strict=True)]
    room = budget - sum(it for it, _ in least)
    if room < 0:
        return None
    part, share = _scale(max(pages)), _scale(max(costs))
    columns = numpy.arange(len(items))
    one_each = coo_array((numpy.ones(len(items)), (of_class, columns)), (len(classes), len(items)))
    fits = numpy.array([[-(-it // part) for it in pages]], dtype=float)
    answer = milp(
        numpy.array([it / share for it in costs]),
        integrality=numpy.ones(len(items)),
        bounds=Bounds(0, 1),
        constraints=(LinearConstraint(one_each.tocsr(), 1, 1), LinearConstraint(fits, -numpy.inf, room // part)),
        options={"mip_rel_gap": 0, "time_limit": SECONDS},
    )
    if answer.x is None:
        return None
    chosen: list[Item] = []
    at = 0
    for kept in classes:
        values = answer.x[at : at + len(kept)]
        chosen.append(kept[int(values.argmax())])
        at += len(kept)
    return chosen


def _scale(greatest: int) -> int:
    """A power of two that makes this number small enough."""
    return 1 << max(0, greatest.bit_length() - EXACT.bit_length() + 1)
