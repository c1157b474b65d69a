"""The curve of cost and bound over the budget: its steps, and it as a picture in SVG."""
from __future__ import annotations

import math
from dataclasses import dataclass
from typing import Any

from cophy_text.shown import grouped, percent, space

WIDTH, HEIGHT, LEFT, RIGHT, BOTTOM, TOP = 640, 300, 70, 20, 40, 28
DIGIT, LINE = 12, 22
"""How wide a digit and how high a line is at most, on a narrow screen, with the space beside it."""


@dataclass(frozen=True)
class Point:
    """An advice for a budget: its size in pages, its cost, its bound and how many indexes it has."""

    budget: int
    size: int
    cost: int
    bound: int
    picks: int


@dataclass(frozen=True)
class Corner:
    """Where a line of steps has a new height; `picks` is of a cost."""

    pages: int
    cost: int
    picks: int = 0


def cost_steps(points: list[Point]) -> list[Corner]:
    """What the workload costs from each amount of space on: an advice is to be had from its own size on."""
    found: list[Corner] = []
    for it in sorted(points, key=lambda it: (it.size, it.cost)):
        if not found or it.cost < found[-1].cost:
            found.append(Corner(it.size, it.cost, it.picks))
    return found


def bound_steps(points: list[Point]) -> list[Corner]:
    """What no indexes undercut up to each budget: a bound holds for every smaller budget too."""
    found: list[Corner] = []
    for it in sorted(points, key=lambda it: (-it.budget, -it.bound)):
        if not found or it.bound > found[-1].cost:
            found.append(Corner(it.budget, it.bound))
    return found[::-1]


def curve_of(document: list[dict[str, Any]], without: int) -> dict[str, Any] | None:
    """The lines of cost and bound over the budget, and what stands at the axes; nothing where there are too few points. A
    share is one of what the workload costs without indexes. Space is drawn by its root, so that small budgets are seen.
    """
    points = [
        Point(int(it["budget"]), int(it["size"]), int(it["cost"]), int(it["bound"]), len(it["picks"]))
        for it in document
    ]
    points.sort(key=lambda it: it.budget)
    if len(points) < 2 or points[-1].budget == points[0].budget:
        return None
    # Beyond the last budget there is room for the number of indexes there.
    last, most = points[-1].budget, max(1, without, *(it.cost for it in points))
    end = last + last // 10

    def across(budget: int) -> float:
        return round(LEFT + (WIDTH - LEFT - RIGHT) * math.sqrt(budget / end), 1)

    def up(cost: int) -> float:
        return round(HEIGHT - BOTTOM - (HEIGHT - BOTTOM - TOP) * max(0, cost) / most, 1)

    costs, bounds = cost_steps(points), bound_steps(points)
    down = "".join(f"H{across(it.pages)}V{up(it.cost)}" for it in costs[1:])
    back = "".join(f"V{up(it.cost)}H{across(it.pages)}" for it in bounds[1:])
    return {
        "width": WIDTH,
        "height": HEIGHT,
        "left": LEFT,
        "right": WIDTH - RIGHT,
        "base": HEIGHT - BOTTOM,
        "cost": f"M{across(costs[0].pages)} {up(costs[0].cost)}{down}H{across(end)}",
        "bound": f"M{LEFT} {up(bounds[0].cost)}H{across(bounds[0].pages)}{back}",
        "dots": _labelled([(across(it.pages), up(it.cost), it.picks) for it in costs]),
        "ups": [(up(it), f"{100 * it / most:.0f} %") for it in (0, most // 2, most)],
        "acrosses": [(across(it), space(it)) for it in dict.fromkeys((0, last // 16, last // 4, last))],
        "rows": [_row(it, most) for it in _different(points)],
    }


def _labelled(dots: list[tuple[float, float, int]]) -> list[tuple[float, float, str]]:
    """Dots with their numbers; one that would stand on the number before it is left out."""
    found, end, base = list[tuple[float, float, str]](), 0.0, 0.0
    for x, y, picks in dots:
        is_free = x >= end or y - base >= LINE
        found.append((x, y, str(picks) if is_free else ""))
        if is_free:
            end, base = x + DIGIT * (1 + len(str(picks))), y
    return found


def _different(points: list[Point]) -> list[Point]:
    """The points, of those with one advice the one with the least budget."""
    return [
        it for at, it in enumerate(points) if not at or (it.size, it.cost) != (points[at - 1].size, points[at - 1].cost)
    ]


def _row(it: Point, most: int) -> dict[str, Any]:
    return {
        "budget": space(it.budget),
        "size": space(it.size),
        "picks": it.picks,
        "cost": grouped(it.cost / 1000),
        "saved": percent(100 * (most - it.cost) / most),
        "bound": grouped(it.bound / 1000),
    }
