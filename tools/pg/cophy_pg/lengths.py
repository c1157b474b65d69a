"""What the sizes of indexes need to know of a column, by the statistics of a server: how many bytes its texts take, and whether
the rows lie in its order."""
from __future__ import annotations

from collections.abc import Sequence

from cophy_pg.schema import Column, share_of
from cophy_pg.stored import LONG

PARTS = 40
"""A list of sizes has so many, where they aren't all the same."""
WHOLE = 500
"""Longer values may be compressed in an index."""
ORDERED = 0.99
LEAST_VALUES, MOST_COMMON = 100, 0.05
"""Of rows with the same value the server takes those that lie first for the lesser, so that a correlation tells of an order only
where there are many values and none of them is common."""


def sizes_of(common: Sequence[tuple[int, float]], others: Sequence[int]) -> list[int]:
    """The sizes of values with their headers, each of as many rows, by the lengths of the common values with their shares of
    the rows and those of some others, which have the rest; none where a value is very long or none is known."""
    rest = max(0.0, 1 - sum(share for _, share in common))
    known = sorted([*common, *((it, rest / len(others)) for it in others)])
    if not known or known[-1][0] > WHOLE:
        return []
    whole = sum(share for _, share in known)
    found, reached = list[int](), 0.0
    for length, share in known:
        reached += share
        while len(found) < PARTS and (len(found) + 0.5) * whole <= PARTS * reached:
            found.append(length + (1 if length < LONG else 4))
    return found if found and found[0] < found[-1] else found[:1]


def ordered_by(column: Column, correlation: float) -> float:
    """How nearly the rows lie in the order of a column, be it downwards; 0 where they don't nearly, or it can't be told."""
    near = round(share_of(abs(correlation)), 6)
    many = (column.distinct or 0) >= LEAST_VALUES and column.common <= MOST_COMMON
    return near if many and near >= ORDERED else 0.0
