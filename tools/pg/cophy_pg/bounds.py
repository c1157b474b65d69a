"""Histograms of columns: PostgreSQL's most common values and its histogram as one distribution, in parts of as many rows."""
from __future__ import annotations

import math
from bisect import bisect_right
from collections.abc import Iterable, Sequence
from dataclasses import dataclass
from itertools import pairwise

MOST_PARTS = 256
MOST_BYTES = 8_000_000
"""The ends of all columns take so many bytes of a catalogue, at most."""
BYTES_OF_END = 22

Number = int | float


@dataclass(frozen=True)
class Piece:
    """A part of the rows between two values, evenly; of a common value both are the same."""

    low: Number
    high: Number
    mass: float

    def at(self, part: float) -> int:
        """The value up to which so much of this part of the rows lies."""
        if self.low == self.high:
            return math.ceil(self.low)
        if isinstance(self.low, int) and isinstance(self.high, int):
            return self.low + min(self.high - self.low, round((self.high - self.low) * part))
        return round(self.low + (self.high - self.low) * part)


def parts_for(columns: int) -> int:
    """How many parts each of so many columns may have, so that a catalogue isn't too long."""
    return max(2, min(MOST_PARTS, MOST_BYTES // (BYTES_OF_END * max(1, columns))))


def bounds_of(
    common: Iterable[tuple[Number, float]], histogram: Sequence[Number], rest: float, parts: int
) -> list[int]:
    """The ends of a column's parts; none where nothing is known. `common` are its common values, each with its share of the
    rows that have a value, and `rest` is the share of the histogram."""
    points = [Piece(value, value, mass) for value, mass in common if mass > 0]
    depth = rest / max(1, len(histogram) - 1)
    buckets = [Piece(low, high, depth) for low, high in pairwise(histogram)] if rest > 0 else []
    if not points and len(buckets) <= parts:
        return _begun([round(it) for it in histogram] if buckets else [])
    pieces = _merged(points, buckets)
    return _begun(_cut(pieces, parts)) if pieces else []


def _merged(points: list[Piece], buckets: list[Piece]) -> list[Piece]:
    """All pieces in their order, with the buckets cut at the common values within them."""
    points = sorted(points, key=lambda it: it.low)
    found: list[Piece] = []
    at = 0
    for bucket in buckets:
        low, left = bucket.low, bucket.mass
        while at < len(points) and points[at].low < bucket.high:
            value = points[at].low
            if value > low:
                mass = bucket.mass * ((value - low) / (bucket.high - bucket.low))
                found.append(Piece(low, value, mass))
                low, left = value, left - mass
            found.append(points[at])
            at += 1
        found.append(Piece(low, bucket.high, max(0.0, left)))
    return found + points[at:]


def _cut(pieces: list[Piece], parts: int) -> list[int]:
    """The ends that cut pieces into parts of one mass."""
    whole = sum(it.mass for it in pieces)
    ends = [math.floor(pieces[0].low)]
    before, at = 0.0, 0
    for number in range(1, parts + 1):
        wanted = whole * number / parts
        while at < len(pieces) - 1 and before + pieces[at].mass < wanted * (1 - 1e-12):
            before += pieces[at].mass
            at += 1
        part = (wanted - before) / pieces[at].mass if pieces[at].mass > 0 else 1.0
        ends.append(max(ends[-1], pieces[at].at(min(1.0, max(0.0, part)))))
    ends[-1] = max(ends[-1], math.ceil(pieces[-1].high))
    return ends


def _begun(ends: list[int]) -> list[int]:
    """Ends whose first is one below the least value where much lies on that, since nothing lies up to the first end."""
    if len(ends) > 1 and ends[0] == ends[1]:
        ends[0] -= 1
    return ends


def share(bounds: Sequence[int], value: int) -> float:
    """How much of all rows lies up to a value, as the cost model takes it."""
    if value <= bounds[0]:
        return 0.0
    if value >= bounds[-1]:
        return 1.0
    at = bisect_right(bounds, value) - 1
    return (at + (value - bounds[at]) / (bounds[at + 1] - bounds[at])) / (len(bounds) - 1)


def at_share(bounds: Sequence[int], part: float) -> int:
    """The value up to which such a share of the rows lies."""
    places = min(1.0, max(0.0, part)) * (len(bounds) - 1)
    at = min(len(bounds) - 2, math.floor(places))
    return bounds[at] + round((bounds[at + 1] - bounds[at]) * (places - at))


def narrow(bounds: Sequence[int], part: float) -> tuple[int, int] | None:
    """The first range of values between which about this part of the rows lies; nothing where none has that."""
    best: tuple[float, int, int] | None = None
    for low in dict.fromkeys(bounds[:-1]):
        wanted = share(bounds, low) + part
        if wanted > 1:
            break
        at = min(len(bounds) - 2, math.floor(wanted * (len(bounds) - 1)))
        inside = wanted * (len(bounds) - 1) - at
        high = bounds[at] + max(0, math.ceil(inside * (bounds[at + 1] - bounds[at]) - 1e-6))
        found = share(bounds, high) - share(bounds, low)
        away = abs(math.log(found / part)) if found > 0 else math.inf
        if best is None or away < best[0] - 0.05:
            best = away, low, high
    return best[1:] if best is not None and best[0] <= math.log(2) else None
