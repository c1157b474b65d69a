"""How large a B-tree index is as PostgreSQL stores it, freshly built, by the widths of its columns."""
from __future__ import annotations

import math
from collections import Counter
from collections.abc import Iterable, Sequence
from dataclasses import dataclass, replace

ALIGNMENTS = {"c": 1, "s": 2, "i": 4, "d": 8}
HEADER, HEADER_WITH_NULLS, POINTER, ROW_PLACE = 8, 16, 4, 6
GAP = 3
"""The bytes that are lost on average at the end of a list of many rows, which takes a multiple of 8."""
FEW, MOST_LISTED = 20.0, 60
"""Where keys have fewer rows than that on average, what is lost is reckoned for each length of a list up to some."""
FILLED, ROOM = 0.9, 8150
MOST_PLACES = 132
"""So many rows at most share one stored key: those that fit in a tenth of a page."""
FAN_OUT, FILLED_ABOVE = 250, 0.7
"""A page above the leaves is filled so far, with an entry over the first column for each page below, of which it has so many
at most."""
LONG, LONG_AT = 127, 4
"""A value without a fixed length stands at a multiple of its alignment from so many bytes on: for texts of 4."""
SPREAD = math.sqrt(12)
"""So many times as far as values are apart do they spread, where each distance is as common."""
LEAST_NULLS = 0.02
"""A smaller share of rows without a value changes little."""
NOT_SHARED = frozenset(("numeric", "float4", "float8", "jsonb", "interval"))
"""Types whose equal values may differ in their bytes, so that no key is stored for several rows."""


@dataclass(frozen=True)
class Part:
    """A column in an entry: the average bytes of a value, its alignment, how many values there are, the share of the rows that
    have none, whether values may differ in their bytes, the share of the most common value, where it is known, the bytes of
    values, of as many rows each, where they are, and how nearly the rows lie in its order, where they nearly do."""

    size: int
    alignment: int
    distinct: float
    nulls: float = 0.0
    varies: bool = False
    common: float = 0.0
    sizes: tuple[int, ...] = ()
    correlation: float = 0.0

    def shares(self) -> dict[int, float]:
        """The bytes that values take, with the share of the rows that take so many. Where values may differ and nothing more
        is known, one that isn't the most common one has any size around the average."""
        if self.sizes:
            return {it: count / len(self.sizes) for it, count in Counter(self.sizes).items()}
        found = {self.size: self.common if self.varies else 1.0}
        for it in range(self.size - 3, self.size + 5) if self.varies else ():
            found[max(1, it)] = found.get(max(1, it), 0.0) + (1 - self.common) / 8
        return found

    def found_in(self, rows: float, most: float) -> float:
        """How many values so many rows have of at most so many. Those beside the most common one are as common as each other."""
        count = max(1.0, min(most, self.distinct))
        first = max(1 / count, min(1.0, self.common))
        other = (1 - first) / (count - 1) if count > 1 else 0.0
        return _hit(rows, first) + (count - 1) * _hit(rows, other)


def pages(rows: float, columns: Sequence[Part], is_shared: bool) -> int:
    """The pages of 8192 bytes of an index over so many rows; `is_shared` says whether its kind stores a key once for
    several rows."""
    # What would make a page fuller than it is to be goes to the next one: half an entry on average.
    room = max(FILLED * ROOM / 2, FILLED * ROOM - _entry(columns, HEADER) / 2)
    leaves = max(1, math.ceil(_size(rows, columns, is_shared, HEADER) / room))
    above, level = 0, leaves
    fan_out = max(2, min(FAN_OUT, int(FILLED_ABOVE * ROOM / _entry(columns[:1], HEADER))))
    while level > 1:
        level = math.ceil(level / fan_out)
        above += level
    return 1 + leaves + above


def _size(rows: float, columns: Sequence[Part], is_shared: bool, header: int) -> float:
    """The bytes of all entries, those without a value apart."""
    at = next((at for at, it in enumerate(columns) if it.nulls >= LEAST_NULLS), None)
    if at is not None:
        share, before, after = columns[at].nulls, columns[:at], columns[at + 1 :]
        with_value = _size(rows * (1 - share), [*before, replace(columns[at], nulls=0.0), *after], is_shared, header)
        return with_value + _size(rows * share, [*before, *after], is_shared, HEADER_WITH_NULLS)
    entry = _entry(columns, header)
    if not is_shared or rows < 1:
        return rows * entry
    keys = _keys(rows, columns)
    level = _level(rows, keys)
    alone = rows * math.exp(-level)
    keys = max(keys, rows / MOST_PLACES)
    return keys * entry + (rows - alone) * ROW_PLACE + (keys - alone) * _gap(level)


def _entry(columns: Sequence[Part], header: int) -> float:
    """The bytes of an entry with its pointer, on average; at least those of average values where a column's sizes aren't
    known."""
    shares, plain = {header: 1.0}, header
    for it in columns:
        plain = _aligned(plain, it.alignment) + it.size
        longer, own = dict[int, float](), it.shares()
        for before, share in shares.items():
            for size, part in own.items():
                end = _aligned(before, LONG_AT if it.sizes and size > LONG else it.alignment) + size
                longer[end] = longer.get(end, 0.0) + share * part
        shares = longer
    least = _aligned(plain, 8) if any(it.varies and not it.sizes for it in columns) else 0
    return POINTER + max(least, sum(share * _aligned(size, 8) for size, share in shares.items()))


def _keys(rows: float, columns: Iterable[Part]) -> float:
    """The distinct keys of so many rows over columns that have nothing to do with each other, but for those in whose order the
    rows lie: what these have beside a value of another one is near it."""
    found, before = 1.0, list[Part]()
    for it in sorted(columns, key=lambda it: -it.distinct):
        near = min((_near(it, other) for other in before if it.correlation and other.correlation), default=rows)
        found *= it.found_in(rows / found, min(rows, near)) if before else max(1.0, min(rows, it.distinct))
        before.append(it)
    return min(rows, found)


def _near(column: Part, other: Part) -> float:
    """How many values a column has beside one of another, where the rows lie nearly in the order of both: places in two orders
    whose correlation is c are apart by the root of (1 - c) / 6 of all."""
    apart = math.sqrt((2 - column.correlation - other.correlation) / 6)
    return max(1.0, column.distinct * min(1.0, SPREAD * apart + 1 / max(1.0, other.distinct)))


def _hit(rows: float, share: float) -> float:
    """How likely it is that some of so many rows have a value with this share."""
    return 1.0 if share >= 1 else -math.expm1(rows * math.log1p(-share))


def _level(rows: float, keys: float) -> float:
    """The rows of a key on average, keys without any counted too, where it is chance which rows share one."""
    low, high = 0.0, rows / keys
    for _ in range(40):
        middle = (low + high) / 2
        is_more = middle > 0 and middle / -math.expm1(-middle) > rows / keys
        low, high = (low, middle) if is_more else (middle, high)
    return low


def _gap(level: float) -> float:
    """The bytes that are lost on average at the end of the list of a key that several rows share."""
    if level > FEW:
        return GAP
    share, shares, lost = 1.0, 0.0, 0.0
    for rows in range(2, MOST_LISTED):
        share *= level / rows
        shares, lost = shares + share, lost + share * (-ROW_PLACE * rows % 8)
    return lost / shares if shares else GAP


def _aligned(size: int, alignment: int) -> int:
    return (size + alignment - 1) // alignment * alignment
