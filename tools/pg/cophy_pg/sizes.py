"""How large picks are as PostgreSQL stores them, beside the pages that the model counts."""
from __future__ import annotations

import math
from collections.abc import Iterable

from cophy_text.answers import Candidate, counted
from cophy_text.shown import space
from cophy_pg.ddl import NoIndex, names_of
from cophy_pg.included import key_count
from cophy_pg.schema import Column, Schema
from cophy_pg.stored import LONG, NOT_SHARED, Part, pages

ALIGNED = {
    **dict.fromkeys(("int8", "float8", "timestamp", "timestamptz", "time", "timetz", "interval", "money"), 8),
    **dict.fromkeys(("int4", "float4", "date", "oid"), 4),
    "int2": 2,
}
"""The types of a fixed length that stand at a multiple of so many bytes; others do where they are long."""

SIZE = """SELECT coalesce(sum(pg_relation_size(c.oid)), 0)::int8 FROM pg_class c JOIN pg_namespace n ON n.oid = c.relnamespace
WHERE c.relkind IN ('r', 'm') AND n.nspname NOT IN ('pg_catalog', 'information_schema') AND n.nspname !~ '^pg_toast'"""
"""The bytes of all tables."""
FIXED = frozenset(("bool", "uuid", "char", "macaddr", "macaddr8"))
"""Other types all of whose values have as many bytes."""
SAMPLED = 30000
"""The rows of which ANALYZE knows each, at its default; of more it counts distinct values in a sample."""
DENSE, LOOSE, FEW = 2, 8, 8
"""Whole numbers lie close where they have at most so many places for each that is known; more where each has few rows, since
ANALYZE's count is far too low there."""


def values_of(column: Column, rows: int) -> float:
    """How many values a column has. ANALYZE's count comes from a sample, and is too low where each value has few rows; of
    whole numbers that lie close, as the keys of another table do, at least as many occur as so many draws hit, in each part
    of the histogram."""
    known = min(rows, column.distinct or rows)
    if rows <= SAMPLED or column.kind == "text" or column.scale or column.has_fractions or not column.has_range():
        return known
    ends = [it for it in column.bounds or (column.low, column.high) if it is not None]
    if ends[-1] - ends[0] + 1 > (LOOSE if rows <= FEW * known else DENSE) * known:
        return known
    drawn = rows * (1 - column.nulls) / (len(ends) - 1)
    wide = [last - first + (at == 0) for at, (first, last) in enumerate(zip(ends, ends[1:]))]
    return max(known, -sum(it * math.expm1(-drawn / it) for it in wide if it))


def part_of(column: Column, rows: int) -> Part:
    """A column in an entry; one whose type isn't known as its kind and its width let suppose."""
    if column.type or column.kind == "text" or column.width not in (2, 4, 8):
        alignment = ALIGNED.get(column.type, 4 if column.width >= LONG else 1)
    else:
        alignment = column.width
    varies = column.kind == "text" and column.type not in ALIGNED and column.type not in FIXED
    sizes = tuple(column.sizes) if varies else ()
    if sizes:
        alignment = 1
    values = values_of(column, rows)
    return Part(column.width, alignment, values, column.nulls, varies, column.common, sizes, column.correlation)


def stored_pages(schema: Schema, pick: Candidate) -> int | None:
    """The pages of a pick as PostgreSQL stores it, in which columns may be included; none where the table is laid in the order
    of an index that is there, and nothing where it isn't of this catalogue."""
    try:
        table, names = names_of(schema, pick)
    except NoIndex:
        return None
    if pick.is_clustered and table.index_over(names) is not None:
        return 0
    columns = [table.columns[it] for it in names]
    rows = max(1, table.rows)
    is_whole = key_count(pick, schema.searched) == len(columns)
    is_shared = is_whole and not any(it.type in NOT_SHARED for it in columns)
    return pages(rows, [part_of(it, rows) for it in columns], is_shared)


def stored_size(schema: Schema, picks: Iterable[Candidate]) -> int:
    """The pages of picks together."""
    known = ((it.pages, stored_pages(schema, it)) for it in picks)
    return sum(model if stored is None else stored for model, stored in known)


def both(model: int, stored: int | None) -> str:
    """The pages that the model counts, and those that PostgreSQL takes, where that is known."""
    more = f", as PostgreSQL stores it about {_shown(stored)}" if stored is not None else ""
    return _shown(model) + more


def _shown(pages: int) -> str:
    return f"{counted(pages, 'page')} ({space(pages)})"
