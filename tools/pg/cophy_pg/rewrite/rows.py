"""How many rows there are: those of a block, and literal ranges that hold as many as a call gave, or as LIMIT leaves."""
from __future__ import annotations

import math
from typing import Any

from pglast import ast

from cophy_pg.bounds import at_share, narrow, share
from cophy_pg.rewrite.block import Block, Condition, Test, Tie
from cophy_pg.rewrite.finish import MOST_LOOKED_UP, Note, is_parameter, number_of, part_of
from cophy_pg.rewrite.ranges import number_value
from cophy_pg.rewrite.scope import Common
from cophy_pg.rewrite.terms import ANY, ITEM, SUBQUERY, Col, Unknown, aggregates
from cophy_pg.schema import Column

BELOW, ABOVE = frozenset(("<", "<=")), frozenset((">", ">="))
RANGES = BELOW | ABOVE | {"BETWEEN"}
REACHED = 0.9
"""Where a call gives a smaller part of what LIMIT allows, the limit isn't reached."""


def block_rows(block: Block, without: list[Condition] | None = None) -> float:
    """The rows of all sources of a block, as the cost model takes them, without some of its conditions; what is compared
    with a subquery isn't known before that has run."""
    rows = math.prod(float(max(1, it.table.rows)) for it in block.slots)
    for it in block.conditions:
        if it in (without or ()):
            continue
        if isinstance(it, Tie):
            rows /= max((col.column.distinct or 0 for col in it.columns()), default=0) or 10
        elif not any(value is SUBQUERY for value in it.values):
            rows *= part_of(it)
    return max(1.0, rows)


def is_plain(block: Block) -> bool:
    """Whether a block gives a row for each that it finds."""
    is_grouped = block.group is not None or block.distinct or bool(block.having)
    return not is_grouped and not any(next(aggregates(it), None) for it in block.items)


def most_rows(tree: Any, common: dict[str, Common], changed: int | None) -> int | None:
    """The rows that a query gives at most, where its LIMIT or the query of WITH that it reads says that; a limit that is a
    parameter stands for the rows that a call of the whole statement changed."""
    if isinstance(tree.limitCount, ast.A_Const):
        return tree.limitCount.val.ival if isinstance(tree.limitCount.val, ast.Integer) else None
    if tree.limitCount is not None:
        return changed
    sources: Any = tree.fromClause or ()
    if len(sources) != 1 or not isinstance(sources[0], ast.RangeVar) or sources[0].schemaname:
        return None
    found = common.get(sources[0].relname)
    listed = [*found.entry.columns.values()] if found is not None and found.entry is not None else []
    return next((it.rows for it in listed if isinstance(it, Unknown)), None)


def hold_rows(block: Block, note: Note) -> None:
    """Writes ranges of parameters, all of one source, as literal ones that hold as many rows as a call gave or changed."""
    asked = [it for it in block.conditions if _is_asked(it)]
    if block.rows is None or block.limit or len({id(it.columns()[0].slot) for it in asked}) != 1:
        return
    part = min(1.0, max(1.0, block.rows) / block_rows(block, [*asked]))
    for it in asked:
        assert isinstance(it, Test)
        found = _holding(it, part ** (1 / len(asked)))
        if found is not None:
            note("rows of a call")
            block.conditions[block.conditions.index(it)] = found


def hold_items(block: Block, note: Note) -> None:
    """Gives an array of which nothing is known as many items as find the rows that a call gave or changed."""
    arrays = [it for it in block.conditions if isinstance(it, Test) and any(value is ITEM for value in it.values)]
    if block.rows is None or block.limit or len(block.slots) != 1 or len(arrays) != 1:
        return
    distinct = arrays[0].col.column.distinct
    if distinct:
        found = round(block.rows * distinct / block_rows(block, [*arrays]))
        note("rows of a call")
        items = Test(arrays[0].col, "IN", (ANY,) * min(MOST_LOOKED_UP, max(1, found)))
        block.conditions[block.conditions.index(arrays[0])] = items


def _is_asked(test: Condition) -> bool:
    is_range = isinstance(test, Test) and test.form in RANGES and test.col.column.has_range()
    return is_range and all(map(is_parameter, test.values)) and not any(it is SUBQUERY for it in test.values)  # type: ignore[union-attr]


def _holding(test: Test, part: float) -> Test | None:
    """A literal range for one of parameters that holds about this part of the rows; nothing where none does."""
    if test.form == "BETWEEN":
        found = _middle(test.col, part)
    else:
        found = between(test.col, *((0.0, part) if test.form in BELOW else (1 - part, 1.0)))
    held = part_of(found) if found is not None else 0.0
    return found if part / 2 <= held <= 2 * part else None


def _middle(col: Col, part: float) -> Test | None:
    if not col.column.bounds:
        return between(col, 0.0, part)
    ends = narrow(col.column.bounds, part)
    return Test(col, "BETWEEN", tuple(number_value(col.column, it) for it in ends)) if ends is not None else None


def between(col: Col, low: float, high: float) -> Test:
    """The range from one share of a column's rows to another."""
    least, most = _number(col.column, 0.0), _number(col.column, 1.0)
    upper = min(most, max(_number(col.column, high), least + 1))
    lower = max(least, min(_number(col.column, low), most - 1))
    if low <= 0:
        return Test(col, "<=", (number_value(col.column, upper),))
    if high >= 1:
        return Test(col, ">", (number_value(col.column, lower),))
    numbers = (lower, max(upper, lower + 1))
    return Test(col, "BETWEEN", tuple(number_value(col.column, it) for it in numbers))


def _number(column: Column, part: float) -> int:
    """The number up to which such a share of a column's rows lies."""
    if column.bounds:
        return at_share(column.bounds, part)
    assert column.low is not None and column.high is not None
    return column.low + round((column.high - column.low) * part)


def hold_limit(block: Block, note: Note) -> None:
    """Writes a literal range of the first column to order by that holds as many rows as LIMIT leaves. PostgreSQL reads no
    more of an index that gives the order."""
    count = _left(block)
    col, is_down = block.order[0] if block.order else (None, False)
    if count is None or not is_plain(block) or not isinstance(col, Col) or col.column.no_key:
        return
    tests = [it for it in block.conditions if isinstance(it, Test)]
    on = [it for it in tests if it.col == col and it.form in RANGES]
    is_bound = any(it.col == col and it.form in ("=", "IN", "LIKE") for it in tests)
    if not col.column.has_range() or is_bound or any(it.form == "IS NULL" for it in tests):
        return
    low, high = _shares(col.column, on)
    part = max(1, count) / block_rows(block, [*on])
    if part >= high - low:
        return
    note("limit range")
    block.conditions = [it for it in block.conditions if it not in on]
    block.conditions.append(between(col, high - part, high) if is_down else between(col, low, low + part))


def _left(block: Block) -> float | None:
    """The rows that LIMIT leaves, with those that OFFSET passes over; nothing where that isn't known, or more than there
    are."""
    more = int(block.offset) if block.offset.isdigit() else 0
    if block.limit.isdigit():
        count = int(block.limit)
        is_reached = block.rows is None or bool(block.offset) or block.rows >= REACHED * count
        return count + more if is_reached else None
    return block.rows + more if block.limit and block.rows is not None else None


def _shares(column: Column, tests: list[Test]) -> tuple[float, float]:
    """The shares of a column's rows between which known ranges leave some."""
    low, high = 0.0, 1.0
    for it in tests:
        known = [number_of(column, value) for value in it.values]
        parts = [_share(column, number) for number in known if number is not None]
        if len(parts) == len(known):
            low = max(low, parts[0]) if it.form not in BELOW else low
            high = min(high, parts[-1]) if it.form not in ABOVE else high
    return low, max(low, high)


def _share(column: Column, number: int) -> float:
    if column.bounds:
        return share(column.bounds, number)
    assert column.low is not None and column.high is not None
    return min(1.0, max(0.0, (number - column.low) / (column.high - column.low)))
