"""What is done to a block before it is written: bounds, look-ups, sources that are too many or apart."""
from __future__ import annotations

from collections.abc import Callable, Iterable

from cophy_pg.bounds import narrow, share
from cophy_pg.places import day_number
from cophy_pg.rewrite.block import MOST_SLOTS, Block, Condition, Test, Tie, spares
from cophy_pg.rewrite.ranges import number_value
from cophy_pg.rewrite.terms import ANY, Col, Mix, Slot, Term, Value
from cophy_pg.schema import Column

Note = Callable[[str], None]
GENERIC_PART = 200
"""PostgreSQL's generic plan takes a range of parameters to keep one row in 200."""
NARROWEST = 20
"""From this length on a column's range has whole numbers for a small share of it."""
MOST_LOOKED_UP, FEWER = 1000, 10
"""A nested loop looks up as many values at most, and no more than one for so many rows."""
SEARCHED = frozenset(("=", "IN", "<", "<=", ">", ">=", "BETWEEN"))
"""The tests by which an index is searched."""


def number_of(column: Column, value: Value) -> int | None:
    """The number that a value has for a column of this kind, if it is known."""
    if column.kind == "date":
        day = value.day()
        return day_number(day) if day is not None else None
    return value.known if column.kind == "int" and isinstance(value.known, int) else None


def is_parameter(value: Value) -> bool:
    """Whether nothing is known of a value."""
    return value.text == "?"


def is_wide(column: Column) -> bool:
    """Whether a small share of a column's range can be written as a literal range."""
    if column.bounds:
        return narrow(column.bounds, 1 / GENERIC_PART) is not None
    return column.has_range() and column.high - column.low >= NARROWEST  # type: ignore[operator]


def without_keys(block: Block, note: Note) -> None:
    """Takes columns that no index can have from all places that would make them keys of one; they stay needed."""
    if next(spares(block), None):
        note("no index")
    for it in [*block.conditions]:
        if isinstance(it, Test) and it.form in SEARCHED and it.col.column.no_key:
            note("no index")
            block.conditions[block.conditions.index(it)] = Test(it.col, "LIKE", (ANY,))
        elif isinstance(it, Tie) and it.left.slot is not it.right.slot and any(c.column.no_key for c in it.columns()):
            note("no index")
            block.conditions.remove(it)
            block.need(it.columns())
    for col in [it for it in block.group or () if it.column.no_key]:
        note("no index")
        block.need([col])
        block.group = [it for it in block.group or () if it != col]
    block.order = [(_made(it, note), down) for it, down in block.order]
    if block.distinct:
        block.items = [_made(it, note) for it in block.items]


def _made(term: Term, note: Note) -> Term:
    """A term of a list; a column that no index can have as an expression, whose order no index gives."""
    if not isinstance(term, Col) or not term.column.no_key:
        return term
    note("no index")
    return Mix((term,))


def join_bounds(block: Block, note: Note) -> None:
    """Writes a lower and an upper bound of a column as BETWEEN."""
    for col in dict.fromkeys(it.col for it in block.conditions if isinstance(it, Test)):
        if not col.column.has_range():
            continue
        lows = [it for it in block.conditions if isinstance(it, Test) and it.col == col and it.form in (">", ">=")]
        highs = [it for it in block.conditions if isinstance(it, Test) and it.col == col and it.form in ("<", "<=")]
        if len(lows) == 1 and len(highs) == 1:
            _join_pair(block, lows[0], highs[0], note)


def narrow_ranges(block: Block, note: Note) -> None:
    """Writes ranges of parameters as literal ones."""
    for at, it in enumerate(block.conditions):
        if (
            isinstance(it, Test)
            and it.form == "BETWEEN"
            and is_wide(it.col.column)
            and all(map(is_parameter, it.values))
        ):
            note("parameter range")
            block.conditions[at] = Test(it.col, "BETWEEN", _narrow(it.col.column))


def _join_pair(block: Block, low: Test, high: Test, note: Note) -> None:
    values = (low.values[0], high.values[0])
    known = [number_of(low.col.column, it) is not None for it in values]
    if all(known) or (all(map(is_parameter, values)) and is_wide(low.col.column)):
        if all(known):
            note("bounds")
        at = block.conditions.index(low)
        block.conditions[at] = Test(low.col, "BETWEEN", values)
        block.conditions.remove(high)


def _narrow(column: Column) -> tuple[Value, Value]:
    """The ends of a range that keeps about so much as a range of parameters does: by the histogram, or at the low end."""
    ends = narrow(column.bounds, 1 / GENERIC_PART) if column.bounds else None
    if ends is not None:
        return tuple(number_value(column, it) for it in ends)  # type: ignore[return-value]
    assert column.low is not None and column.high is not None
    width = max(1, round((column.high - column.low) / GENERIC_PART))
    return tuple(number_value(column, it) for it in (column.low, column.low + width))  # type: ignore[return-value]


def part_of(test: Condition) -> float:
    """The part of a table's rows that a test keeps, as the cost model takes it."""
    if isinstance(test, Tie):
        return 1.0
    distinct = test.col.column.distinct
    equal = 1 / distinct if distinct else 0.1
    if test.form in ("=", "IN"):
        return min(0.5 if test.form == "IN" else 1.0, equal * len(test.values))
    share = _share_of_range(test)
    if share is not None:
        return share
    return {"<>": 1 - equal, "IS NOT NULL": 1.0, "BETWEEN": 0.25, "LIKE": 0.1, "IS NULL": 0.1}.get(test.form, 1 / 3)


def _share_of_range(test: Test) -> float | None:
    """The share of a column's range that a test keeps; nothing where an end isn't known."""
    column = test.col.column
    known = [it for it in (number_of(column, value) for value in test.values) if it is not None]
    if column.bounds and len(known) == len(test.values):
        return _share_of_bounds(column.bounds, test.form.rstrip("="), known)
    if column.low is None or column.high is None or column.low >= column.high or len(known) < len(test.values):
        return None
    ends = {"BETWEEN": known, ">": [*known, column.high], "<": [column.low, *known]}.get(test.form.rstrip("="))
    if ends is None or len(ends) != 2:
        return None
    share = (min(ends[1], column.high) - max(ends[0], column.low)) / (column.high - column.low)
    return min(1.0, max(1e-9, share))


def _share_of_bounds(bounds: list[int], form: str, known: list[int]) -> float | None:
    """The share that a histogram gives to a test."""
    shares = [share(bounds, it) for it in known]
    ends = {"BETWEEN": shares, ">": [*shares, 1.0], "<": [0.0, *shares]}.get(form)
    return max(1e-9, ends[1] - ends[0]) if ends is not None and len(ends) == 2 else None


def slot_rows(block: Block, slot: Slot) -> float:
    """The rows of a slot that its own tests keep."""
    rows = float(max(1, slot.table.rows))
    for it in block.conditions:
        if isinstance(it, Test) and it.col.slot is slot:
            rows *= part_of(it)
    return max(1.0, rows)


def add_look_ups(block: Block, note: Note) -> None:
    """Says by IN what a nested loop would look up: as many values as the few rows on the other side of a join."""
    for tie in [*block.ties()]:
        for one, other in ((tie.left, tie.right), (tie.right, tie.left)):
            few, many = slot_rows(block, one.slot), slot_rows(block, other.slot)
            is_tested = any(
                isinstance(it, Test) and it.col == other and it.form in ("=", "IN") for it in block.conditions
            )
            if few <= MOST_LOOKED_UP and few * FEWER <= many and not is_tested:
                note("looked up")
                block.conditions.append(Test(other, "IN", (Value("?", None, False),) * round(few)))


def without_small(block: Block, note: Note) -> Block | None:
    """Drops small sources that hang on one other until 8 are left; nothing where that can't be."""
    while len(block.slots) > MOST_SLOTS:
        hanging = [it for it in block.slots if len({id(other) for other in _neighbours(block, it)}) == 1]
        if not hanging:
            return None
        note("source dropped")
        smallest = min(hanging, key=lambda it: it.table.rows)
        block = block.part([it for it in block.slots if it is not smallest])
    return block


def _neighbours(block: Block, slot: Slot) -> Iterable[Slot]:
    for tie in block.ties():
        if tie.left.slot is slot:
            yield tie.right.slot
        elif tie.right.slot is slot:
            yield tie.left.slot


def only(columns: Iterable[Col], slot: Slot) -> list[Col]:
    """Those columns that are of this slot."""
    return [it for it in columns if it.slot is slot]
