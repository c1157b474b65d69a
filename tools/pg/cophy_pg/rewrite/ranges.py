"""Values of tests, as the kinds of their columns have them, and ranges as the model counts them."""
from __future__ import annotations

import re
from datetime import date, datetime, timedelta
from decimal import Decimal

from cophy_pg.places import DAY_0, MOMENTS, cut, day_number, is_number, seconds_of
from cophy_pg.rewrite.block import Test
from cophy_pg.rewrite.terms import ANY, Col, Value, literal_of_day
from cophy_pg.schema import Column

CUTS = {"<": ("<=", (False,)), "<=": ("<=", (True,)), ">": (">", (True,)), ">=": (">", (False,))}
"""What a range is written as, and whether its end is cut behind the value or before it."""
BOTH = ("BETWEEN", (False, True))


def as_counted(col: Col, form: str, values: tuple[Value, ...]) -> Test | None:
    """A range of known ends in the numbers of its column's catalogue, as the model counts it: from above its low end up
    to its high one. Nothing where an end isn't known, or has no number."""
    if form not in (*CUTS, "BETWEEN") or not col.column.has_range():
        return None
    places = [place_of(col.column, it) for it in values]
    written, sides = BOTH if form == "BETWEEN" else CUTS[form]
    numbers = [cut(col.column, it, side) for it, side in zip(places, sides, strict=True) if it is not None]
    if len(numbers) < len(values) or not all(is_number(col.column, it) for it in numbers):
        return None
    return Test(col, written, tuple(number_value(col.column, it) for it in numbers))


def fitted(col: Col, value: Value) -> Value:
    """A value as the kind of its column reads it: a day for a date, a whole number for an int."""
    if col.column.kind == "date" or col.column.type in MOMENTS:
        day = value.day()
        return literal_of_day(day) if day is not None else value if value.text in ("NULL", "?") else ANY
    if col.column.kind == "int" and isinstance(value.known, str):
        text = value.known.strip()
        return Value(str(int(text)), int(text)) if re.fullmatch(r"[+-]?\d{1,18}", text) else ANY
    return value


def place_of(column: Column, value: Value) -> Decimal | None:
    """Where a literal stands among the numbers of a column; nothing where it is none."""
    if column.kind == "date" or column.type in MOMENTS:
        day = value.day()
        return _moment(column, value, day) if day is not None else None
    known = value.known
    if isinstance(known, str) and re.fullmatch(r"\s*[+-]?\d{1,18}(\.\d{1,18})?\s*", known):
        known = Decimal(known.strip())
    if column.kind != "int" or not isinstance(known, (int, Decimal)):
        return None
    at = Decimal(known).scaleb(column.scale)
    # Of a column without a type it isn't known whether values lie between its numbers.
    return at if column.type or at == at.to_integral_value() else None


def _moment(column: Column, value: Value, day: date) -> Decimal:
    """The place of a day, or of a moment of it; a text is cut to the day where it meets a day."""
    at, seconds = day_number(day), Decimal(0)
    if isinstance(day, datetime) and not (column.kind == "date" and isinstance(value.known, str)):
        seconds = Decimal((day - datetime(day.year, day.month, day.day)).total_seconds())
    return at + seconds / 86400 if column.kind == "date" else seconds_of(at) + seconds


def number_value(column: Column, number: int) -> Value:
    """A number of a column as a literal."""
    if column.kind == "date":
        return literal_of_day(DAY_0 + timedelta(days=number))
    return Value(str(number), number)
