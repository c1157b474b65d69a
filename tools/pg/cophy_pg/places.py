"""Where the values of a column stand among each other, as whole numbers: those of a catalogue.

A number stands for a value times ten to the power of the column's scale, for a second, or for a day.
"""
from __future__ import annotations

import math
import re
from collections.abc import Iterable
from datetime import date, timedelta
from decimal import Decimal, InvalidOperation
from typing import Any

from cophy_pg.schema import Column

MOST_NUMBER = 10**18
MOST_DIGITS = 4
"""Numbers of so many digits after the point count whole, as those of cents."""
FINEST, MOST_SCALE = 10**6, 9
"""Where values have more digits, so many numbers at least lie between the least and the greatest."""
DAY_0 = date(1970, 1, 1)
MOMENTS = frozenset(("timestamp", "timestamptz"))
"""Types whose values are seconds since the begin of 1970, zones passed over."""

_TIME = re.compile(r"[\d-]{10}[ T](\d\d):(\d\d):(\d\d(?:\.\d+)?)")


def set_scale(column: Column, values: Iterable[Any]) -> None:
    """Says of a column in which unit its numbers are, and whether values lie between them, by some of its values."""
    if column.type in MOMENTS:
        column.has_fractions = any(isinstance(place(column, it), float) for it in values)
        return
    found = [it for it in map(_decimal, values) if it is not None]
    if column.kind != "int" or not found:
        return
    digits = max(0, *(-int(it.normalize().as_tuple().exponent) for it in found))
    span, greatest = max(found) - min(found), max(abs(it) for it in found)
    if digits > MOST_DIGITS or greatest * 10 ** (digits + 1) > MOST_NUMBER:
        column.has_fractions, digits = True, 0
        while 0 < span * 10**digits < FINEST and digits < MOST_SCALE and greatest * 10 ** (digits + 2) <= MOST_NUMBER:
            digits += 1
    column.scale = digits


def ends(column: Column, values: list[Any]) -> tuple[int | None, int | None]:
    """The least and the greatest of values as a catalogue writes them: numbers rounded outwards."""
    if column.kind == "text":
        return None, None
    found = [it for it in (place(column, it) for it in values) if it is not None]
    if not found:
        return None, None
    low, high = math.floor(min(found)), math.ceil(max(found))
    return (low, high) if -MOST_NUMBER <= low and high <= MOST_NUMBER else (None, None)


def place(column: Column, value: Any) -> int | float | None:
    """Where a value stands among those of its column."""
    if column.kind == "int" and column.type not in MOMENTS:
        given = _decimal(value)
        if given is None or abs(given) * 10**column.scale > MOST_NUMBER:
            return None
        number = given.scaleb(column.scale)
        return int(number) if number == number.to_integral_value() else float(number)
    day, time = _day(value), _TIME.match(str(value))
    if day is None or column.kind == "date":
        return day
    seconds = 3600 * int(time[1]) + 60 * int(time[2]) + float(time[3]) if time else 0.0
    return seconds_of(day) + (int(seconds) if seconds.is_integer() else seconds)


def seconds_of(day: int) -> int:
    """The number of the second at which a day begins."""
    return 86400 * day


def is_number(column: Column, number: int) -> bool:
    """Whether a number can stand in a catalogue and in a workload."""
    if column.kind == "date":
        return day_number(date.min) <= number <= day_number(date.max)
    return -MOST_NUMBER < number < MOST_NUMBER


def within_limits(column: Column, bounds: list[int]) -> list[int]:
    """Ends as a catalogue may have them; none where one isn't."""
    return bounds if len(bounds) > 1 and all(is_number(column, it) for it in (bounds[0], bounds[-1])) else []


def cut(column: Column, at: Decimal, is_after: bool) -> int:
    """The number up to which the rows below a value lie, or those up to it: the model counts a range from above one
    number up to another."""
    if column.has_fractions:
        return int(at.to_integral_value())
    return math.floor(at) if is_after else math.ceil(at) - 1


def day_number(day: date) -> int:
    """Days since 1970-01-01."""
    return day.toordinal() - DAY_0.toordinal()


def text_of_number(column: Column, number: int) -> str:
    """A number of a column's range as a literal."""
    return f"DATE '{(DAY_0 + timedelta(days=number)).isoformat()}'" if column.kind == "date" else str(number)


def _decimal(value: Any) -> Decimal | None:
    try:
        number = Decimal(str(value))
    except InvalidOperation:
        return None
    return number if number.is_finite() else None


def _day(value: Any) -> int | None:
    text = str(value)
    try:
        return day_number(date.fromisoformat(text[:10])) if not text.endswith("BC") and text[4:5] == "-" else None
    except ValueError:
        return None
