"""Expressions after their names are looked up: columns of slots, values, calls, and mixtures of which the parts count."""
from __future__ import annotations

from collections.abc import Iterator
from dataclasses import dataclass
from datetime import date, datetime, time, timedelta
from decimal import Decimal
from itertools import islice

from cophy_pg.schema import Column, Table, quoted

AGGREGATES = frozenset(("count", "sum", "min", "max", "avg"))
DEEPEST, MOST_TERMS = 60, 500


@dataclass(eq=False)
class Slot:
    """A source of a statement: a table under a name that no other source of the statement has."""

    table: Table
    name: str


@dataclass(frozen=True)
class Col:
    """A column of a slot."""

    slot: Slot
    column: Column


@dataclass(frozen=True)
class Interval:
    """An interval of months and days; smaller parts count as no day."""

    months: int
    days: int


@dataclass(frozen=True)
class Value:
    """A value: its text in a workload, and what is known of it; `is_literal` says that it was written as it stands."""

    text: str
    known: int | Decimal | date | str | Interval | None = None
    is_literal: bool = True

    def day(self) -> date | None:
        """The day of a date or of a text that begins with one, with the time where one is given."""
        if isinstance(self.known, date):
            return self.known
        if isinstance(self.known, str):
            return moment_of(self.known)
        return None


@dataclass(frozen=True)
class Unknown:
    """A column of a source that is priced elsewhere, with the rows that it gives at most, where that is known."""

    rows: int | None = None


@dataclass(frozen=True)
class Rows:
    """A row of a slot as a whole."""

    slot: Slot


@dataclass(frozen=True)
class Call:
    """A call; the aggregates of the grammar go by their names."""

    name: str
    args: tuple[Term, ...]
    distinct: bool = False
    star: bool = False

    def is_aggregate(self) -> bool:
        return self.name in AGGREGATES


@dataclass(frozen=True)
class Infix:
    """Arithmetic of the grammar."""

    operator: str
    left: Term
    right: Term


@dataclass(frozen=True)
class Mix:
    """A form that the grammar doesn't have: its columns and aggregates count."""

    parts: tuple[Term, ...]


Term = Col | Value | Unknown | Rows | Call | Infix | Mix
ANY = Value("?", None, False)
SUBQUERY = Value("?", None, False)
"""What a subquery gives."""
ITEM = Value("?", None, False)
"""An item of an array of which nothing is known."""
NOTHING = Value("", None, False)
"""The left side of a sign."""


def day_of(text: str) -> date | None:
    """The day that a text begins with, where it is one of the years 0001 to 9999."""
    try:
        return date.fromisoformat(text.strip()[:10]) if len(text.strip()) >= 10 else None
    except ValueError:
        return None


def moment_of(text: str) -> date | None:
    """The day that a text begins with, with its time where that isn't the begin of the day; zones are passed over."""
    day = day_of(text)
    try:
        found = datetime.fromisoformat(text.strip()).replace(tzinfo=None)
    except ValueError:
        return day
    return found if day is not None and found.time() != time() else day


def children(term: Term) -> tuple[Term, ...]:
    """The parts of a term."""
    if isinstance(term, Call):
        return term.args
    if isinstance(term, Infix):
        return term.left, term.right
    return term.parts if isinstance(term, Mix) else ()


def columns(term: Term) -> Iterator[Col]:
    """The columns that a term mentions, in order."""
    if isinstance(term, Col):
        yield term
    elif isinstance(term, Rows):
        yield from (Col(term.slot, it) for it in term.slot.table.columns.values())
    for it in children(term):
        yield from columns(it)


def has_unknown(term: Term) -> bool:
    """Whether a term rests on a source that is priced elsewhere."""
    return isinstance(term, Unknown) or any(map(has_unknown, children(term)))


def aggregates(term: Term) -> Iterator[Call]:
    """The outermost aggregates of a term."""
    if isinstance(term, Call) and term.is_aggregate():
        yield term
    else:
        for it in children(term):
            yield from aggregates(it)


def known(term: Term) -> Term | None:
    """What a term says of the sources that are here; nothing where that is no column."""
    if not has_unknown(term):
        return term
    if isinstance(term, Call) and term.is_aggregate():
        args = tuple(it for it in map(known, term.args) if it is not None)
        return Call(term.name, args, term.distinct and bool(args), star=not args)
    parts = tuple(dict.fromkeys(it for part in children(term) if (it := known(part)) is not None))
    parts = tuple(it for it in parts if not is_value(it))
    return Mix(parts) if parts else None


def is_value(term: Term) -> bool:
    """Whether a term mentions no column, no aggregate and no unknown source."""
    return not has_unknown(term) and next(columns(term), None) is None and next(aggregates(term), None) is None


def as_value(term: Term) -> Value:
    """A term without a column as a value."""
    return term if isinstance(term, Value) else ANY


def mixed(*terms: Term) -> Term:
    """The columns and the aggregates of terms, without repeats; a single aggregate stands for itself."""
    parts: list[Term] = []
    for term in terms:
        for it in _reduced(term):
            if it not in parts:
                parts.append(it)
    return parts[0] if len(parts) == 1 and isinstance(parts[0], Call) else Mix(tuple(parts))


def _reduced(term: Term) -> Iterator[Term]:
    if isinstance(term, (Col, Rows, Unknown)) or (isinstance(term, Call) and term.is_aggregate()):
        yield term
    else:
        for it in children(term):
            yield from _reduced(it)


def depth(term: Term) -> int:
    """How deep calls and arithmetic nest in a term."""
    return 1 + max(map(depth, children(term)), default=0)


def is_large(term: Term) -> bool:
    """Whether a term is too deep, or has too many parts: each view may double those of the view below it."""
    return depth(term) > DEEPEST or next(islice(_all(term), MOST_TERMS, None), None) is not None


def _all(term: Term) -> Iterator[Term]:
    yield term
    for it in children(term):
        yield from _all(it)


def literal_of_day(day: date) -> Value:
    """A day as a literal."""
    return Value(f"DATE '{day.isoformat()[:10]}'", day)


def shifted(day: date, by: Interval, sign: int) -> date | None:
    """A day moved by an interval; nothing beyond the calendar."""
    month = day.year * 12 + day.month - 1 + sign * by.months
    for last in (day.day, 30, 29, 28):
        try:
            moved = date(month // 12, month % 12 + 1, min(day.day, last))
            return moved + timedelta(days=sign * by.days)
        except (ValueError, OverflowError):
            continue
    return None


class Printer:
    """Writes terms; columns are written with their slot where there are several."""

    def __init__(self, slots: list[Slot]) -> None:
        self.slots = slots

    def column(self, it: Col) -> str:
        name = quoted(it.column.shown)
        return name if len(self.slots) == 1 else f"{quoted(it.slot.name)}.{name}"

    def term(self, it: Term) -> str:
        """A term as an expression of the grammar."""
        if isinstance(it, Col):
            return self.column(it)
        if isinstance(it, (Value, Unknown)):
            return it.text if isinstance(it, Value) else "?"
        if isinstance(it, Call):
            args = "*" if it.star else ", ".join(map(self.term, it.args))
            return f"{quoted(it.name)}({'DISTINCT ' * it.distinct}{args})"
        if isinstance(it, Infix):
            left, right = self.term(it.left), self.term(it.right)
            if it.left == NOTHING:
                return f"{it.operator}({right})" if isinstance(it.right, Infix) else it.operator + right
            if isinstance(it.left, Infix) and it.left.operator in "+-" and it.operator not in "+-":
                left = f"({left})"
            return f"{left} {it.operator} " + (f"({right})" if isinstance(it.right, Infix) else right)
        found = [*it.parts] if isinstance(it, Mix) else [*columns(it)]
        if not found:
            return "?"
        return f"any_of({', '.join(map(self.term, found))})"
