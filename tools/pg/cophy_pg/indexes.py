"""Reads the indexes of a database: those that the model has, and remarks on the others."""
from __future__ import annotations

from dataclasses import dataclass, field

from cophy_pg.schema import MOST_KEYS, Index, Table, cleaned
from cophy_pg.server import Row

MOST_INDEXES = 1000
PATTERN, OTHER = "pattern", "other"
"""Operator classes of keys that aren't the ordinary one of their column: those of patterns order by bytes."""
ORDERED = 0.95
"""From this correlation on the rows of a table count as lying in the order of a column."""


@dataclass
class Given:
    """An index as the server has it, with the names of its columns; None stands for one that the catalogue lacks."""

    table: int
    name: str
    method: str
    unique: bool
    valid: bool
    partial: bool
    expressions: bool
    clustered: bool
    count: int
    columns: list[str | None]
    options: list[int]
    classes: list[str] = field(default_factory=list)

    def why_not(self) -> str:
        """Why the catalogue can't have it; nothing where it can."""
        if self.method != "btree":
            return "not of kind btree"
        if not self.valid:
            return "not valid"
        if self.partial:
            return "partial"
        if self.expressions:
            return "over an expression"
        if None in self.columns:
            return "over a column that is left out"
        if self.classes[0] == OTHER:
            return "of an operator class or a collation that isn't its column's"
        return f"of more than {MOST_KEYS} columns" if len({*self.columns}) > MOST_KEYS else ""

    def searched(self) -> int:
        """How many of the leading keys serve the tests of their columns."""
        return next((at for at, it in enumerate(self.classes) if it == OTHER), self.count)

    def remark(self) -> str:
        """What the catalogue says too much of it; nothing where all is true."""
        if self.searched() < self.count:
            return f"counts up to key {self.searched()}: the next one's operator class or collation isn't its column's"
        if PATTERN in self.classes:
            return "is taken to give an order, but it has an operator class of patterns, which serves = alone"
        if len({*self.options}) > 1:
            return "is taken to give the order of all its keys upwards, but some of them run the other way"
        return ""


def given(row: Row, numbers: dict[int, str]) -> Given:
    """An index of the server, over the columns of a table by their numbers."""
    table, name, method, unique, valid, partial, expressions, clustered, count, keys, options, classes = row
    columns = [numbers.get(int(it)) for it in keys]
    flags = (bool(unique), bool(valid), bool(partial), bool(expressions), bool(clustered))
    return Given(
        int(table), str(name), str(method), *flags, int(count), columns, [*map(int, options)], [*map(str, classes)]
    )


def fitting(listed: list[Given]) -> set[str]:
    """The columns whose values fit in entries, since a B-tree index of all rows has them."""
    return {
        str(column)
        for it in listed
        if it.method == "btree" and it.valid and not it.partial
        for column in it.columns
        if column is not None
    }


def add_indexes(table: Table, listed: list[Given]) -> None:
    """Adds the indexes that the model has to a table; each other one leaves a remark."""
    taken: set[str] = set()
    table.clustered_by = next((it.name for it in listed if it.clustered), "")
    for it in listed:
        why = it.why_not()
        if why:
            table.remarks.append(f"index {it.name!a} is left out: it is {why}")
            continue
        keys = [*dict.fromkeys(str(column) for column in it.columns)]
        if it.searched() < it.count:
            keys = [*dict.fromkeys(str(column) for column in it.columns[: it.searched()])]
        if it.remark():
            table.remarks.append(f"index {it.name!a} {it.remark()}")
        unpriced = [key for key in keys if table.columns[key].no_key]
        if unpriced:
            keys = [key for key in keys if key not in unpriced]
            table.remarks.append(f"index {it.name!a} counts without its columns that no index can have as a key")
        if not keys:
            continue
        whole = keys == [*dict.fromkeys(str(column) for column in it.columns[: it.count])]
        table.indexes.append(Index(it.name, cleaned(it.name, taken), keys, it.unique and whole))
        column = table.columns[keys[0]]
        if it.unique and it.count == 1 and column.distinct is None:
            # A column that is unique by itself has as many values as rows, where nothing else is known.
            column.distinct = max(1, table.rows)


def keep_shared(table: Table, children: list[Table | None]) -> None:
    """Of a table that others inherit from, keeps the indexes that each of these has too; no such one is unique."""
    for index in [*table.indexes]:
        if all(it is not None and any(own.keys == index.keys for own in it.indexes) for it in children):
            index.unique = False
        else:
            table.indexes.remove(index)
            table.remarks.append(f"index {index.name!a} is left out: not all tables that inherit have its like")


def limit_indexes(tables: list[Table]) -> None:
    """Keeps as many indexes as a catalogue may have, those of the largest tables."""
    room = MOST_INDEXES
    for table in sorted(tables, key=lambda it: -it.pages):
        for it in table.indexes[room:]:
            table.remarks.append(
                f"index {it.name!a} is left out: only {MOST_INDEXES} are kept, those of the largest tables"
            )
        del table.indexes[room:]
        room -= len(table.indexes)


def mark_clustered(table: Table, correlations: dict[str, float]) -> None:
    """Marks the index along whose leading column the rows lie, if there is one: before others that by which the table is
    clustered, of which it is told where the rows have strayed from it."""
    own = next((it for it in table.indexes if it.name == table.clustered_by and not table.children), None)

    def lies(it: Index) -> tuple[bool, bool, float]:
        if it is own:
            # Its order may run down, and isn't known before the first ANALYZE.
            return abs(correlations.get(it.keys[0], 1.0)) >= ORDERED, True, 1.0
        correlation = correlations.get(it.keys[0], 0.0)
        return correlation >= ORDERED, False, correlation

    best = max(table.indexes, key=lies, default=None)
    if best is not None and lies(best)[0]:
        best.clustered = True
    if own is not None and not own.clustered:
        table.remarks.append(
            f"index {own.name!a} clusters the table, but by the last ANALYZE rows don't lie in its order"
        )
