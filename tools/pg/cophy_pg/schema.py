"""What is known of a database: its tables with their columns, indexes and statistics, and the names that stand for them."""
from __future__ import annotations

import math
import re
from collections.abc import Iterable
from dataclasses import dataclass, field

from cophy_text.tokens import RESERVED

_PLAIN = re.compile(r"[a-z][a-z0-9_]*")

LONGEST_NAME = 64
MOST_KEYS = 8
SPARES = MOST_KEYS
_NAME = re.compile(r"[A-Za-z_][A-Za-z0-9_]{0,63}\Z")


@dataclass(eq=False)
class Column:
    """A column: its name in PostgreSQL and in the catalogue, and its statistics, of which each may be unknown.

    `low` and `high` are whole numbers: values of a column of kind `int`, or seconds since 1970 of its timestamps, and days
    since 1970-01-01 of one of kind `date`;
    `bounds` are such numbers too, between each two of which lie as many rows. They are values times ten to the power of
    `scale`; `has_fractions` says that values lie between them.
    `nulls` is the share of the rows that have no value, `common` what its most common value has of the others, where that is
    known, and `sizes` what values take, of as many rows each. `correlation` says how nearly the rows lie in its order, from 0
    to 1, where they nearly do.
    `no_key` says why no index can have the column, and is empty where one can. `most` is the most bytes that a value may add to
    an entry of an index, where its length varies and no index that is there limits it.
    """

    name: str
    shown: str
    kind: str = "text"
    width: int = 8
    distinct: int | None = None
    low: int | None = None
    high: int | None = None
    type: str = ""
    no_key: str = ""
    bounds: list[int] = field(default_factory=list)
    scale: int = 0
    has_fractions: bool = False
    nulls: float = 0.0
    common: float = 0.0
    sizes: list[int] = field(default_factory=list)
    correlation: float = 0.0
    most: int = 0

    def has_range(self) -> bool:
        """Whether a literal of this column can be priced by its place: between low and high, or by the histogram."""
        return (
            bool(self.bounds)
            or self.kind != "text"
            and self.low is not None
            and self.high is not None
            and self.low < self.high
        )


@dataclass(eq=False)
class Index:
    """A btree index with all its keys, the included columns at their end. `clustered` says that the rows lie in its order, and
    `ordered` that they do, and may be laid in another one."""

    name: str
    shown: str
    keys: list[str]
    unique: bool = False
    clustered: bool = False
    ordered: bool = False


@dataclass(eq=False)
class Table:
    """A table, a materialized view or a partitioned table as a whole; `columns` goes by PostgreSQL's names.

    A table with a column that no index can have also has `spares` in the catalogue, which PostgreSQL doesn't have: a
    statement that needs such a column needs more of them than an index has keys, so that no index covers it. `children`
    are the tables that inherit from it. `clustered_by` is the index by which PostgreSQL clusters it, and `may_cluster` says
    that the rows may be laid in the order of a new one.
    """

    schema: str
    name: str
    shown: str
    rows: int = 0
    pages: int = 0
    columns: dict[str, Column] = field(default_factory=dict)
    indexes: list[Index] = field(default_factory=list)
    is_analysed: bool = True
    is_partitioned: bool = False
    oid: int = 0
    remarks: list[str] = field(default_factory=list)
    spares: list[Column] = field(default_factory=list)
    children: list[tuple[str, str]] = field(default_factory=list)
    clustered_by: str = ""
    may_cluster: bool = False

    def index_over(self, columns: list[str]) -> Index | None:
        """The index with just these keys, if there is one."""
        return next((it for it in self.indexes if it.keys == columns), None)

    def add_spares(self, is_needed: bool = False) -> None:
        """Adds the spare columns, where they are needed, be it for some column."""
        if not self.spares and (is_needed or any(it.no_key for it in self.columns.values())):
            taken = {it.shown.lower() for it in self.columns.values()}
            shown = (cleaned(f"no_index_{number}", taken) for number in range(1, SPARES + 1))
            self.spares = [Column("", it, width=1, distinct=1) for it in shown]

    def spares_for(self, needed: Iterable[Column]) -> list[Column]:
        """The spare columns that a statement needs beside those of the table that it needs itself."""
        found = set(map(id, needed))
        if not any(it.no_key for it in self.columns.values() if id(it) in found):
            return []
        return self.spares[: max(0, MOST_KEYS + 1 - len(found))]


class Schema:
    """The tables of a database, found as PostgreSQL finds them. `taken` are names of other relations; `is_written` says that
    the catalogue is there already. `searched` are the columns that have to be keys of an index that is made, where others
    are only to be included."""

    def __init__(self, tables: Iterable[Table], path: Iterable[str] = ("public",)) -> None:
        self.tables = {(it.schema, it.name): it for it in tables}
        self.path = [*path]
        self.taken: list[str] = []
        self.views: dict[tuple[str, str], str] = {}
        self.parents: dict[tuple[str, str], tuple[str, str]] = {}
        self.left_out: dict[tuple[str, str], str] = {}
        self.aggregates: frozenset[str] = frozenset()
        self.is_written = False
        self.searched: set[str] | None = None

    def is_never_covered(self, table: Table) -> bool:
        """Whether no index covers a statement that needs all columns of a table, which gets spare ones for that where it may."""
        if len(table.columns) <= MOST_KEYS and not self.is_written:
            table.add_spares(is_needed=True)
        return len(table.columns) + len(table.spares) > MOST_KEYS

    def key_of(self, schema: str | None, name: str, path: Iterable[str] | None = None) -> tuple[str, str] | None:
        """The schema and the name of a table or a view; without a schema the path decides, and then a single match."""
        known = [*self.tables, *self.views, *self.parents, *self.left_out]
        if schema is not None:
            return (schema, name) if (schema, name) in known else None
        for it in self.path if path is None else path:
            if (it, name) in known:
                return it, name
        others = {it for it in known if it[1] == name}
        return others.pop() if len(others) == 1 else None


def share_of(number: float) -> float:
    """A share from 0 to 1; the owner of a table may set its numbers to what is none."""
    return 0.0 if math.isnan(number) else min(1.0, max(0.0, number))


def quoted(name: str) -> str:
    """A name of the catalogue as a statement writes it."""
    return f'"{name}"' if name.upper() in RESERVED or not _NAME.match(name) else name


def path_of(schema: str, name: str, shown: str) -> str:
    """A table as it is shown to people: by its schema and its name, where these are plain and its name in the catalogue is made
    of both, or else by that."""
    is_plain = shown == f"{schema}_{name}" and _PLAIN.fullmatch(schema) and _PLAIN.fullmatch(name)
    return f"{schema}.{name}" if is_plain else shown


def plain_name(name: str) -> str:
    """A name of PostgreSQL in characters that a catalogue has."""
    return re.sub(r"[^A-Za-z0-9_]", "_", name)


def cleaned(name: str, taken: set[str], prefix: str = "") -> str:
    """A name that a catalogue may have and that isn't taken, as near to the given one as can be; it is taken then."""
    plain = plain_name(f"{prefix}_{name}" if prefix else name)
    if not plain or plain[0].isdigit():
        plain = "_" + plain
    found, number = plain[:LONGEST_NAME], 1
    while found.lower() in taken:
        number += 1
        found = f"{plain[: LONGEST_NAME - 1 - len(str(number))]}_{number}"
    taken.add(found.lower())
    return found
