"""Reads the tables of a database with their statistics, as the planner takes them."""
from __future__ import annotations

import math
from collections.abc import Callable, Iterable
from dataclasses import dataclass
from typing import Any

from cophy_text.answers import counted
from cophy_pg import catalogs, indexes
from cophy_pg.bounds import bounds_of, parts_for
from cophy_pg.keyable import WIDEST, Lengths, Part, Stored
from cophy_pg.lengths import ordered_by, sizes_of
from cophy_pg.places import MOMENTS, ends, place, set_scale, within_limits
from cophy_pg.schema import SPARES, Column, Schema, Table, cleaned, share_of
from cophy_pg.server import Row, Server, ServerFault, reading
from cophy_pg.trust import rights
from cophy_pg.types import Base, Orders, Types

MOST_TABLES, MOST_COLUMNS = 200, 200
MOST_ROWS = 10**12
MOST_NAMED, FEWEST = 3, 10
"""So many tables are named in a warning of several, and of so many pages is one whose guesses matter."""
INTS = frozenset(("int2", "int4", "int8", "numeric", "float4", "float8", "oid"))
DATES = frozenset(("date",))
TEXTS = frozenset(("text", "varchar", "bpchar"))

Progress = Callable[[str], None]


@dataclass
class Found:
    """What was read of the database: its schema, the rates of its planner, and what to warn of."""

    schema: Schema
    rates: dict[str, int]
    warnings: list[str]


@dataclass
class Relation:
    """A table, a view or a foreign table as the server has it. The sizes, in pages and in bytes, are those of today;
    they are None where the relation is locked."""

    oid: int
    schema: str
    name: str
    kind: str
    tuples: float
    counted_pages: int
    root: int | None
    stays_in_line: bool
    pages: int | None = None
    out_of_line: int | None = None

    def key(self) -> tuple[str, str]:
        return self.schema, self.name

    def part(self) -> Part:
        return Part(self.schema, self.name, self.pages, self.out_of_line, self.stays_in_line, self.oid)


def read_database(server: Server, named: set[str], words: set[str], progress: Progress) -> Found:
    """Reads the tables that the workload names first, and of wide ones the columns that it names first. How long values are
    is read last, since code of others that runs then may end the connection."""
    with reading(server):
        progress("reading tables")
        reader = Reader(server, words)
        reader.choose({*named})
        progress(f"reading columns and statistics of {counted(len(reader.tables), 'table')}")
        types = reader.add_columns(server.rows(catalogs.COLUMNS))
        numbers, texts = types.named(INTS | DATES | MOMENTS), types.named(TEXTS)
        reader.add_statistics(server.rows(catalogs.STATS, (numbers, numbers, texts, texts)))
        reader.add_bounds()
        progress("reading indexes")
        listed = reader.given_indexes(server.rows(catalogs.INDEXES))
        names = [str(it[0]) for it in server.rows(catalogs.NAMES)]
        orders = Orders(types)
        aggregates = server.rows("SELECT DISTINCT proname::text FROM pg_catalog.pg_proc WHERE prokind = 'a'")
        path, rates = server.own_path(), read_rates(server)
        warnings = rights(server, [oid for oid, it in reader.tables.items() if it.columns])
    progress("reading how long values are")
    reader.mark_columns(Lengths(server, orders, reader.warnings.append), listed)
    reader.add_indexes(listed)
    schema = Schema([it for it in reader.tables.values() if it.columns], path)
    schema.views, schema.left_out, schema.parents = reader.views, reader.left_out, reader.parents
    schema.taken, schema.aggregates = reader.taken_names(names), frozenset(str(it[0]) for it in aggregates)
    return Found(schema, rates, [*warnings, *_told(reader.guessed), *reader.warnings])


def _told(guessed: list[str]) -> list[str]:
    """What is warned of tables that were never analysed."""
    if not guessed:
        return []
    more = f" and {len(guessed) - MOST_NAMED} more" * (len(guessed) > MOST_NAMED)
    were, whose = ("was", "its") if len(guessed) == 1 else ("were", "their")
    names = ", ".join(guessed[:MOST_NAMED])
    return [f"{names}{more} {were} never analysed: run ANALYZE, {whose} numbers are guesses"]


def read_rates(server: Server) -> dict[str, int]:
    """The rates that make a cost, divided by 1000, one of EXPLAIN's."""
    cost = {
        name: float(server.value("SELECT pg_catalog.current_setting(%s)", (name,)))
        for name in ("seq_page_cost", "random_page_cost", "cpu_tuple_cost", "cpu_operator_cost")
    }
    page = 1000 / cost["seq_page_cost"] if cost["seq_page_cost"] > 0 else 1000.0
    operator = cost["cpu_operator_cost"] * page
    rates = {
        "seq_page": 1000,
        "rand_page": cost["random_page_cost"] * page,
        "row_cpu": cost["cpu_tuple_cost"] * page,
        "sort_cpu": 2 * operator,
        "merge_cpu": 2 * operator,
        "hash_cpu": 3.2 * operator,
        "group_cpu": 2 * operator,
    }
    return {name: within(rate, 0, 1_000_000) for name, rate in rates.items()}


class Reader:
    """Puts the rows of the server's catalogs together."""

    def __init__(self, server: Server, words: set[str]) -> None:
        self.server, self.words = server, words
        self.warnings: list[str] = []
        self.guessed: list[str] = []
        self.views: dict[tuple[str, str], str] = {}
        self.left_out: dict[tuple[str, str], str] = {}
        self.parents: dict[tuple[str, str], tuple[str, str]] = {}
        self.tables: dict[int, Table] = {}
        self.relations: dict[int, Relation] = {}
        self.children: dict[int, list[int]] = {}
        self.parts: dict[int, list[Relation]] = {}
        self.stored: dict[int, list[Stored]] = {}
        self.numbers: dict[int, dict[int, str]] = {}
        self.correlations: dict[int, dict[str, float]] = {}
        self.distributions: dict[Column, tuple[list[tuple[Any, float]], list[Any], float]] = {}

    def choose(self, named: set[str]) -> None:
        """Reads which relations there are, and chooses the tables of the catalogue."""
        for row in self.server.rows(catalogs.TABLES):
            oid, schema, name, kind, tuples, pages, root, stays = row
            root = int(root) if root is not None else None
            it = Relation(int(oid), str(schema), str(name), str(kind), float(tuples), int(pages), root, bool(stays))
            self.relations[it.oid] = it
        self._inherit()
        self._measure()
        self._read_views()
        for it in self.relations.values():
            if it.root is not None and it.root in self.relations:
                self.parents[it.key()] = self.relations[it.root].key()
                if it.kind == "r":
                    self.parts.setdefault(it.root, []).append(it)
            elif it.kind == "f":
                self.left_out[it.key()] = "a foreign table"
        named |= {root[1] for child, root in self.parents.items() if child[1] in named}
        roots = [it for it in self.relations.values() if it.root is None and it.kind in ("r", "m", "p")]
        for it in roots:
            if it.kind != "p":
                listed = [self.relations[oid] for oid in self.descendants(it.oid)]
                self.parts[it.oid] = [it, *(child for child in listed if child.kind == "r")]
        roots.sort(key=lambda it: (it.name not in named, -sum(part.pages or 0 for part in self.parts.get(it.oid, ()))))
        for it in roots[MOST_TABLES:]:
            self.left_out[
                it.key()
            ] = f"only {MOST_TABLES} tables are kept, those that the workload names and the largest"
        self._name(roots[:MOST_TABLES])

    def _name(self, roots: list[Relation]) -> None:
        taken: set[str] = set()
        for it in sorted(roots, key=lambda it: (it.schema != "public", it.schema, it.name)):
            shown = cleaned(it.name, taken, "" if it.schema == "public" else it.schema)
            table = Table(it.schema, it.name, shown, oid=it.oid, is_partitioned=it.kind == "p")
            table.children = [part.key() for part in self.parts.get(it.oid, ()) if part is not it and it.kind == "r"]
            self.tables[it.oid] = table

    def _inherit(self) -> None:
        for parent, child in self.server.rows(catalogs.INHERITS):
            if int(parent) in self.relations and int(child) in self.relations:
                self.children.setdefault(int(parent), []).append(int(child))

    def descendants(self, oid: int) -> list[int]:
        """The tables that inherit from a table, directly or not."""
        found: dict[int, None] = {}
        waiting = [*self.children.get(oid, ())]
        while waiting:
            one = waiting.pop(0)
            if one not in found:
                found[one] = None
                waiting += self.children.get(one, ())
        return [*found]

    def _measure(self) -> None:
        listed = [it.oid for it in self.relations.values() if it.kind in ("r", "m")]
        rows, faults = self.server.each(catalogs.SIZES, listed)
        for oid, pages, out_of_line in rows:
            if pages is not None:
                self.relations[int(oid)].pages, self.relations[int(oid)].out_of_line = int(pages), int(out_of_line)
        self._tell(faults, "its pages are those of its last ANALYZE")

    def _read_views(self) -> None:
        views = {it.oid: it for it in self.relations.values() if it.kind == "v"}
        rows, faults = self.server.each(catalogs.VIEWS, [*views])
        self.views = {views[int(oid)].key(): str(text) for oid, text in rows if text}
        self.left_out |= {views[oid].key(): "a view that couldn't be read" for oid in faults}
        self._tell(faults, "the view isn't known")

    def _tell(self, faults: dict[int, ServerFault], lost: str) -> None:
        for oid, fault in faults.items():
            schema, name = self.relations[oid].key()
            self.warnings.append(f"{schema!a}.{name!a}: {fault.shown()}, so {lost}")

    def add_columns(self, rows: list[Row]) -> Types:
        """Adds the columns, with the widths of their types, which are the answer."""
        by_table: dict[int, list[Row]] = {}
        for it in rows:
            if int(it[0]) in self.tables:
                by_table.setdefault(int(it[0]), []).append(it)
        types = Types(self.server, {int(it[3]) for listed in by_table.values() for it in listed})
        for oid, table in self.tables.items():
            listed = by_table.get(oid, [])
            if len(listed) > MOST_COLUMNS:
                self._tell_left_out(table, len(listed) - MOST_COLUMNS)
                listed.sort(key=lambda it: (it[2] not in self.words, it[1]))
                listed = sorted(listed[:MOST_COLUMNS], key=lambda it: int(it[1]))
            taken: set[str] = set()
            for _, number, name, kind, modifier, storage, is_virtual in listed:
                base = types.of[int(kind)]
                length = int(modifier) if modifier >= 0 else base.modifier
                column = _column(str(name), cleaned(str(name), taken), base, length)
                stored = Stored(column, base, length, str(storage), bool(is_virtual))
                table.columns[str(name)] = column
                self.numbers.setdefault(oid, {})[int(number)] = str(name)
                self.stored.setdefault(oid, []).append(stored)
            self._count_rows(oid, table)
        self.left_out |= {(it.schema, it.name): "it has no column" for it in self.tables.values() if not it.columns}
        return types

    def _tell_left_out(self, table: Table, count: int) -> None:
        self.warnings.append(
            f"{table.shown}: {counted(count, 'column')} over {MOST_COLUMNS} {'is' if count == 1 else 'are'} left out"
        )

    def _count_rows(self, oid: int, table: Table) -> None:
        """Rows as the planner takes them: so many a page at the last ANALYZE, over the pages of today."""
        width = sum(it.width for it in table.columns.values())
        rows, pages = 0.0, 0
        for it in self.parts.get(oid, ()):
            now = it.counted_pages if it.pages is None else it.pages
            if it.tuples < 0 or (it.counted_pages == 0 and now > 0):
                table.is_analysed = False
                rows += now * ((8192 - 24) // (((width + 7) // 8) * 8 + 28) if now else 0)
            elif it.counted_pages > 0:
                rows += it.tuples / it.counted_pages * now
            pages += now
        table.rows, table.pages = min(MOST_ROWS, round(rows)), min(MOST_ROWS, pages)
        if not table.is_analysed and table.columns and pages >= FEWEST:
            self.guessed.append(table.shown)

    def add_statistics(self, rows: list[Row]) -> None:
        """Adds distinct values, widths and ends; of a table with parts, those over all of them."""
        for row in rows:
            oid, name, distinct, width, correlation, common, bounds, inherited, masses, missing, *lengths = row
            table = self.tables.get(int(oid))
            column = table.columns.get(str(name)) if table else None
            if table is None or column is None or (inherited and not (table.is_partitioned or table.children)):
                continue
            column.width = min(WIDEST, max(1, int(width)))
            count = distinct if distinct > 0 else -distinct * table.rows
            column.distinct = within(count, 1, MOST_ROWS) if distinct else None
            column.nulls = round(share_of(float(missing)), 3)
            shares = [share_of(float(it) / (1 - float(missing))) for it in masses or ()] if missing < 1 else []
            column.common = round(shares[0], 3) if shares else 0.0
            column.sizes = sizes_of([*zip(lengths[0] or (), shares)], lengths[1] or ())
            known = [*(common or ()), *(bounds or ())]
            set_scale(column, known)
            column.low, column.high = ends(column, known)
            if column.low is not None:
                frequent = [*zip(common or (), map(float, masses or ()))]
                self.distributions[column] = frequent, [*(bounds or ())], 1 - float(missing)
            if correlation is not None and not table.children:
                self.correlations.setdefault(int(oid), {})[str(name)] = float(correlation)
                column.correlation = ordered_by(column, float(correlation))

    def add_bounds(self) -> None:
        """Adds the histograms, those of many columns with fewer parts."""
        parts = parts_for(len(self.distributions))
        for column, (frequent, bounds, present) in self.distributions.items():
            points = [(number, mass) for it, mass in frequent if (number := place(column, it)) is not None]
            listed = [it for it in (place(column, it) for it in bounds) if it is not None]
            rest = present - sum(mass for _, mass in frequent)
            column.bounds = within_limits(column, bounds_of(points, sorted(listed), rest if listed else 0.0, parts))

    def given_indexes(self, rows: list[Row]) -> dict[int, list[indexes.Given]]:
        """The indexes of the tables as the server has them."""
        found: dict[int, list[indexes.Given]] = {}
        for row in rows:
            if int(row[0]) in self.tables:
                found.setdefault(int(row[0]), []).append(indexes.given(row, self.numbers.get(int(row[0]), {})))
        return found

    def mark_columns(self, lengths: Lengths, listed: dict[int, list[indexes.Given]]) -> None:
        """Marks the columns that no index can have, and makes room for the columns that stand for them."""
        for oid, table in self.tables.items():
            parts = [it.part() for it in self.parts.get(oid, ())]
            lengths.mark(table, self.stored.get(oid, []), parts, indexes.fitting(listed.get(oid, [])))
        lengths.sample()
        for table in self.tables.values():
            table.add_spares()
            over = len(table.columns) + len(table.spares) - MOST_COLUMNS
            if over > 0:
                self._tell_left_out(table, over)
                order = [*table.columns]
                unnamed = sorted(order, key=lambda name: (name in self.words, -order.index(name)))
                for name in unnamed[:over]:
                    del table.columns[name]
            for column in table.columns.values():
                if column.no_key:
                    table.remarks.append(f"no index can have {column.shown}: {column.no_key}")

    def add_indexes(self, listed: dict[int, list[indexes.Given]]) -> None:
        """Adds the indexes."""
        for oid, table in self.tables.items():
            for it in listed.get(oid, ()):
                it.columns = [name if name in table.columns else None for name in it.columns]
            indexes.add_indexes(table, listed.get(oid, []))
        for oid in self._parents_last():
            children = [self.tables.get(it) for it in self.descendants(oid) if self.relations[it].kind == "r"]
            if children and not self.tables[oid].is_partitioned:
                indexes.keep_shared(self.tables[oid], children)
        indexes.limit_indexes([*self.tables.values()])
        for oid, table in self.tables.items():
            indexes.mark_clustered(table, self.correlations.get(oid, {}))

    def _parents_last(self) -> Iterable[int]:
        return sorted(self.tables, key=lambda oid: len(self.descendants(oid)))

    def taken_names(self, names: list[str]) -> list[str]:
        """Of the names of relations those that a new index's could be."""
        known = {it.name for it in self.tables.values()}
        known |= {index.name for table in self.tables.values() for index in table.indexes}
        stems = tuple(it.shown.lower()[:50] for it in self.tables.values())
        return [it for it in dict.fromkeys(names) if it not in known and it.lower().startswith(stems)]


def _column(name: str, shown: str, base: Base, modifier: int) -> Column:
    """A column of which nothing but its type is known."""
    width = base.length if base.length > 0 else min(32, modifier - 4) if modifier > 4 else 32
    kind = "int" if base.name in INTS | MOMENTS else "date" if base.name in DATES else "text"
    return Column(name, shown, kind, min(WIDEST, max(1, width)), type=base.name)


def within(number: float, least: int, most: int) -> int:
    """The nearest whole number between two; the owner of a table may set its numbers to what is none, or has no end."""
    return least if math.isnan(number) else round(min(most, max(least, number)))
