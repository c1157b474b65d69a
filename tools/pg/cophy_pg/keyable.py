"""Which columns a B-tree index can have: those whose type has an order and whose values fit in an entry."""
from __future__ import annotations

from collections.abc import Callable
from dataclasses import dataclass

from cophy_text.keys import LONGEST_ENTRY
from cophy_pg.schema import Column, Table
from cophy_pg.server import Row, Server, ServerFault, quoted_name, reading
from cophy_pg.trust import MOST_NAMES, may_plan, runs_functions
from cophy_pg.types import Base, Orders

SAMPLED_PAGES, SAMPLED_PARTS = 500, 8
SHORT = 100
"""Where no value is out of line and none is longer than this on average, the table isn't sampled."""
WIDEST = 1000
WAITED, MOST_WAITS = ("55P03", "57014"), 5
"""After so many samples that weren't given in time, be it for a lock or for a function of an index, none is taken any more."""
TEXTS = frozenset(("text", "varchar", "bpchar", "bytea"))
NEVER_LONG = frozenset(
    "numeric inet cidr int4range int8range numrange tsrange tstzrange daterange oidvector int2vector".split()
)
"""Types without a limit whose values are short nevertheless."""
ENDLESS = 2**30
"""PostgreSQL has no longer value."""


@dataclass
class Stored:
    """How a column is stored: its type without domains, its modifier, its storage, and whether it isn't stored at all, but
    made by an expression, which may call what users made."""

    column: Column
    base: Base
    modifier: int
    storage: str
    is_virtual: bool = False

    def most(self) -> int | None:
        """The most bytes that a value may have; nothing where its type has no limit."""
        if self.base.length > 0:
            return self.base.length
        if self.base.name in ("varchar", "bpchar") and self.modifier > 4:
            return (self.modifier - 4) * 4 + 4
        if self.base.name in ("bit", "varbit") and self.modifier > 0:
            return self.modifier // 8 + 9
        if self.base.name == "numeric" and self.modifier > 4:
            return (((self.modifier - 4) >> 16) & 0xFFFF) // 2 + 12
        return None

    def is_open(self) -> bool:
        """Whether a value may be too long for an entry, as far as its type says."""
        most = self.most()
        return most is None or most > LONGEST_ENTRY

    def most_of_entry(self) -> int:
        """The most bytes that a value may add to an entry, where its length varies, characters having up to four; 0 where it
        doesn't, or no value is long."""
        if self.base.length > 0 or self.base.name in NEVER_LONG or self.is_virtual:
            return 0
        most = self.most()
        return ENDLESS if most is None else most

    def bytes_of(self) -> str:
        """What SQL says of a value's length, without the call of any function that a user made."""
        name = quoted_name(self.column.name)
        return f"pg_catalog.{'octet_length' if self.base.name in TEXTS else 'pg_column_size'}({name})"


@dataclass
class Part:
    """A table that holds rows: its names, its pages, the bytes of its values out of line, whether long values may stay in
    line, and its number; the pages and the bytes are None where the table is locked."""

    schema: str
    name: str
    pages: int | None
    out_of_line: int | None
    stays_in_line: bool = False
    oid: int = 0


@dataclass
class Sampled:
    """A table of which a sample is taken: its columns that vary in length, its parts, and its columns that are keys of an
    index, so that their values fit."""

    table: Table
    varying: list[Stored]
    parts: list[Part]
    indexed: set[str]


class Lengths:
    """Reads how long the values of tables' columns are, and marks the columns that no index can have."""

    def __init__(self, server: Server, orders: Orders, warn: Callable[[str], None]) -> None:
        self.server, self.orders, self.warn = server, orders, warn
        self.faults = 0
        self.waiting: list[Sampled] = []
        self.lost_at = ""

    def mark(self, table: Table, stored: list[Stored], parts: list[Part], indexed: set[str]) -> None:
        """Marks the columns of a table that no index can have for their types; the table waits for `sample` where its
        values may be long."""
        for it in stored:
            why = self.orders.why_not(it.base.number)
            most = it.most()
            if not why and it.base.length > 0 and most is not None and most > LONGEST_ENTRY:
                why = "its values take more than a third of a page"
            it.column.no_key = "it isn't stored" if it.is_virtual else why
            it.column.most = 0 if it.column.name in indexed else it.most_of_entry()
        varying = [it for it in stored if it.base.length < 0 and not it.is_virtual]
        if varying and self._is_long(table, varying, parts):
            self.waiting.append(Sampled(table, varying, parts, indexed))

    @staticmethod
    def _is_long(table: Table, varying: list[Stored], parts: list[Part]) -> bool:
        """Whether long values may be there."""
        return (
            not table.is_analysed
            or any(it.stays_in_line or it.out_of_line is None or it.out_of_line > 0 for it in parts)
            or any(it.is_open() and (it.storage in "pm" or it.column.width > SHORT) for it in varying)
        )

    def sample(self) -> None:
        """Takes samples of the tables that wait. Those whose functions of users may run are the last: what such a function
        costs, the time or the connection, it costs none of the others."""
        lost: list[str] = []
        for it in sorted(self.waiting, key=self._may_run):
            names = [] if self._is_sampled(it) else self._unread(it)
            if names and self.lost_at:
                lost.append(it.table.shown)
            elif names:
                why = f"its columns {', '.join(names)} may have long values, so no index has them"
                self.warn(f"{it.table.shown} can't be read: {why}")
        if self.lost_at:
            some = ", ".join(lost[:MOST_NAMES]) + (f" and {len(lost) - MOST_NAMES} more" if lost[MOST_NAMES:] else "")
            what = f"no index has columns of {some} whose values may be long" if lost else "it cost nothing more"
            self.warn(f"the connection was lost at a sample of {self.lost_at}: {what}")

    def _may_run(self, sampled: Sampled) -> bool:
        """Whether a sample of a table may run functions of users."""
        try:
            with reading(self.server):
                return runs_functions(self.server, [it.oid for it in _chosen(sampled.parts)])
        except ServerFault:
            self._note_loss(sampled.parts[0])
            return True

    def _note_loss(self, part: Part) -> None:
        if self.server.is_lost() and not self.lost_at:
            self.lost_at = f"{part.schema!a}.{part.name!a}"

    def _is_sampled(self, sampled: Sampled) -> bool:
        """Gives columns their widths and marks by a sample, or says that it can't be taken."""
        varying = sampled.varying
        shown = [f"avg({it.bytes_of()})::float8, max({it.bytes_of()})::int8" for it in varying]
        found = self._read(sampled.parts, ", ".join(["count(*)::int8", *shown]))
        if found is None:
            return False
        longest: dict[str, int] = {}
        for at, it in enumerate(varying):
            means = [(int(row[0]), float(row[1 + 2 * at])) for row in found if row[1 + 2 * at] is not None]
            longest[it.column.name] = max(
                (int(row[2 + 2 * at]) for row in found if row[2 + 2 * at] is not None), default=0
            )
            count = sum(rows for rows, _ in means)
            if count:
                it.column.width = min(WIDEST, max(1, round(sum(rows * mean for rows, mean in means) / count)))
        for it in varying:
            is_known = it.column.name in sampled.indexed or not it.is_open()
            if not it.column.no_key and not is_known and longest[it.column.name] > LONGEST_ENTRY // 2:
                self._mark_long(it)
        self._mark_together(varying, sampled.parts, longest)
        return True

    @staticmethod
    def _mark_long(it: Stored) -> None:
        it.column.no_key = "its values may exceed a third of a page"

    def _mark_together(self, varying: list[Stored], parts: list[Part], longest: dict[str, int]) -> None:
        """Marks the longest columns until all others of a row fit in one entry."""
        while True:
            left = [it for it in varying if not it.column.no_key]
            if sum(longest[it.column.name] for it in left) <= LONGEST_ENTRY:
                return
            sums = " + ".join(f"coalesce({it.bytes_of()}, 0)" for it in left)
            found = self._read(parts, f"max({sums})::int8")
            if found is not None and all(it[0] is None or int(it[0]) <= LONGEST_ENTRY for it in found):
                return
            self._mark_long(max(left, key=lambda it: longest[it.column.name]))

    def _unread(self, sampled: Sampled) -> list[str]:
        """Marks what may be long where it can't be read, which nothing is where nothing is out of line: the columns' names."""
        if all(it.out_of_line == 0 and not it.stays_in_line for it in sampled.parts):
            return []
        varying, indexed = sampled.varying, sampled.indexed
        listed = [it for it in varying if it.is_open() and not it.column.no_key and it.column.name not in indexed]
        for it in listed:
            it.column.width = WIDEST
            self._mark_long(it)
        return [it.column.shown for it in listed]

    def _read(self, parts: list[Part], listed: str) -> list[Row] | None:
        """A row of a sample of each of the largest parts; nothing where one can't be read."""
        chosen = _chosen(parts)
        if not chosen:
            return []
        if self.faults >= MOST_WAITS or self.server.is_lost():
            return None
        found = []
        for it in chosen:
            share = min(100.0, 100 * SAMPLED_PAGES / len(chosen) / max(1, it.pages or 1))
            where = f"{quoted_name(it.schema)}.{quoted_name(it.name)}"
            query = f"SELECT {listed} FROM ONLY {where} TABLESAMPLE pg_catalog.system ({share:.6f}) REPEATABLE (0)"
            try:
                with reading(self.server, "READ COMMITTED"):
                    if not may_plan(self.server):
                        return None
                    found += self.server.rows(query)
            except ServerFault as fault:
                self._note_loss(it)
                self.faults += fault.code in WAITED
                return None
        return found


def _chosen(parts: list[Part]) -> list[Part]:
    """The largest parts of a table, of which samples are taken."""
    return sorted(parts, key=lambda it: -(it.pages or 0))[:SAMPLED_PARTS]
