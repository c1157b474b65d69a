"""The indexes that the script of a folder makes, as they stand on the server, and how often it has used each."""
from __future__ import annotations

import re
from dataclasses import dataclass
from typing import Any

from cophy_text.answers import Candidate
from cophy_pg.closing import is_hint, rows_of
from cophy_pg.ddl import Applied, Laid, Made, Named, create, taken_names
from cophy_pg.schema import Schema
from cophy_pg.script_sql import COLUMNS, IS_BEING_MADE, IS_PLAIN, IS_VALID
from cophy_pg.server import Row, Server

THERE, INVALID, BEING_MADE = "there", "INVALID", "being made"
OTHER, NOT_LAID, NOT_MADE = "name taken", "not clustered", "not made"
_WORST = (INVALID, OTHER, BEING_MADE, NOT_MADE, NOT_LAID)
"""What is told of a pick for which several indexes stand is the first of these that one is."""
_INDEXES = f"""
SELECT w.nspname::text, x.relname::text, coalesce(n.nspname::text, ''), coalesce(t.relname::text, ''),
    {IS_VALID}, i.indisclustered, coalesce({IS_PLAIN}, false), x.relam = 403, {IS_BEING_MADE},
    {COLUMNS},
    (WITH RECURSIVE parts(oid) AS (
        SELECT x.oid UNION ALL SELECT h.inhrelid FROM pg_inherits h JOIN parts p ON h.inhparent = p.oid)
    SELECT coalesce(sum(pg_stat_get_numscans(p.oid)), 0)::int8 FROM parts p WHERE x.relkind IN ('i', 'I'))
FROM pg_class x JOIN pg_namespace w ON w.oid = x.relnamespace
LEFT JOIN pg_index i ON i.indexrelid = x.oid LEFT JOIN pg_class t ON t.oid = i.indrelid
LEFT JOIN pg_namespace n ON n.oid = t.relnamespace
WHERE (w.nspname, x.relname) IN (SELECT * FROM unnest(%s::text[], %s::text[]))
    OR (n.nspname, t.relname) IN (SELECT * FROM unnest(%s::text[], %s::text[]))
ORDER BY 1, 2"""
_APPLIED = re.compile(r"(\w+)\((.*?)(?:::text)?\)")


@dataclass(frozen=True)
class Found:
    """An index of the server, or what else has the name of one: by its path, its table and its columns. A plain one is
    over all rows; `scans` has those of its partitions."""

    path: tuple[str, str]
    table: tuple[str, str]
    is_valid: bool
    is_clustered: bool
    is_plain: bool
    is_btree: bool
    is_being_made: bool
    columns: list[str]
    scans: int

    def is_over(self, index: Named) -> bool:
        """Whether it is over the same, be it valid or not."""
        return self.is_plain and self.table == index.where and self.columns == columns_of(index)


@dataclass
class Standing:
    """What the script makes at a place, as it stands; a row is a pick or a hint of the document."""

    place: int
    row: dict[str, Any]
    state: str
    scans: int

    @property
    def is_there(self) -> bool:
        return self.state == THERE

    @property
    def is_asked(self) -> bool:
        """Whether it is recommended, so that the script makes it without being asked."""
        return not self.row.get("caveat")


def standing(server: Server, schema: Schema, document: dict[str, Any]) -> list[Standing]:
    """All that a script makes, in its order."""
    every = makes(schema, document)
    named = [it for _, _, made in every for it in made.indexes]
    laid = [made.laid for _, _, made in every if made.laid]
    paths = {(it.where[0], it.name) for it in named} | {(it.where[0], it.index) for it in laid}
    tables = {it.where for it in named} | {it.where for it in laid}
    columns = ([it[at] for it in sorted(some)] for some in (paths, tables) for at in (0, 1))
    found = [found_of(it) for it in server.rows(_INDEXES, [*columns])]
    return [Standing(place, row, *state_of(made, found)) for place, row, made in every]


def makes(schema: Schema, document: dict[str, Any]) -> list[tuple[int, dict[str, Any], Made]]:
    """The places and rows of a document with what is made for them, whose names come about in the script's order."""
    taken = taken_names(schema)
    listed = [(place, row, create(schema, candidate_of(row), taken)) for place, row in rows_of(document)]
    return [it for it in listed if not it[2].why_not]


def candidate_of(row: dict[str, Any]) -> Candidate:
    """The candidate of a pick or of a hint, whose one column is a function of one."""
    columns = tuple(map(str, row["columns"]))
    if is_hint(row):
        function, _, column = columns[0].removesuffix(")").partition("(")
        return Applied(0, str(row["table"]), (column,), 0, function=function)
    return Candidate(int(row["number"]), str(row["table"]), columns, int(row["pages"]), bool(row["clustered"]))


def found_of(row: Row) -> Found:
    """A row of the server."""
    schema, name, table_schema, table, valid, clustered, plain, btree, being_made, columns, scans = row
    is_valid, is_clustered, is_plain, is_btree, is_being_made = map(bool, (valid, clustered, plain, btree, being_made))
    return Found(
        (str(schema), str(name)),
        (str(table_schema), str(table)),
        is_valid,
        is_clustered,
        is_plain,
        is_btree,
        is_being_made,
        [shown_column(str(it)) for it in columns or ()],
        int(scans or 0),
    )


def shown_column(text: str) -> str:
    """A column by its name; a function of one, which PostgreSQL shows with its quotes and a cast to text, without these."""
    applied = _APPLIED.fullmatch(text)
    if applied is None:
        return text
    column = applied[2]
    column = column[1:-1].replace('""', '"') if column.startswith('"') else column
    return f"{applied[1]}({column})"


def columns_of(index: Named) -> list[str]:
    """The columns of an index that is made, in the form of `shown_column`."""
    return [f"{index.function}({it})" if index.function else shown_column(it) for it in index.columns]


def state_of(made: Made, found: list[Found]) -> tuple[str, int]:
    """How what is made for a pick stands, and how often it was used."""
    states = [_state(it, found) for it in made.indexes]
    if made.laid is not None:
        states.append(_laid(made.laid, found, is_alone=not made.indexes))
    missing = {state for state, _ in states} - {THERE}
    return next((it for it in _WORST if it in missing), THERE), sum(scans for _, scans in states)


def _state(index: Named, found: list[Found]) -> tuple[str, int]:
    """How an index stands: by its own name, or else as a valid one over the same by another name."""
    own = next((it for it in found if it.path == (index.where[0], index.name)), None)
    same = [it for it in found if it.is_over(index)]
    if own is not None and own in same and not own.is_valid:
        return BEING_MADE if own.is_being_made else INVALID, own.scans
    valid = [it for it in same if it.is_valid and (it is own or it.is_btree)]
    if valid:
        one = own if own in valid else valid[0]
        return THERE, one.scans
    return (NOT_MADE if own is None else OTHER), 0


def _laid(laid: Laid, found: list[Found], is_alone: bool) -> tuple[str, int]:
    """Whether the rows of a table lie in the order of an index, whose scans count where it isn't one that was made."""
    one = next((it for it in found if it.path == (laid.where[0], laid.index)), None)
    scans = one.scans if one is not None and is_alone else 0
    return THERE if one is not None and one.is_clustered else NOT_LAID, scans
