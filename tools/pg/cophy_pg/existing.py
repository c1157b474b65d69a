"""The indexes and foreign keys of a database, as its catalogs and its counts have them."""
from __future__ import annotations

from dataclasses import dataclass, field
from typing import Any

from cophy_pg import catalogs
from cophy_pg.schema import share_of
from cophy_pg.server import Row, Server

_INDEXES = f"""
SELECT x.oid::int8, w.nspname::text, x.relname::text, n.nspname::text, c.relname::text, c.oid::int8, m.amname::text,
    x.relkind::text, i.indisunique, i.indisvalid AND i.indisready,
    i.indisprimary OR i.indisexclusion OR i.indisreplident OR i.indisclustered
        OR EXISTS (SELECT FROM pg_constraint k WHERE k.conindid = x.oid),
    i.indnkeyatts::int4, i.indkey::int2[]::int4[], i.indclass::oid[]::int8[], i.indcollation::oid[]::int8[],
    i.indoption::int2[]::int4[], coalesce(i.indexprs::text, ''), coalesce(i.indpred::text, ''),
    pg_stat_get_numscans(x.oid), x.reltuples::float8, c.reltuples::float8
FROM pg_index i JOIN pg_class x ON x.oid = i.indexrelid JOIN pg_namespace w ON w.oid = x.relnamespace
JOIN pg_am m ON m.oid = x.relam JOIN pg_class c ON c.oid = i.indrelid JOIN pg_namespace n ON n.oid = c.relnamespace
WHERE NOT x.relispartition AND {catalogs.OWN}
ORDER BY n.nspname, c.relname, x.relname"""
_SIZES = """
SELECT o::int8, CASE WHEN c.relkind = 'I' THEN
    (SELECT sum(pg_relation_size(p.relid)) FROM pg_partition_tree(o) p) ELSE pg_relation_size(o) END::int8
    / current_setting('block_size')::int8
FROM unnest(%s::oid[]) o JOIN pg_class c ON c.oid = o"""
_SCANS = """
SELECT o::int8, (SELECT sum(pg_stat_get_numscans(p.relid)) FROM pg_partition_tree(o) p)::int8 FROM unnest(%s::oid[]) o"""
_COLUMNS = """
SELECT a.attrelid::int8, a.attnum::int4, a.attname::text, a.attalign::text, a.attlen::int4, t.typname::text,
    max(s.avg_width)::int4, max(s.n_distinct)::float8, coalesce(max(s.null_frac), 0)::float8
FROM pg_attribute a JOIN pg_class c ON c.oid = a.attrelid JOIN pg_namespace n ON n.oid = c.relnamespace
JOIN pg_type t ON t.oid = a.atttypid
LEFT JOIN pg_stats s ON s.schemaname = n.nspname AND s.tablename = c.relname AND s.attname = a.attname AND NOT s.inherited
WHERE a.attrelid = ANY(%s::oid[]) AND a.attnum > 0 AND NOT a.attisdropped
GROUP BY 1, 2, 3, 4, 5, 6"""
_KEYS = f"""
SELECT k.conname::text, n.nspname::text, c.relname::text, c.relkind::text, s.nspname::text, r.relname::text,
    ARRAY(SELECT a.attname::text FROM unnest(k.conkey) WITH ORDINALITY u(number, at)
        JOIN pg_attribute a ON a.attrelid = k.conrelid AND a.attnum = u.number ORDER BY u.at), c.reltuples::float8, v.serving
FROM pg_constraint k JOIN pg_class c ON c.oid = k.conrelid JOIN pg_namespace n ON n.oid = c.relnamespace
JOIN pg_class r ON r.oid = k.confrelid JOIN pg_namespace s ON s.oid = r.relnamespace
CROSS JOIN LATERAL (SELECT ARRAY(
    SELECT coalesce(pg_partition_root(x.oid), x.oid)::int8
    FROM pg_index i JOIN pg_class x ON x.oid = i.indexrelid JOIN pg_am m ON m.oid = x.relam
    WHERE i.indrelid = k.conrelid AND i.indisvalid AND i.indpred IS NULL AND m.amname = 'btree'
        AND (i.indkey::int2[])[0:least(cardinality(k.conkey), i.indnkeyatts::int4) - 1] @> k.conkey) AS serving) v
WHERE k.contype = 'f' AND (NOT c.relispartition OR cardinality(v.serving) > 0) AND {catalogs.OWN}
ORDER BY c.reltuples DESC, 2, 3, 1"""
_SINCE = """
SELECT coalesce(to_char(stats_reset AT TIME ZONE 'UTC', 'YYYY-MM-DD HH24:MI'), ''),
    extract(epoch FROM now() - stats_reset)::float8 / 86400
FROM pg_stat_database WHERE datname = current_database()"""


@dataclass
class Existing:
    """An index of the server. `is_bound` says that a constraint or the table hangs on it; `parts` are its columns by number,
    0 for an expression, each with operator class, collation and direction, which included columns don't have. What a lock
    hides isn't known."""

    oid: int
    schema: str
    name: str
    table_schema: str
    table: str
    table_oid: int
    method: str
    is_partitioned: bool
    is_unique: bool
    is_valid: bool
    is_bound: bool
    keys: int
    columns: list[int]
    parts: list[tuple[int, int, int, int]]
    expressions: str
    predicate: str
    scans: int | None
    rows: float
    pages: int | None = None
    expected: int | None = None

    def included(self) -> list[int]:
        """The columns that aren't keys."""
        return self.columns[self.keys :]


@dataclass
class Column:
    """A column as it is stored: its name, alignment, length or -1, type, and average width and distinct values, if known,
    and the share of the rows that have no value."""

    name: str
    alignment: str
    length: int
    type: str
    width: int | None
    distinct: float | None
    nulls: float


@dataclass
class Key:
    """A foreign key: its name, its table, the table that it refers to, its columns, rows, and the indexes that serve it, by
    number; of a partition one that is served alone."""

    name: str
    schema: str
    table: str
    other: str
    columns: list[str]
    rows: float
    is_partitioned: bool
    serving: list[int]


@dataclass
class Everything:
    """The indexes of a database, the columns of their tables, foreign keys, and since when scans count."""

    indexes: list[Existing]
    columns: dict[int, dict[int, Column]]
    keys: list[Key]
    since: str
    days: float | None
    faults: list[str] = field(default_factory=list)


def read_everything(server: Server) -> Everything:
    """Reads the catalogs alone."""
    indexes = [_index(it) for it in server.rows(_INDEXES)]
    by_oid = {it.oid: it for it in indexes}
    sizes, faults = server.each(_SIZES, [*by_oid])
    for oid, pages in sizes:
        by_oid[int(oid)].pages = int(pages) if pages is not None else None
    scans, more = server.each(_SCANS, [it.oid for it in indexes if it.is_partitioned])
    for oid, count in scans:
        by_oid[int(oid)].scans = int(count)
    faults |= more
    columns: dict[int, dict[int, Column]] = {}
    for oid, number, name, alignment, length, kind, width, distinct, nulls in server.rows(
        _COLUMNS, (sorted({it.table_oid for it in indexes}),)
    ):
        given = (_known(int, width), _known(float, distinct), share_of(float(nulls)))
        column = Column(str(name), str(alignment), int(length), str(kind), *given)
        columns.setdefault(int(oid), {})[int(number)] = column
    keys = []
    for name, schema, table, kind, other_schema, other, listed, rows, serving in server.rows(_KEYS):
        other_name = str(other) if other_schema == schema else f"{other_schema}.{other}"
        own = (str(name), str(schema), str(table), other_name, [*map(str, listed)])
        keys.append(Key(*own, float(rows), kind == "p", [*map(int, serving)]))
    since, days = (server.rows(_SINCE) or [("", None)])[0]
    told = [f"{by_oid[oid].schema!a}.{by_oid[oid].name!a}: {fault.shown()}" for oid, fault in faults.items()]
    return Everything(indexes, columns, keys, str(since), _known(float, days), told)


def _known(kind: type, value: Any) -> Any:
    return kind(value) if value is not None else None


def _index(row: Row) -> Existing:
    (oid, schema, name, table_schema, table, table_oid, method, kind, unique, valid, bound, keys, columns) = row[:13]
    classes, collations, options, expressions, predicate, scans, rows, table_rows = row[13:]
    numbers = [*map(int, columns)]
    return Existing(
        oid=int(oid),
        schema=str(schema),
        name=str(name),
        table_schema=str(table_schema),
        table=str(table),
        table_oid=int(table_oid),
        method=str(method),
        is_partitioned=kind == "I",
        is_unique=bool(unique),
        is_valid=bool(valid),
        is_bound=bool(bound),
        keys=int(keys),
        columns=numbers,
        parts=[*zip(numbers, map(int, classes), map(int, collations), map(int, options))],
        expressions=str(expressions),
        predicate=str(predicate),
        scans=None if kind == "I" else int(scans),
        rows=float(rows) if float(rows) > 0 else max(0.0, float(table_rows)),
    )
