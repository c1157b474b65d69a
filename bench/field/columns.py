"""Which columns of which tables a statement seeks or reads, by PostgreSQL's parser; and the indexes that they suggest."""
from __future__ import annotations

from dataclasses import dataclass, field
from itertools import permutations
from typing import Any

from pglast import parse_sql
from sessions import Connection, Index

Tables = dict[str, list[str]]
MOST_COLUMNS = 8
_SEEKING = ("whereClause", "quals", "sortClause", "groupClause", "distinctClause")


@dataclass
class Use:
    """What a statement does with a table: the columns that it compares, joins, groups or orders by, and all that it reads."""

    sought: list[str] = field(default_factory=list)
    read: list[str] = field(default_factory=list)


def tables_of(connection: Connection) -> Tables:
    """All tables with their columns."""
    rows = connection.execute(
        "SELECT relname, array_agg(attname::text ORDER BY attnum) FROM pg_class c JOIN pg_attribute a ON a.attrelid = c.oid "
        "WHERE relkind = 'r' AND relnamespace::regnamespace::text = 'public' AND attnum > 0 AND NOT attisdropped GROUP BY relname"
    )
    return {name: columns for name, columns in rows.fetchall()}


def uses(text: str, tables: Tables) -> dict[str, Use]:
    """What a statement does with each of its tables. A column without a table's name belongs to each table that has it."""
    tree = [it.stmt(skip_none=True) for it in parse_sql(text)]
    names: dict[str, str] = {}
    _name(tree, names, tables)
    found = {it: Use() for it in names.values()}
    _walk(tree, False, names, found, tables)
    return found


def _name(node: Any, names: dict[str, str], tables: Tables) -> None:
    for it in _parts(node):
        if isinstance(it, dict) and it.get("@") == "RangeVar" and it["relname"] in tables:
            names[it["alias"]["aliasname"] if "alias" in it else it["relname"]] = it["relname"]
        _name(it, names, tables)


def _walk(node: Any, is_sought: bool, names: dict[str, str], found: dict[str, Use], tables: Tables) -> None:
    if isinstance(node, dict) and node.get("@") == "ColumnRef":
        parts = [it.get("sval") for it in node["fields"]]
        owners = {names[parts[-2]]} if len(parts) > 1 and parts[-2] in names else set(names.values())
        for table in sorted(owners):
            for column in tables[table] if parts[-1] is None else [parts[-1]] if parts[-1] in tables[table] else []:
                _add(found[table], column, is_sought)
        return
    items = node.items() if isinstance(node, dict) else ((None, it) for it in _parts(node))
    for key, it in items:
        _walk(it, is_sought or key in _SEEKING, names, found, tables)


def _add(use: Use, column: str, is_sought: bool) -> None:
    for listed in (use.read, use.sought) if is_sought else (use.read,):
        if column not in listed:
            listed.append(column)


def _parts(node: Any) -> list[Any]:
    return list(node.values()) if isinstance(node, dict) else list(node) if isinstance(node, (list, tuple)) else []


def narrow(found: dict[str, Use], most: int) -> list[Index]:
    """An index for each ordered choice of at most so many of the columns that are sought."""
    return [
        Index(table, columns)
        for table, use in sorted(found.items())
        for count in range(1, most + 1)
        for columns in permutations(use.sought, count)
    ]


def covering(found: dict[str, Use], indexes: list[Index]) -> list[Index]:
    """The same indexes with all other columns behind them that the statement reads."""
    wide = [
        Index(it.table, it.columns + tuple(c for c in found[it.table].read if c not in it.columns)) for it in indexes
    ]
    return [it for it, old in zip(wide, indexes) if it != old and len(it.columns) <= MOST_COLUMNS]
