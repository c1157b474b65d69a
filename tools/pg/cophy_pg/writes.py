"""Which writes have more indexes to keep."""
from __future__ import annotations

from collections.abc import Iterable, Mapping, Sequence
from typing import Any

from cophy_text.answers import counted
from cophy_text.shown import in_row
from cophy_text.tokens import Token, tokens
from cophy_pg.schema import Table
from cophy_pg.server import Server
from cophy_pg.why import Reason

PLACES = {"INSERT": "into", "UPDATE": "of", "DELETE": "from"}
MOST_TABLES = 2
"""So many tables are named, those that are written the most often."""
# The columns in an expression or a condition of an index are known by what it depends on.
_INDEXES = """
SELECT i.indrelid::int8, count(DISTINCT i.indexrelid), array_agg(DISTINCT a.attname::text)
FROM pg_index i LEFT JOIN pg_attribute a ON a.attrelid = i.indrelid AND (a.attnum = ANY(i.indkey) OR EXISTS (
    SELECT FROM pg_depend d WHERE d.classid = 'pg_class'::regclass AND d.objid = i.indexrelid
        AND d.refclassid = 'pg_class'::regclass AND d.refobjid = i.indrelid AND d.refobjsubid = a.attnum))
WHERE i.indrelid = ANY(%s::oid[]) GROUP BY i.indrelid"""
Indexed = tuple[int, set[str]]
"""How many indexes a table has, and the columns that they have to do with, by their names in the catalogue."""


def indexes_of(server: Server, tables: Iterable[Table]) -> dict[str, Indexed]:
    """What indexes each table has, by its name in the catalogue."""
    by_number = {it.oid: it for it in tables}
    found: dict[str, Indexed] = {it.shown: (0, set()) for it in by_number.values()}
    for oid, count, names in server.rows(_INDEXES, ([*by_number],)):
        table = by_number[int(oid)]
        found[table.shown] = int(count), {table.columns[it].shown for it in names if it in table.columns}
    return found


def writes_of(
    picks: Iterable[Reason], texts: Sequence[str], calls: Mapping[int, int], indexes: Mapping[str, Indexed]
) -> list[dict[str, Any]]:
    """Of each table of the picks the writes that have more indexes to keep, the most called first: those that cost
    more by our model, and each UPDATE that sets an indexed column, since its rows get entries in all indexes; where
    only new indexes have such a column, it could be HOT. The texts are those of the workload, `calls` go by their
    numbers, and `indexes` are those that a table has."""
    statements, tables = [_tokens(it) for it in texts], dict[str, list[Reason]]()
    commands = {at: listed[0].word for at, listed in enumerate(statements, 1)}
    for it in picks:
        tables.setdefault(it.pick.table, []).append(it)
    found = []
    for table, listed in tables.items():
        paying = [{at for at, change in it.changes.items() if change < 0} for it in listed]
        before, indexed = indexes.get(table, (None, set[str]()))
        old, new = {it.lower() for it in indexed}, {name for it in listed for name in it.pick.columns}
        sets = {at: _set_by(it, table) for at, it in enumerate(statements, 1)}
        changed = set[str]().union(*(it for it in sets.values() if not it & old))
        moving = {at for at in set[int]().union(*paying) if commands[at] == "UPDATE"}
        moving |= {at for at, it in sets.items() if it & old.union(map(str.lower, new))}
        paying = [it | moving for it in paying]
        writes = {at: commands[at] for at in set[int]().union(*paying) if commands[at] in PLACES}
        if writes:
            shown = [it for it in PLACES if it in writes.values()]
            row = {"command": in_row(shown), "table": table, "calls": sum(calls.get(it, 0) for it in writes)}
            more = {"kept": sum(bool(it & {*writes}) for it in paying), "new": len(listed), "before": before}
            found.append(row | more | {"not_hot": sorted(it for it in new if it.lower() in changed)})
    return sorted(found, key=lambda it: (not it["not_hot"], -it["calls"], it["table"]))


def _tokens(text: str) -> list[Token]:
    """The tokens of a statement of a workload."""
    return [it for it in tokens(text.encode(errors="replace")) if it.kind != "weight"]


def _set_by(statement: list[Token], table: str) -> set[str]:
    """The columns that a statement sets, where it is an UPDATE of a table, in small letters."""
    found, depth = set[str](), 0
    if statement[0].word != "UPDATE" or statement[1].name != table.lower():
        return found
    for before, token, after in zip(statement, statement[1:], statement[2:]):
        depth += (token.text == b"(") - (token.text == b")")
        if depth == 0 and after.text == b"=" and (before.word == "SET" or before.text == b","):
            found.add(token.name)
    return found


def told(writes: list[dict[str, Any]], made: Iterable[tuple[int, dict[str, Any]]] = ()) -> list[str]:
    """The line about the first ones, where there are any, and how many others there are, with the numbers of what is made that
    UPDATEs can't be HOT for."""
    rows = [*made]
    shown = [_told(it, [at for at, row in rows if _ends_hot(row, it)]) for it in writes[:MOST_TABLES]]
    others = counted(len(writes) - MOST_TABLES, "other table")
    shown += [f"those of {others} too"] * (len(writes) > MOST_TABLES)
    return [f"writes: {', '.join(shown)}"] * bool(shown)


def _ends_hot(row: dict[str, Any], write: dict[str, Any]) -> bool:
    """Whether an index has a column for which a table's UPDATEs can't be HOT any more."""
    return row["table"] == write["table"] and not {*row["columns"]}.isdisjoint(write["not_hot"])


def _told(it: dict[str, Any], places: list[int]) -> str:
    count, before, command = it["kept"], it["before"], it["command"]
    have = "has" if command in PLACES else "have"
    table = it.get("path") or it["table"]
    text = f"{command} {PLACES.get(command, 'of')} {table} {have} {count} index{'es' * (count != 1)} more to keep"
    notes = [f"{before} to {before + count}"] if before is not None and count == it["new"] else []
    why = f" for {in_row([str(at) for at in places])}" if places else ""
    notes += [f"UPDATEs of {in_row(it['not_hot'])} can't be HOT any more{why}"] if it["not_hot"] else []
    return f"{text} ({'; '.join(notes)})" if notes else text
