"""The picks of an advice on the server: as hypothetical indexes, or as those that are there already."""
from __future__ import annotations

from contextlib import suppress
from typing import Any

from cophy_text.answers import Advice
from cophy_pg.ddl import names_of, why_not
from cophy_pg.findings import is_prefix
from cophy_pg.included import key_count
from cophy_pg.outcomes import Outcome
from cophy_pg.schema import Schema, Table
from cophy_pg.server import Server, ServerFault, quoted_name
from cophy_pg.sizes import stored_pages
from cophy_pg.trust import callable_of

_INDEXES = """
SELECT n.nspname::text, x.relname::text, i.indisclustered, i.indnkeyatts::int4,
    ARRAY(SELECT a.attname::text FROM unnest(i.indkey::int2[]) WITH ORDINALITY k(number, at)
        JOIN pg_catalog.pg_attribute a ON a.attrelid = i.indrelid AND a.attnum = k.number ORDER BY k.at),
    NOT (i.indisunique OR i.indisclustered OR i.indisreplident) AND i.indnkeyatts = i.indnatts, NOT EXISTS (
        SELECT FROM unnest(i.indkey::int2[], i.indclass::oid[], i.indcollation::oid[], i.indoption::int2[])
            p(number, class, coll, way)
        JOIN pg_catalog.pg_attribute a ON a.attrelid = i.indrelid AND a.attnum = p.number
        JOIN pg_catalog.pg_opclass o ON o.oid = p.class
        WHERE p.way <> 0 OR p.coll <> a.attcollation OR NOT o.opcdefault), i.indisunique
FROM pg_catalog.pg_index i JOIN pg_catalog.pg_class x ON x.oid = i.indexrelid
JOIN pg_catalog.pg_namespace n ON n.oid = x.relnamespace JOIN pg_catalog.pg_am m ON m.oid = x.relam
JOIN pg_catalog.pg_class c ON c.oid = i.indrelid JOIN pg_catalog.pg_namespace s ON s.oid = c.relnamespace
WHERE s.nspname = %s AND c.relname = %s AND m.amname = 'btree' AND i.indisvalid AND i.indisready
    AND i.indpred IS NULL AND i.indexprs IS NULL
ORDER BY 1, 2"""

_CALLED = {"hypopg_create_index": "text", "hypopg_reset": ""}
"""The functions of hypopg that are called, with the types that they take."""


def index_names(plan: Any) -> set[str]:
    """The names of all indexes that a plan takes."""
    return {name for name, _ in scans_of(plan)}


def scans_of(plan: Any) -> set[tuple[str, str]]:
    """The names of all indexes that a plan takes, each with the kinds of its scans."""
    found = {(str(plan["Index Name"]), str(plan.get("Node Type")))} if "Index Name" in plan else set()
    return found.union(*(scans_of(it) for it in plan.get("Plans", ())))


def home_of(server: Server, is_cleared: bool = True) -> str:
    """The schema of hypopg, as it is written; what was made in the session before is gone, unless it is to stay."""
    home = quoted_name(_hypopg(server)[0])
    if not is_cleared:
        return home
    # Others may have made a second function of that name there, by which the call isn't unique.
    with suppress(ServerFault), server.savepoint():
        server.rows(f"SELECT {home}.hypopg_reset()")
    return home


def replaceable(server: Server) -> list[str]:
    """The functions of hypopg in whose place a role that is no superuser may put others, with this role."""
    home, others = _hypopg(server)
    names = ", ".join(map(ascii, others))
    return [f"{home!a}.{it!a}, in whose place {names} may put another" for it in _CALLED] if others else []


def _hypopg(server: Server) -> tuple[str, list[str]]:
    found = callable_of(server, "hypopg", _CALLED)
    if found is None:
        raise ServerFault(
            "the extension hypopg isn't there: install it on the server (on Debian the package postgresql-15-hypopg), "
            "then cophy-pg setup DATABASE makes it"
        )
    return found


def hypothetical(server: Server, home: str, table: Table, columns: list[str], keys: int) -> str:
    """Makes a hypothetical index, of whose columns the first ones are keys; its name in plans."""
    listed, others = (", ".join(map(quoted_name, it)) for it in (columns[:keys], columns[keys:]))
    text = f"CREATE INDEX ON {quoted_name(table.schema)}.{quoted_name(table.name)} ({listed})"
    text += f" INCLUDE ({others})" if others else ""
    return hypothetical_by(server, home, text)


def hypothetical_by(server: Server, home: str, text: str) -> str:
    """Makes the hypothetical index of a statement; its name in plans."""
    with server.savepoint():
        return str(server.value(f"SELECT indexname::text FROM {home}.hypopg_create_index(%s::text)", (text,)))


def make(server: Server, schema: Schema, advice: Advice) -> tuple[list[Outcome], dict[str, int]]:
    """Makes the picks as hypothetical indexes, without those that are there already: an outcome for each pick, and the
    number of the pick for each index that stands for one."""
    home, found, made = home_of(server), [], {}
    for it in advice.picks:
        outcome = Outcome(it)
        found.append(outcome)
        if why := why_not(schema, it):
            outcome.reasons[f"it can't be made: {why}"] = ""
            continue
        (table, columns), keys = names_of(schema, it), key_count(it, schema.searched)
        outcome.stored = stored_pages(schema, it)
        try:
            name = _there(server, table, columns, keys, outcome)
            if outcome.reasons:
                continue
            name = name or hypothetical(server, home, table, columns, keys)
            for child in table.children:
                made[hypothetical(server, home, Table(*child, ""), columns, keys)] = it.number
        except ServerFault as fault:
            if server.is_lost():
                raise
            outcome.reasons[f"it can't be made: {fault.shown()}"] = ""
        else:
            made[name] = it.number
    return found, made


def _there(server: Server, table: Table, columns: list[str], new_keys: int, outcome: Outcome) -> str | None:
    """The name of an index over these columns alone; another that begins with them is noted, a unique one over the first
    alone, and those with which their keys begin. Where the rows don't lie in its order, it is the one of a clustered pick,
    of which plans show nothing."""
    same = ""
    for schema, name, clusters, count, keys, may_go, is_plain, is_unique in server.rows(
        _INDEXES, (table.schema, table.name)
    ):
        shown, is_same = f"{str(schema)!a}.{str(name)!a}", keys == columns and len(columns) <= int(count)
        if is_plain and not is_same and is_prefix(columns[:new_keys], columns, keys[: int(count)], keys):
            outcome.begins = outcome.begins or shown
        if is_unique and is_plain and keys[: int(count)] == columns[:1] != columns:
            outcome.key = outcome.key or shown
        if may_go and is_plain and len(keys) < len(columns) and keys == columns[:new_keys][: len(keys)]:
            outcome.superfluous.append(f"{quoted_name(str(schema))}.{quoted_name(str(name))}")
        lies = clusters or any(it.ordered and it.name == name for it in table.indexes)
        if is_same and (lies or not outcome.pick.is_clustered):
            outcome.exists = shown
            return str(name)
        same = same or shown * is_same
    if same:
        outcome.reasons[f"its index is there, as {same}, and plans don't show its order"] = ""
    return None
