"""Tables whose rows may be laid in the order of a new index: `--may-cluster`."""
from __future__ import annotations

import argparse
from collections.abc import Iterable

from cophy_pg.inputs import NoInput
from cophy_pg.schema import Schema, Table

WORD = "--may-cluster"


def add_clustering(parser: argparse.ArgumentParser) -> None:
    """The word that names such tables."""
    parser.add_argument(
        WORD,
        action="append",
        default=[],
        metavar="T",
        help="the rows of the table T, named with its schema or without, may be laid in the order of one new index, by CLUSTER, "
        "which locks the table while it is written anew; may be given several times",
    )


def words_of(words: argparse.Namespace) -> list[str]:
    """The words that were given."""
    return [word for it in words.may_cluster for word in (WORD, it)]


def permit(schema: Schema, names: Iterable[str]) -> list[str]:
    """Says of tables that their rows may be laid anew; what to warn of. Refuses names of what can't be."""
    return [told for name in names for told in _permit(_table(schema, name))]


def _table(schema: Schema, name: str) -> Table:
    """The table of a name as PostgreSQL spells it, behind its schema and a point or without."""
    known = [*schema.tables, *schema.views, *schema.parents, *schema.left_out]
    found = [*dict.fromkeys(it for it in known if name in (it[1], ".".join(it)))]
    if len(found) > 1:
        first = next((it for home in schema.path for it in found if it == (home, name)), None)
        if first is None:
            raise NoInput(f"{WORD}: {name!a} is the name of {len(found)} tables: name its schema too")
        found = [first]
    table = schema.tables.get(found[0]) if found else None
    why = _why_not(schema, found[0], table) if found else "no such table is exported"
    if table is None or why:
        raise NoInput(f"{WORD}: {name!a}: {why}")
    return table


def _why_not(schema: Schema, key: tuple[str, str], table: Table | None) -> str:
    """Why the rows of a table can't be laid anew; nothing where they can."""
    if key in schema.parents:
        return f"it is a partition of {'.'.join(schema.parents[key])!a}, and statements are priced over the whole"
    if table is None:
        return f"it isn't exported: {schema.left_out.get(key, 'it is a view')}"
    if table.is_partitioned:
        return "it has partitions, which CLUSTER lays anew one by one"
    return "others inherit from it, and CLUSTER leaves their rows where they are" if table.children else ""


def _permit(table: Table) -> list[str]:
    """Takes the order from the rows of a table, but the one that CLUSTER keeps; what to warn of."""
    if table.clustered_by:
        return [
            f"{WORD} changes nothing for {table.shown}, which is clustered by {table.clustered_by!a}: "
            "CLUSTER lays its rows so again, ALTER TABLE .. SET WITHOUT CLUSTER gives that up"
        ]
    table.may_cluster, told = True, []
    for it in (it for it in table.indexes if it.clustered):
        it.clustered, it.ordered = False, True
        table.remarks.append(
            f"index {it.name!a} counts as not clustered: rows lie in its order, and may be laid in another"
        )
        told.append(
            f"the rows of {table.shown} lie in the order of {it.name!a}, and {WORD} gives that up unpriced: compare with an "
            "export without it"
        )
    return told
