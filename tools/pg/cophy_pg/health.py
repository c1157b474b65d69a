"""`health`: the indexes of a server that may go or need care, and what the workload would cost without each."""
from __future__ import annotations

import argparse
import json
from typing import Any

from cophy_text.answers import NoAnswer, counted, explained
from cophy_text.shown import grouped, percent, space
from cophy_pg import folder
from cophy_pg.amounts import amount
from cophy_pg.ddl import written_name
from cophy_pg.existing import Everything, Existing, Key, read_everything
from cophy_pg.findings import UNATTACHED, Finding, findings
from cophy_pg.folder import Folder
from cophy_pg.program import Program, ProgramFault, add_program
from cophy_pg.progress import Progress, say
from cophy_pg.server import Row, add_connection, connected, reading
from cophy_pg.without import Without, read_standing

FOUND = 3
"""The status where there is something to say."""
YOUNG = 14
"""Scans that were counted for fewer days may miss what runs once a month."""
MIN_SIZE = 128
"""Smaller indexes that are unused cost little."""
NOTICED = 1
"""An index without which the workload costs so many percent more stays."""
KEEP = "keep it: the workload needs it"
LEAST_ROWS = 1000
"""Of smaller tables a foreign key needs no index."""


def add_health(commands: argparse._SubParsersAction[argparse.ArgumentParser]) -> None:
    """The words of `health`."""
    parser = commands.add_parser(
        "health",
        help="name the indexes of a server that may go or need care",
        description="Names indexes that were never scanned, that are the same as another or the begin of another, INVALID ones, "
        "and those that are much larger than fresh ones; and foreign keys without an index. With a folder of advise it says "
        "what the workload would cost without each. Nothing is changed: the statements are comments.",
        epilog="The status is 0 where nothing is found, 3 where something is.",
    )
    parser.add_argument("--folder", metavar="DIR", help="a folder of advise, to price the workload without each index")
    parser.add_argument(
        "--min-size", type=amount, default=MIN_SIZE, metavar="SPACE", help="how large an unused index has to be (1MB)"
    )
    parser.add_argument("--json", action="store_true", help="print JSON instead")
    add_connection(parser)
    add_program(parser)
    parser.set_defaults(run=health)


def health(words: argparse.Namespace) -> int:
    """Prints what is found."""
    with connected(words.dsn, words.timeout) as server, reading(server):
        everything = read_everything(server)
        standing = read_standing(server) if words.folder else []
    every = findings(everything)
    found = [it for it in every if not it.is_small(words.min_size)]
    few = len(every) - len(found)
    keys = [it for it in everything.keys if it.rows >= LEAST_ROWS and not it.serving]
    prices = _prices(words, found, everything, standing) if words.folder else {}
    for finding in found:
        before, without = prices.get(finding.index.oid, (0, 0))
        finding.is_needed = without - before >= NOTICED * before / 100 and without > before
    for it in everything.faults:
        say(f"warning: {it}, so its size or its scans aren't known")
    if words.json:
        print(json.dumps(_document(everything, found, keys, prices) | {"small": few}, indent=2))
    else:
        more = (
            [f"-- {grouped(few)} of under {space(words.min_size)} that no scan was counted of aren't listed"]
            if few
            else []
        )
        print("\n".join([*_lines(everything, found, keys, prices), *more]))
    return FOUND if found or keys else 0


def _prices(
    words: argparse.Namespace, found: list[Finding], everything: Everything, standing: list[Row]
) -> dict[int, tuple[int, int]]:
    """The workload's cost with and without each index that may go, by its number."""
    kept, progress = Folder(words.folder), Progress()
    prices: dict[int, tuple[int, int]] = {}
    try:
        paths = (kept.path(kept.whole()), kept.path(folder.WORKLOAD))
        without = Without(words.program, *paths, everything, standing)
        for it in found:
            progress(f"pricing without {it.index.name!a}")
            cost = without.cost(it.index) if it.may_go() else None
            if cost is not None:
                prices[it.index.oid] = (without.before, cost)
    except (ProgramFault, NoAnswer) as fault:
        say(f"what the workload costs without them is left out: {fault}")
    return prices


def shown(it: Existing) -> str:
    """An index as it is written."""
    return f"{written_name(it.schema)}.{written_name(it.name)}"


def _statement(it: Finding) -> str | None:
    """The statement that mends it; nothing where the workload needs it. Of a partitioned table an index is neither made nor dropped
    CONCURRENTLY."""
    if it.is_needed:
        return None
    if it.may_go():
        return f"DROP INDEX {'' if it.index.is_partitioned else 'CONCURRENTLY '}{shown(it.index)};"
    if UNATTACHED in it.reasons:
        return f"ALTER INDEX {shown(it.index)} ATTACH PARTITION INDEX_OF_THE_PARTITION;"
    return f"REINDEX INDEX CONCURRENTLY {shown(it.index)};"


def _create(it: Key) -> str:
    columns = ", ".join(map(written_name, it.columns))
    how = "" if it.is_partitioned else "CONCURRENTLY "
    return f"CREATE INDEX {how}ON {written_name(it.schema)}.{written_name(it.table)} ({columns});"


def _lines(
    everything: Everything, found: list[Finding], keys: list[Key], prices: dict[int, tuple[int, int]]
) -> list[str]:
    gone = sum(it.index.pages or 0 for it in found if it.may_go())
    head = f"-- of {grouped(len(everything.indexes))} indexes {grouped(len(found))} to look at"
    lines = [head + (f"; those that may go have {space(gone)}" if gone else "")]
    if everything.days is not None and everything.days < YOUNG:
        lines += [f"-- scans are counted since {everything.since} UTC alone: what runs once a month may be missing"]
    if found:
        lines += ["-- What runs on a standby isn't counted here, and an index that was just made has no scans yet."]
    for it in found:
        size = space(it.index.pages) if it.index.pages is not None else "of unknown size"
        scans = counted(it.index.scans, "scan") if it.index.scans is not None else "scans unknown"
        lines += ["", f"-- {shown(it.index)} on {written_name(it.index.table)}, {size}, {scans}"]
        lines += [f"--   {why}" for why in it.reasons.values()]
        if it.index.oid in prices:
            lines += [f"--   {_price(*prices[it.index.oid])}"]
        lines += [f"-- {_statement(it) or KEEP}"]
    for key in keys:
        lines += ["", f"-- the foreign key {key.name!a} of {written_name(key.table)} to {key.other!a} has no index:"]
        lines += [
            f"--   a DELETE or an UPDATE of a key there reads all {grouped(key.rows)} rows here",
            f"-- {_create(key)}",
        ]
    return lines


def _price(before: int, without: int) -> str:
    change = f"{percent(100 * (without - before) / before)} " if before else ""
    word = "more" if without >= before else "less"
    if without == before:
        return "by our model the workload costs the same without it"
    return f"by our model the workload costs {grouped(explained(without))} without it, {change.replace('-', '')}{word}"


def _document(
    everything: Everything, found: list[Finding], keys: list[Key], prices: dict[int, tuple[int, int]]
) -> dict[str, Any]:
    indexes = [
        {
            "schema": it.index.schema,
            "name": it.index.name,
            "table": it.index.table,
            "pages": it.index.pages,
            "fresh_pages": it.index.expected,
            "scans": it.index.scans,
            "reasons": it.reasons,
            "may_go": it.may_go(),
            "statement": _statement(it),
            "cost": dict(zip(("before", "without"), prices[it.index.oid])) if it.index.oid in prices else None,
        }
        for it in found
    ]
    listed = [
        {"name": it.name, "schema": it.schema, "table": it.table, "refers_to": it.other, "columns": it.columns}
        | {"rows": round(it.rows), "statement": _create(it)}
        for it in keys
    ]
    return {
        "version": 1,
        "count": len(everything.indexes),
        "since": everything.since or None,
        "indexes": indexes,
        "foreign_keys": listed,
    }
