"""`changes`: what became different between two folders of `advise`."""
from __future__ import annotations

import argparse
import json
from dataclasses import dataclass
from typing import Any

from cophy_text.answers import Candidate, counted
from cophy_text.files import shown
from cophy_text.shown import grouped, percent, short, space
from cophy_pg import folder
from cophy_pg.catalogue import read_schema
from cophy_pg.closing import is_hint, made_of, recommended_of
from cophy_pg.ddl import NoIndex, names_of, taken_names
from cophy_pg.folder import Folder
from cophy_pg.inputs import NoInput
from cophy_pg.overview import named
from cophy_pg.schema import Schema

OTHERS = 3
"""The status where other indexes are advised than before."""
LEAST_SHARE, LEAST_TIMES, LEAST_ROWS = 5.0, 2.0, 0.2
"""So many percent of the workload more or less, so many times the cost of a call, and such a share of a table's rows are told."""
MOST_TOLD = 10


@dataclass
class Found:
    """A folder of `advise`: its document, and the catalogue with all tables."""

    document: dict[str, Any]
    schema: Schema

    @staticmethod
    def of(name: str) -> Found:
        """What a folder holds."""
        kept = Folder(name)
        try:
            document = json.loads(kept.result())
            if document["version"] != 1:
                raise ValueError
        except (ValueError, TypeError, KeyError, RecursionError):
            raise NoInput(f"{shown(kept.path(folder.RESULT))} is no result of cophy-pg advise") from None
        return Found(document, read_schema(kept.read(kept.whole())))

    def has(self, pick: dict[str, Any]) -> bool:
        """Whether an index of the catalogue is over just these columns; of a hint, whether there is one of its
        name."""
        if is_hint(pick):
            return pick["name"].lower() in taken_names(self.schema)
        try:
            table, columns = names_of(self.schema, Candidate(0, pick["table"], tuple(pick["columns"]), 0))
        except NoIndex:
            return False
        is_clustered = pick.get("clustered", False)
        return any(it.keys == columns and it.clustered >= is_clustered for it in table.indexes)


def add_changes(commands: argparse._SubParsersAction[argparse.ArgumentParser]) -> None:
    """The words of `changes`."""
    parser = commands.add_parser(
        "changes",
        help="say what became different between two folders of advise",
        description="Says which indexes are advised now and weren't, which were made since, which are advised no longer, which "
        "statements have more or less of the workload, whose calls cost more, and which tables grew. No server is asked.",
        epilog="The status is 0 where the same indexes are advised, 3 where others are.",
    )
    parser.add_argument("old", metavar="OLD", help="the earlier folder")
    parser.add_argument("new", metavar="NEW", help="the later folder")
    parser.add_argument("--json", action="store_true", help="print JSON instead")
    parser.set_defaults(run=changes)


def changes(words: argparse.Namespace) -> int:
    """Prints what became different."""
    found = compared(Found.of(words.old), Found.of(words.new))
    print(json.dumps(found, indent=2) if words.json else "\n".join(lines_of(found)))
    return OTHERS if found["indexes"]["new"] or found["indexes"]["gone"] else 0


def compared(old: Found, new: Found) -> dict[str, Any]:
    """What became different, as one document of JSON, whose form is `changes.schema.json`."""
    before, after = ({named(it): it for it in made_of(side.document)} for side in (old, new))
    why = {named(it): it["why"] for it in new.document["left_out"]}
    why |= {named(it): f"not recommended: {it['caveat']}" for it in new.document["picks"] if it.get("caveat")}
    made = [name for name, it in before.items() if name not in after and new.has(it)]
    gone = [name for name in before if name not in after and name not in made]
    return {
        "version": 1,
        "database": new.document["database"],
        "from": _side(old.document),
        "to": _side(new.document),
        "indexes": {
            "new": [_pick(name, it) for name, it in after.items() if name not in before],
            "made": [_pick(name, before[name]) for name in made],
            "gone": [_pick(name, before[name]) | {"why": why.get(name)} for name in gone],
            "kept": [_pick(name, it) for name, it in after.items() if name in before],
        },
        "statements": _statements(old.document, new.document),
        "tables": _tables(old.schema, new.schema),
        "warnings": [it for it in new.document["warnings"] if it not in old.document["warnings"]],
    }


def _side(document: dict[str, Any]) -> dict[str, Any]:
    """What a folder was asked for, and what the workload costs without and with what is recommended."""
    found = {it: document[it] for it in ("made", "folder", "asked_pages")}
    after = recommended_of(document)
    return found | {
        "cost": document["cost"] | {"after": after["cost"]},
        "server_cost": document["server_cost"] | {"after": after["server_cost"]},
    }


def _pick(name: str, pick: dict[str, Any]) -> dict[str, Any]:
    saves = {it: pick["saves"].get(it) for it in ("ours", "server")}
    return {"index": name, "name": pick["name"], "stored_pages": pick["stored_pages"], "saves": saves}


def _statements(old: dict[str, Any], new: dict[str, Any]) -> list[dict[str, Any]]:
    """The statements with another share of the workload, or whose calls cost otherwise, those that changed most first. Shares
    are of the time that all took, where that is known on both sides, else of the cost by our model."""
    by_time = all(it["seconds"] is not None for side in (old, new) for it in side["statements"])
    before, after = _weights(old, by_time), _weights(new, by_time)
    found: list[dict[str, Any]] = []
    for key in {**before, **after}:
        one, other = before.get(key), after.get(key)
        shares = [100 * it["weight"] if it else 0.0 for it in (one, other)]
        costs = [it["cost"] if it else None for it in (one, other)]
        if abs(shares[1] - shares[0]) >= LEAST_SHARE or (max(shares) >= 1 and _is_other(*costs)):
            known = other or one
            assert known is not None
            found.append(
                {
                    "change": "new" if one is None else "gone" if other is None else "other",
                    "numbers": other["numbers"] if other else [],
                    "sql": key[0],
                    "calls": known["calls"],
                    "share_of": "time" if by_time else "cost",
                    "shares": [round(it, 4) for it in shares],
                    "server_costs": costs,
                }
            )
    return sorted(found, key=lambda it: (-abs(it["shares"][1] - it["shares"][0]), it["sql"]))


def _weights(document: dict[str, Any], by_time: bool) -> dict[tuple[str, str], dict[str, Any]]:
    """Each statement of each role: its share of the workload, its calls, and what a call costs by the server."""
    found: dict[tuple[str, str], dict[str, Any]] = {}
    for it in document["statements"]:
        cost = it["cost"]["before"] if it["cost"] else 0
        weight = it["seconds"] if by_time else it["calls"] * cost
        server = it["server_cost"]["before"] if it["server_cost"] else None
        known = found.setdefault(
            (it["sql"], it["role"] or ""), {"weight": 0.0, "calls": 0, "cost": server, "numbers": it["numbers"]}
        )
        known["weight"] += weight
        known["calls"] += it["calls"]
    total = sum(it["weight"] for it in found.values())
    for it in found.values():
        it["weight"] = it["weight"] / total if total else 0.0
    return found


def _is_other(one: float | None, other: float | None) -> bool:
    """Whether a call costs many times as much, or as little."""
    if not one or not other:
        return False
    return max(one / other, other / one) >= LEAST_TIMES


def _tables(old: Schema, new: Schema) -> list[dict[str, Any]]:
    """The tables with many more or fewer rows, those that changed most first; one that wasn't there had none."""
    then = {key: it.rows for key, it in old.tables.items()}
    rows = [(key, then.get(key, 0), it.rows) for key, it in new.tables.items()]
    listed = [it for it in rows if abs(it[2] - it[1]) > LEAST_ROWS * max(it[1], it[2])]
    listed.sort(key=lambda it: (-abs(it[2] - it[1]), it[0]))
    return [{"schema": key[0], "table": key[1], "rows": [before, after]} for key, before, after in listed]


def lines_of(found: dict[str, Any]) -> list[str]:
    """The report for people."""
    indexes = found["indexes"]
    counts = ", ".join(f"{grouped(len(indexes[name]))} {words}" for name, words, _ in _KINDS)
    lines = [
        f"database {found['database']!a}, from {found['from']['made']} to {found['to']['made']}",
        f"indexes: {counts}",
    ]
    for name, _, word in _KINDS[:-1]:
        lines += [f"  {word} {_shown(it)}" for it in indexes[name]]
    for side in ("from", "to"):
        cost, server = found[side]["cost"], found[side]["server_cost"]
        ours = f"{grouped(cost['before'] / 1000)} without new indexes, {grouped(cost['after'] / 1000)} with them"
        theirs = f"{grouped(float(server['before']))} and {grouped(float(server['after']))}"
        lines.append(f"costs {'then' if side == 'from' else 'now'}: {ours}; by the server's planner {theirs}")
    for what, shown_of in (("statements", _statement), ("tables", _table)):
        listed = [shown_of(it) for it in found[what][:MOST_TOLD]]
        more = len(found[what]) - len(listed)
        lines += [f"{what}:", *listed] if listed else []
        lines += [f"  and {grouped(more)} more"] if more else []
    return [*lines, *(f"warning: {it}" for it in found["warnings"])]


_KINDS = (
    ("new", "new", "new"),
    ("made", "made since", "made since"),
    ("gone", "no longer advised", "no longer"),
    ("kept", "as before", ""),
)


def _shown(pick: dict[str, Any]) -> str:
    ours, server = pick["saves"]["ours"], pick["saves"]["server"]
    saves = "" if ours is None else f"{percent(ours)} by our model, "
    saves += f"{percent(server)} by the server's"
    why = f"; {pick['why']}" if pick.get("why") else ""
    return f"{pick['index']}, {space(pick['stored_pages'])}, saves {saves}{why}"


def _statement(it: dict[str, Any]) -> str:
    shares, costs = it["shares"], it["server_costs"]
    words = {"new": f"new, {percent(shares[1])}", "gone": f"gone, had {percent(shares[0])}"}
    what = words.get(it["change"], f"{percent(shares[0])}, now {percent(shares[1])}")
    call = f", a call costs {costs[0]:,.1f}, now {costs[1]:,.1f}" if _is_other(*costs) else ""
    return f"  {what} of the {it['share_of']}, {counted(it['calls'], 'call')}{call}: {short(it['sql'])}"


def _table(it: dict[str, Any]) -> str:
    before, after = it["rows"]
    return f"  {ascii(it['table'])} has {counted(after, 'row')}, and had {grouped(before)}"
