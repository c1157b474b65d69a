"""`effect`: whether the indexes of a folder of `advise` are there, and what came of them."""
from __future__ import annotations

import argparse
import json
from dataclasses import dataclass, replace
from typing import Any

from cophy_text.files import NoFile
from cophy_text.shown import short
from cophy_pg import folder, inputs
from cophy_pg.changes import Found
from cophy_pg.closing import doubts_of, made_by, made_hints, recommended_of, time_falls
from cophy_pg.effect_text import lines_of
from cophy_pg.folder import Folder
from cophy_pg.guesses import seconds_of
from cophy_pg.included import searched_columns
from cophy_pg.inputs import NoInput
from cophy_pg.local import connect_as_set_up, is_told_where
from cophy_pg.measured import (
    Load,
    Measured,
    a_call,
    called_since,
    given_of,
    load_of,
    mains_of,
    slower_of,
    told_of,
    writes_of,
)
from cophy_pg.outcomes import Verdict
from cophy_pg.overview import told_as
from cophy_pg.paths import Paths, read_paths
from cophy_pg.progress import Progress, say
from cophy_pg.server import Server, ServerFault, add_connection, connected, reading
from cophy_pg.snapshots import Snapshot, database_of, read_snapshot, taken_of
from cophy_pg.standing import Standing, standing
from cophy_pg.trust import refuse_powers
from cophy_pg.verify import add_trust, explain_as_it_is

MISSING = 3
"""The status where an index isn't there."""


@dataclass(frozen=True)
class Given:
    """A folder with its document, how what its script makes stands, and the paths of the roles of its statements."""

    kept: Folder
    document: dict[str, Any]
    stands: list[Standing]
    paths: Paths

    def asked(self) -> list[Standing]:
        """What the script makes without being asked, or all where nothing is recommended."""
        return [it for it in self.stands if it.is_asked] or self.stands

    def stood(self) -> list[int]:
        """The places of that which are there."""
        return [it.place for it in self.asked() if it.is_there]

    def is_all_there(self) -> bool:
        """Whether all of that is there."""
        return all(it.is_there for it in self.asked())


def add_effect(commands: argparse._SubParsersAction[argparse.ArgumentParser]) -> None:
    """The words of `effect`."""
    parser = commands.add_parser(
        "effect",
        help="say whether the indexes of a folder of advise are there, and what came of them",
        description="Says which indexes of a folder's script are there and how often the server has used each, what its "
        "planner thinks that the statements cost now, and how long a call of those that the indexes help takes since, beside "
        "before, as pg_stat_statements counts it, and beside others. No statement is executed and nothing is made. "
        "The folder keeps what was counted until these indexes were there in effect.json, so that later calls say what came after it. "
        "It connects as advise did where nothing says another database.",
        epilog="The status is 0 where all indexes that are recommended are there, 3 where one isn't.",
    )
    parser.add_argument("folder", metavar="FOLDER", nargs="?", help="the folder of advise (the last one here)")
    parser.add_argument("--json", action="store_true", help="print JSON instead")
    add_connection(parser)
    add_trust(parser)
    parser.set_defaults(run=effect)


def effect(words: argparse.Namespace) -> int:
    """Prints what came of the indexes."""
    kept = Folder(words.folder) if words.folder else Folder.last()
    advised = Found.of(kept.name)
    document, schema = advised.document, advised.schema
    if not is_told_where(words.dsn):
        connect_as_set_up(document["database"], document.get("host") or "", document.get("port") or 0)
    if document["options"]["include"]:
        schema.searched = searched_columns(kept.read(folder.WORKLOAD))
    with connected(words.dsn, words.timeout) as server:
        with reading(server):
            if not words.is_trusted:
                refuse_powers(server)
            _refuse_another(server, document)
            given = Given(kept, document, standing(server, schema, document), read_paths(server))
            counted = _counted(server, given, words.is_trusted)
        cost = _cost(server, given, words.is_trusted)
    found = described(given) | {"server_cost": cost, "counted": counted}
    print(json.dumps(found, indent=2) if words.json else "\n".join(lines_of(found)))
    return 0 if given.is_all_there() else MISSING


def _refuse_another(server: Server, document: dict[str, Any]) -> None:
    name = database_of(server)
    if name != document["database"]:
        raise NoInput(f"the folder is of the database {document['database']!a}, and this one is {name!a}")


def _cost(server: Server, given: Given, is_trusted: bool) -> dict[str, Any] | None:
    """What the statements that the server explained cost then and now, and in percent what was advised, of their time
    too; nothing where it explains none any more."""
    document = given.document
    then = [it for it in document["statements"] if it["server_cost"]]
    found = [Verdict(at, given_of(it, given.paths), dict.fromkeys(it["numbers"], 1.0)) for at, it in enumerate(then, 1)]
    try:
        explain_as_it_is(server, found, is_trusted, Progress())
    except ServerFault as fault:
        if server.is_lost():
            raise
        say(f"what the server's planner thinks is left out: {fault}")
        return None
    known = [(it, was["server_cost"]["before"]) for it, was in zip(found, then, strict=True) if it.before is not None]
    if not known:
        return None
    whole, after = document["server_cost"]["before"], recommended_of(document)["server_cost"]
    hints = sum(it["saves"]["server"] for it in made_hints(document))
    return {
        "statements": len(known),
        "of": len(then),
        "before": round(sum(it.calls * before for it, before in known), 4),
        "now": round(sum(it.calls * (it.before or 0.0) for it, _ in known), 4),
        "advised": round(max(0.0, 100 * after / whole - hints), 4) if whole else 100.0,
        "time": _time_saved(document, known),
    }


def _time_saved(document: dict[str, Any], known: list[tuple[Verdict, float]]) -> dict[str, float] | None:
    """How many percent of the measured time are saved now, and by the advice, if it falls like the costs of statements;
    nothing where some time isn't known."""
    if not (whole := seconds_of(document["statements"])):
        return None
    saved = sum((it.input.seconds or 0.0) * (1 - (it.before or 0.0) / before) for it, before in known if before)
    return {"saved": round(100 * saved / whole, 4), "advised": round(time_falls(document), 4)}


def _counted(server: Server, given: Given, is_trusted: bool) -> dict[str, Any] | None:
    """What was counted of the statements since these indexes stood, or else since the advice; nothing where that isn't
    known."""
    kept, doubts = given.kept, list[str]()
    if given.document["options"]["source"] != "pg_stat_statements" or not kept.has(folder.SNAPSHOT):
        return None
    there = {it.place for it in given.stands if it.is_there}
    try:
        listed = inputs.from_server(server, doubts.append, is_trusted)
        now, begin, found = taken_of(server, listed), "", list[Measured]()
        stood, advised = _stood(given), read_snapshot(kept.path(folder.SNAPSHOT))
        begins = {"indexes": stood, "advice": advised} if stood else {"advice": advised}
        for begin, then in begins.items():
            found = called_since(now, listed, then, given.document, given.paths, there)
            if told_of(found):
                break
    except NoInput as fault:
        say(f"what was counted is left out: {fault}")
        return None
    _keep(given, now, stood is not None)
    for it in doubts_of(given.document | {"doubts": doubts}):
        say(f"warning: {it}")
    seen = {at for it in found for at in it.main}
    return _times(begin, found) | {"not_called": sorted({*mains_of(given.document, there)} - seen)}


def _stood(given: Given) -> Snapshot | None:
    """What was counted until just those indexes stood that are there now, if the folder has it."""
    if not given.kept.has(folder.EFFECT):
        return None
    then = read_snapshot(given.kept.path(folder.EFFECT))
    # Earlier ones say nothing of it and are of all indexes.
    is_same = given.is_all_there() if then.stood is None else then.stood == given.stood()
    return then if is_same else None


def _keep(given: Given, now: Snapshot, is_kept: bool) -> None:
    """Keeps what was counted until those indexes stood that are there now; where none is, that is over."""
    try:
        if not given.stood():
            given.kept.clear(folder.EFFECT)
        elif not is_kept:
            given.kept.write({folder.EFFECT: replace(now, stood=given.stood()).text()})
    except NoFile as fault:
        say(f"warning: a later call can't count from now on: {fault}")


def _times(begin: str, found: list[Measured]) -> dict[str, Any]:
    """What was counted since a begin: of each statement that is told, of these, of writes, of all, and of others."""
    told, load, slower = told_of(found), load_of(found), slower_of(found)
    statements = [
        {
            "numbers": it.numbers,
            "sql": short(it.sql),
            "helped": it.is_helped,
            "indexes": [*it.indexes],
            "main": [*it.main],
            "slower": it in slower,
            "calls": it.calls,
            "before": round(it.before, 6),
            "since": round(it.since, 6),
        }
        for it in told
    ]
    parts = {"writes": writes_of(found), "all": found}
    more = {"others": _others(load, {"statements": told, **parts})} if load else {}
    return {
        "begin": begin,
        **_together(told),
        **{name: _together(it) for name, it in parts.items()},
        **more,
        "statements": statements,
    }


def _others(load: Load, parts: dict[str, list[Measured]]) -> dict[str, Any]:
    """What the statements took that no new index touches, and what others took against them."""
    against = dict[str, float | None]()
    for name, found in parts.items():
        before, since = a_call(found)
        against[name] = round(since / before / load.ratio, 4) if before and load.ratio else None
    times = {"statements": len(load.others), **_together(load.others), "ratio": round(load.ratio, 4)}
    return times | {"load": load.name, "against": against}


def _together(found: list[Measured]) -> dict[str, Any]:
    """How often some statements were called since, and what a call took before and since."""
    before, after = a_call(found)
    return {"calls": sum(it.calls for it in found), "before": round(before, 6), "since": round(after, 6)}


def described(given: Given) -> dict[str, Any]:
    """How the indexes stand, as the begin of a document of JSON whose form is `effect.schema.json`."""
    asked = given.asked()
    return {
        "version": 1,
        "database": given.document["database"],
        "made": given.document["made"],
        "source": given.document["options"]["source"],
        "indexes": [
            {
                "place": it.place,
                "index": told_as(it.row),
                "name": it.row["name"],
                "recommended": it.is_asked,
                "state": it.state,
                "scans": it.scans,
            }
            for it in given.stands
            if it in asked or it.is_there
        ],
        "make": [] if given.is_all_there() else [made_by(given.document, given.kept)],
    }
