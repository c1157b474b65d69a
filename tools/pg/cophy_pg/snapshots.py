"""`snapshot`: what pg_stat_statements has counted up to now, so that later only what came after it counts."""
from __future__ import annotations

import argparse
import hashlib
import json
from dataclasses import dataclass, field, replace
from typing import Any

from cophy_text import files
from cophy_text.answers import counted
from cophy_pg import inputs
from cophy_pg.inputs import EXTENSION, Input, NoInput
from cophy_pg.progress import say
from cophy_pg.server import Server, add_connection, connected, quoted_name, reading
from cophy_pg.trust import view_of

INFO = "pg_stat_statements_info"
_MOST = 10**18


@dataclass(frozen=True)
class Count:
    """How often a statement was called, its time in seconds, and its rows."""

    calls: int
    seconds: float
    rows: float


@dataclass
class Snapshot:
    """What was counted of each statement, by a digest of its text and path, when the counts began, and in which database, if
    that is known; in a folder of `advise` the places of the recommended indexes that stood."""

    begun: str = ""
    counts: dict[str, Count] = field(default_factory=dict)
    database: str = ""
    stood: list[int] | None = None

    def text(self) -> bytes:
        """The snapshot as a file, in which no statement can be read."""
        counts = {key: [it.calls, it.seconds, it.rows] for key, it in sorted(self.counts.items())}
        document = {"version": 1, "database": self.database, "begun": self.begun, "counts": counts}
        document |= {"stood": self.stood} if self.stood is not None else {}
        return (json.dumps(document, indent=0) + "\n").encode("ascii")


def add_snapshot(commands: argparse._SubParsersAction[argparse.ArgumentParser]) -> None:
    """The words of `snapshot`."""
    parser = commands.add_parser(
        "snapshot",
        help="keep what pg_stat_statements has counted, for --since",
        description="Writes how often each statement ran so far, and for how long. With --since, export, advise and verify "
        "take the calls after it alone. The file holds no text of a statement.",
    )
    parser.add_argument("file", metavar="FILE", help="the file of the snapshot")
    add_connection(parser)
    parser.set_defaults(run=snapshot)


def snapshot(words: argparse.Namespace) -> int:
    """Writes the file."""
    files.check([words.file])
    with connected(words.dsn, words.timeout) as server, reading(server):
        taken = taken_of(server, inputs.from_server(server))
    files.write([files.File(words.file, taken.text())])
    say(counted(len(taken.counts), "statement"))
    return 0


def taken_of(server: Server, listed: list[Input]) -> Snapshot:
    """The snapshot of the statements of pg_stat_statements."""
    counts = {digest(it): Count(it.calls, it.seconds or 0.0, (it.rows or 0.0) * it.calls) for it in listed}
    return Snapshot(begun_of(server), counts, database_of(server))


def database_of(server: Server) -> str:
    """The name of the database."""
    return str(server.value("SELECT pg_catalog.current_database()::text"))


def begun_of(server: Server) -> str:
    """When pg_stat_statements began to count; nothing where the server doesn't say so (before PostgreSQL 14)."""
    found = view_of(server, EXTENSION, INFO)
    if found is None or found[2]:
        # Where others may put another view in its place, it isn't asked.
        return ""
    query = "SELECT (pg_catalog.date_part('epoch', stats_reset))::text FROM "
    return str(server.value(f"{query}{quoted_name(found[0])}.{INFO}"))


def digest(it: Input) -> str:
    """What a statement goes by in a snapshot."""
    return hashlib.sha256("\0".join([it.text, *(it.path or ())]).encode(errors="replace")).hexdigest()[:32]


def read_snapshot(file: str) -> Snapshot:
    """The snapshot of a file."""
    try:
        document = json.loads(files.read(file))
        if document["version"] != 1:
            raise ValueError
        counts = {str(key): _count(it) for key, it in document["counts"].items()}
        stood = [int(it) for it in document["stood"]] if "stood" in document else None
        return Snapshot(str(document["begun"]), counts, str(document.get("database", "")), stood)
    except (ValueError, TypeError, KeyError, AttributeError, RecursionError, OverflowError):
        raise NoInput(f"{files.shown(file)} is no snapshot of cophy-pg") from None


def _count(values: Any) -> Count:
    calls, seconds, rows = int(values[0]), float(values[1]), float(values[2])
    if not (0 <= calls <= _MOST and 0 <= seconds <= _MOST and 0 <= rows <= _MOST):
        raise ValueError
    return Count(calls, seconds, rows)


def since(listed: list[Input], then: Snapshot, begun: str, database: str) -> list[Input]:
    """The statements with what was counted after a snapshot, without those that weren't called. Where the counts began
    anew in between, all of them came after it. The same statements of another database were counted apart."""
    if then.database and then.database != database:
        raise NoInput(f"--since: the snapshot is of the database {then.database[:63]!a}, and this one is {database!a}")
    if then.begun and begun and then.begun != begun:
        say("pg_stat_statements began to count anew after the snapshot, so all that it has counts")
        return listed
    found = []
    for it in listed:
        old = then.counts.get(digest(it), Count(0, 0.0, 0.0))
        # A statement that was pushed out and came back counts from there.
        if old.calls > it.calls:
            old = Count(0, 0.0, 0.0)
        calls = it.calls - old.calls
        if calls > 0:
            rows = max(0.0, (it.rows or 0.0) * it.calls - old.rows) / calls
            found.append(replace(it, calls=calls, seconds=max(0.0, (it.seconds or 0.0) - old.seconds), rows=rows))
    return sorted(found, key=lambda it: -(it.seconds or 0.0))
