"""`make`: makes the indexes of a folder of `advise` as the owner of their tables, or takes them back."""
from __future__ import annotations

import argparse
import os
import re
import shlex
import signal
import subprocess
import sys
from collections.abc import Iterator
from contextlib import contextmanager, suppress
from typing import Any, BinaryIO

from cophy_text import files
from cophy_text.shown import in_row, printable, space
from cophy_pg import folder
from cophy_pg.changes import Found
from cophy_pg.closing import commands_of, is_here, is_user, made_by, rows_of, seen_by
from cophy_pg.folder import Folder
from cophy_pg.inputs import NoInput
from cophy_pg.joined import MAKER, joined
from cophy_pg.local import PORT, run_as
from cophy_pg.making import numbers
from cophy_pg.overview import told_as
from cophy_pg.progress import say
from cophy_pg.script import is_unchanged
from cophy_pg.server import database_word
from cophy_pg.speed import duration
from cophy_pg.superuser import Superuser

NOTHING = 3
"""The status where nothing is to be made."""
MOST_SHOWN = 20
"""So many indexes are shown before they are made."""
PATIENCE = 10
"""For so many seconds a psql that was broken off may cancel what it does."""
ELSEWHERE = {"PGHOST", "PGHOSTADDR", "PGPORT", "PGDATABASE", "PGUSER", "PGOPTIONS", "PGSERVICE", "PGSERVICEFILE"}
"""Variables that would lead psql to another server, or change its session."""
Row = tuple[int, dict[str, Any]]


def add_make(commands: argparse._SubParsersAction[argparse.ArgumentParser]) -> None:
    """The words of `make`."""
    parser = commands.add_parser(
        "make",
        help="make the indexes of a folder of advise, or take them back",
        description="Shows the statements, asks, and lets psql run the folder's indexes.sql with the rights of the owner of the "
        "tables: as that user of this machine, or as cophy_maker, a role that a superuser makes a member of the owner for that "
        "time and drops. On a server elsewhere it connects as the owner, whose password psql asks for.",
        epilog="The status is 0 where all that was asked for is there, 3 where nothing is recommended, and 1 else.",
    )
    parser.add_argument("folder", metavar="FOLDER", nargs="?", help="the folder of advise (the last one here)")
    parser.add_argument("--without", type=numbers, default=[], metavar="N,N,..", help="pass over these numbers")
    parser.add_argument("--only", type=numbers, default=[], metavar="N,N,..", help="take these numbers alone")
    parser.add_argument("--all", action="store_true", dest="is_all", help="make what isn't recommended too")
    parser.add_argument("--undo", action="store_true", help="drop what was made from this folder, and nothing else")
    parser.add_argument("--yes", action="store_true", dest="is_sure", help="ask nothing")
    parser.add_argument(
        "--psql",
        metavar="COMMAND",
        help="how psql is called as a superuser (sudo -u postgres psql), who makes the role cophy_maker",
    )
    parser.add_argument(
        "--as-owner",
        action="store_true",
        dest="is_owner",
        help="connect as the owner, whose password psql asks for, and let no superuser make a role",
    )
    parser.set_defaults(run=make)


def make(words: argparse.Namespace) -> int:
    """Makes the indexes, or drops what was made."""
    kept = Folder(words.folder) if words.folder else Folder.last()
    document = Found.of(kept.name).document
    rows = _chosen(document, words)
    if not rows:
        print("No index is recommended: --all makes the others." if rows_of(document) else "There is no index to make.")
        return NOTHING
    owners = _owners(document, rows)
    with kept.opened(folder.DDL) as script:
        _check(kept.path(folder.DDL), script.read().decode(errors="replace"), rows)
        print("\n".join([f"{files.shown(kept.name)}:", *_told(document, rows, owners, words)]), flush=True)
        if not words.is_sure and not _is_agreed():
            print("Nothing was changed.")
            return 1
        for owner in owners:
            own = [at for at, it in rows if _owner(document, it) == owner]
            script.seek(0)
            if not _is_done(document, script, owner, _variables(document, own, words), words):
                return 1
    print(_end(document, kept, rows, words.undo))
    return 0


def _check(name: str, text: str, rows: list[Row]) -> None:
    """Refuses a script that isn't as it was written, or in which a number is something else than in the advice."""
    if not is_unchanged(text):
        raise NoInput(f"{files.shown(name)} isn't as advise wrote it: let the owner of the tables run it by psql")
    for at, it in rows:
        if not re.search(rf"^-- {at}\. {re.escape(told_as(it))}(: |$)", text, re.MULTILINE):
            raise NoInput(
                f"{files.shown(name)} isn't of this advice, where {at} is {printable(told_as(it))}: call advise again"
            )


def _chosen(document: dict[str, Any], words: argparse.Namespace) -> list[Row]:
    """What is made, or dropped: what the numbers say, or else what is recommended, or all."""
    rows = rows_of(document)
    for at in {*words.only, *words.without} - {at for at, _ in rows}:
        raise NoInput(f"there is no index {at}: they are 1 to {len(rows)}")
    every = words.undo or words.is_all
    return [
        (at, it)
        for at, it in rows
        if at not in words.without and (at in words.only if words.only else every or not it.get("caveat"))
    ]


def _owner(document: dict[str, Any], row: dict[str, Any]) -> str:
    """The role that owns the table of an index."""
    owner = row.get("owner") or next(iter(document["owners"]), None)
    if not owner:
        raise NoInput("the folder doesn't say who owns the tables: let their owner run indexes.sql")
    return str(owner)


def _owners(document: dict[str, Any], rows: list[Row]) -> list[str]:
    """The owners of the tables, that of the first index first."""
    return [*dict.fromkeys(_owner(document, it) for _, it in rows)]


def _variables(document: dict[str, Any], places: list[int], words: argparse.Namespace) -> list[str]:
    """What tells the script which numbers it takes."""
    rows = rows_of(document)
    is_all = words.undo or any(it.get("caveat") for at, it in rows if at in places)
    without = [str(at) for at, it in rows if at not in places and (is_all or not it.get("caveat"))]
    given = ["undo=1"] * words.undo + ["all=1"] * (is_all and not words.undo)
    given += [f"without={','.join(without)}"] * bool(without)
    return [word for it in given for word in ("-v", it)]


def _told(document: dict[str, Any], rows: list[Row], owners: list[str], words: argparse.Namespace) -> list[str]:
    """What is made with which statements, or dropped; as whom, and how long that takes."""
    shown = rows[:MOST_SHOWN]
    lines = [f"and {len(rows) - MOST_SHOWN} more"] * (len(rows) > MOST_SHOWN)
    who = f"database {document['database']!a} {'; '.join(_who(document, it, words) for it in owners)}"
    if words.undo:
        return [*(f"{at:>3}. {printable(told_as(it))}" for at, it in shown), *lines, f"Of these what was made; {who}."]
    text = [f"{at:>3}. {printable(line)}" for at, it in shown for line in it["statements"]]
    size, known = sum(it["stored_pages"] for _, it in rows), [it["build_seconds"] for _, it in rows]
    locked = [it for _, it in rows if it.get("clustered")]
    goes_on = "CLUSTER locks its table, readers too" if locked else "reads and writes go on"
    time = f"about {duration(sum(known))}" if None not in known else "a time that isn't known"
    return [*text, *lines, f"{space(size)}, {time}, {goes_on}; {who}."]


def _who(document: dict[str, Any], owner: str, words: argparse.Namespace) -> str:
    """As whom psql connects for the tables of an owner."""
    name = printable(owner)
    if _is_joined(document, owner, words):
        superuser = words.psql or shlex.join([*run_as("postgres"), "psql"])
        return f"as {MAKER}, which '{superuser}' makes a member of their owner {name}, and then drops"
    return f"as their owner {name}"


def _is_joined(document: dict[str, Any], owner: str, words: argparse.Namespace) -> bool:
    """Whether a superuser makes a role that is a member of the owner."""
    return not words.is_owner and bool(words.psql or is_here(document) and not is_user(owner))


def _is_agreed() -> bool:
    """Whether a person says yes."""
    if not sys.stdin.isatty():
        raise NoInput("nobody is there to be asked: --yes asks nothing")
    with suppress(EOFError):
        return input("Go on? [y/N] ").strip().lower() in ("y", "yes")
    return False


def _is_done(
    document: dict[str, Any], script: BinaryIO, owner: str, variables: list[str], words: argparse.Namespace
) -> bool:
    """Whether psql has done all of the script. That it didn't connect is told with what a person can do."""
    with _connected(document, owner, words) as (psql, environment):
        status = _wait([*psql, *variables], environment, script.fileno())
    if status == 2:
        by_hand = [it for it in commands_of(document, files.shown(script.name)) if owner in it] or [""]
        say(f"psql could not connect, or lost the connection; with the password of {owner!a}: {by_hand[0]}")
    return status == 0


@contextmanager
def _connected(
    document: dict[str, Any], owner: str, words: argparse.Namespace
) -> Iterator[tuple[list[str], dict[str, str]]]:
    """psql with the rights of an owner of tables, and its environment, as long as this lasts."""
    environment = {it: value for it, value in os.environ.items() if it not in ELSEWHERE}
    host, port = str(document.get("host") or ""), str(document.get("port") or PORT)
    psql = ["psql", "-X", "-p", port, "-d", database_word(document["database"])]
    if _is_joined(document, owner, words):
        with joined(Superuser.of(words.psql, host, port), owner) as secret:
            at = ["-h", host or "localhost", "-U", MAKER, "-v", "joined=1"]
            yield [*psql, *at], environment | {"PGPASSWORD": secret}
    elif is_here(document) and is_user(owner) and not words.is_owner:
        before = run_as(owner)
        # Passwords of ours are nothing for another user, who could read them in the environment.
        kept = {it: value for it, value in environment.items() if not (before and it.startswith("PG"))}
        yield [*before, *psql, *(["-h", host] if host.startswith("/") else [])], kept
    else:
        yield [*psql, *(["-h", host] if host else []), "-U", owner], environment


def _wait(command: list[str], environment: dict[str, str], script: int) -> int:
    """The status of psql. What breaks this off lets psql cancel what the server does."""
    try:
        running = subprocess.Popen(command, stdin=script, env=environment, cwd="/")
    except OSError as fault:
        raise NoInput(f"{command[0]}: {fault.strerror}") from None
    try:
        return running.wait()
    except BaseException:
        # One that sudo began gets the signal of the terminal, and none of ours.
        with suppress(PermissionError):
            running.send_signal(signal.SIGINT)
        with suppress(subprocess.TimeoutExpired):
            running.wait(PATIENCE)
        raise


def _end(document: dict[str, Any], kept: Folder, rows: list[Row], is_undone: bool) -> str:
    """What comes next, with the tables without which some plans read their indexes once VACUUM has marked their pages."""
    if is_undone:
        return f"to make them again: {made_by(document, kept)}"
    alone = [(at, it) for at, it in rows if any("VACUUM" in note for note in it["notes"])]
    tables = printable(in_row(sorted({it.get("path") or it["table"] for _, it in alone}))) if alone else ""
    numbered = in_row([str(at) for at, _ in alone]) if alone else ""
    lines = [f"VACUUM of {tables} soon: plans read {numbered} without the table where it has marked pages"] * bool(
        alone
    )
    return "\n".join([*lines, seen_by(kept), f"to take them back: {made_by(document, kept)} --undo"])
