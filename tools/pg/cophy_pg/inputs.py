"""Where statements come from: pg_stat_statements, a file of SQL, or a log of the server."""
from __future__ import annotations

import csv
import io
import json
import re
from collections.abc import Callable, Iterator
from contextlib import suppress
from dataclasses import dataclass

from pglast import ast
from pglast.parser import ParseError

from cophy_text.tokens import tokens
from cophy_pg.paths import path_set_by, read_paths
from cophy_pg.pieces import pieces
from cophy_pg.progress import say
from cophy_pg.rewrite.parse import fingerprint_of, parsed
from cophy_pg.server import OWN, Row, Server, ServerFault, quoted_name, version_of
from cophy_pg.speed import duration
from cophy_pg.trust import DISTRUST, WHO, has_power, view_of

EXTENSION, ADVISOR = "pg_stat_statements", "cophy_advisor"
SHORT = 3600
"""The seconds that counting should have taken at least."""

_LOGGED = re.compile(
    r"(?:LOG|DEBUG\d?):\s+(?:duration: (?P<ms>[0-9]{1,15}(?:\.[0-9]+)?) ms\s+)?"
    r"(?:statement|execute [^:]*|(?P<part>parse|bind) [^:]*): (?P<sql>.*)",
    re.DOTALL,
)
_BEGINS = re.compile(
    r"^.*?\b(?:LOG|ERROR|FATAL|PANIC|WARNING|NOTICE|INFO|DEBUG\d?|DETAIL|HINT|STATEMENT|CONTEXT|QUERY|LOCATION):\s"
)


@dataclass
class Input:
    """A statement as it came: its text, how often it was called, its time in all, the rows of one call, the line of its
    file, who called it, and the schemas in which its names are looked up."""

    text: str
    calls: int = 1
    seconds: float | None = None
    rows: float | None = None
    line: int = 0
    role: str = ""
    path: tuple[str, ...] | None = None


def from_server(server: Server, warn: Callable[[str], None] = say, is_trusted: bool = False) -> list[Input]:
    """The statements of pg_stat_statements in the connected database, the longest time first, but for those of our own
    role and for commands."""
    found = view_of(server, EXTENSION)
    if found is None:
        raise NoInput(
            f"the extension {EXTENSION} isn't there: let a superuser run in this database: CREATE SCHEMA counted; "
            f"GRANT USAGE ON SCHEMA counted TO PUBLIC; CREATE EXTENSION {EXTENSION} SCHEMA counted; (cophy-pg setup does it); "
            "or give the statements by --sql or --log"
        )
    where, number, others = found
    if others:
        _doubt(server, " and ".join(map(ascii, others)), where, warn, is_trusted)
    view = f"{quoted_name(where)}.{EXTENSION}"
    names = {
        str(it[0])
        for it in server.rows("SELECT attname::text FROM pg_catalog.pg_attribute WHERE attrelid = %s::oid", (number,))
    }
    time = "total_exec_time" if "total_exec_time" in names else "total_time"
    rows = _rows_of(
        server,
        f"SELECT query, r.rolname::text, sum(calls)::int8, sum({time})::float8 / 1000, sum(rows)::float8 FROM {view} s "
        "LEFT JOIN pg_catalog.pg_roles r ON r.oid = s.userid "
        "WHERE dbid = (SELECT oid FROM pg_catalog.pg_database WHERE datname = pg_catalog.current_database()) "
        "GROUP BY 1, 2 ORDER BY 4 DESC, 1, 2",
    )
    has_numbers = version_of(server) < 160000
    paths = read_paths(server)
    inputs: dict[tuple[str, tuple[str, ...]], Input] = {}
    for text, role, calls, seconds, count in rows:
        shown = within(str(text), float(count) > 0, has_numbers) if text is not None and role != ADVISOR else None
        if shown is not None and not is_command(shown):
            path = paths.of(str(role or ""))
            it = inputs.setdefault((shown, path), Input(shown, 0, 0.0, 0.0, role=str(role or ""), path=path))
            it.calls += max(1, int(calls))
            it.seconds = (it.seconds or 0.0) + float(seconds)
            it.rows = (it.rows or 0.0) + float(count)
    for it in inputs.values():
        it.rows = (it.rows or 0.0) / it.calls
    return [*inputs.values()]


def tell_short(server: Server, since: str | None = None) -> None:
    """Says so where statements have been counted for less than an hour; behind a snapshot nothing is said."""
    seconds = SHORT if since else _counted_for(server)
    if seconds < SHORT:
        better = "a working day, or one round of all that matters, is better"
        say(f"statements have been counted for {duration(seconds)} alone: {better}")


def _counted_for(server: Server) -> float:
    """For how many seconds statements have been counted, or else the server runs."""
    info = f"{EXTENSION}_info"
    with suppress(ServerFault), server.savepoint():
        if found := view_of(server, EXTENSION, info):
            view = f"{quoted_name(found[0])}.{info}"
            return float(server.value(f"SELECT extract(epoch FROM now() - stats_reset)::float8 FROM {view}"))
    return float(server.value("SELECT extract(epoch FROM now() - pg_postmaster_start_time())::float8"))


def _doubt(server: Server, who: str, where: str, warn: Callable[[str], None], is_trusted: bool) -> None:
    """Warns of who may put another view in the place of the extension's, and refuses a role that it would have power over."""
    if not is_trusted and has_power(server):
        raise NoInput(
            f"{who} may put another view in the place of {EXTENSION}, in schema {where!a}, and its code would have "
            "this role's rights: cophy-pg setup DATABASE makes a role with few; or give the statements by --sql or "
            "--log, or the schema to a superuser"
        )
    moved = f"CREATE SCHEMA counted; GRANT USAGE ON SCHEMA counted TO PUBLIC; ALTER EXTENSION {EXTENSION} SET SCHEMA counted;"
    warn(f"{DISTRUST}{who}{WHO}replace {EXTENSION} in schema {where!a}; a superuser ends that by: {moved}")


_EXPLAIN = re.compile(
    r"\s*EXPLAIN\s+(?:\((?P<options>[^()]*)\)\s*)?(?:ANALY[ZS]E\s+)?(?:VERBOSE\s+)?(?P<sql>.*)",
    re.IGNORECASE | re.DOTALL,
)
_PREPARE = re.compile(
    r"\s*PREPARE\s+(?:\w+|\"[^\"]*\")\s*(?:\([^()]*\)\s*)?AS\s+(?P<sql>.*)", re.IGNORECASE | re.DOTALL
)


def within(text: str, gave_rows: bool, has_numbers: bool) -> str | None:
    """The statement that a text of pg_stat_statements stands for; nothing where it is one of ours, be it of a script.

    The text is the one in which a statement was first seen, so it may be within EXPLAIN or PREPARE though all calls are of
    the statement itself. EXPLAIN's own entry gives no rows, and up to PostgreSQL 15 it has its literals, not numbers.
    """
    is_own = text.lstrip().startswith(OWN)
    text = text.lstrip().removeprefix(OWN).lstrip() if is_own else text
    found = _PREPARE.match(text) or _EXPLAIN.match(text)
    if found is None:
        return None if is_own else text
    if found.re is _EXPLAIN and not gave_rows and not (has_numbers and re.search(r"\$\d", text)):
        return None if is_own else text
    # What a script of ours prepares is its own.
    return None if found["sql"].startswith(OWN) else found["sql"]


_QUERY = re.compile(r"[\s(]*(?:SELECT|INSERT|UPDATE|DELETE|WITH|MERGE|VALUES|TABLE)\b", re.IGNORECASE)
_RUNNING = (
    *(ast.SelectStmt, ast.InsertStmt, ast.UpdateStmt, ast.DeleteStmt, ast.MergeStmt, ast.CopyStmt),
    *(ast.DeclareCursorStmt, ast.FetchStmt, ast.PrepareStmt, ast.ExecuteStmt, ast.CallStmt, ast.DoStmt),
    *(ast.CreateTableAsStmt, ast.RefreshMatViewStmt),
)
"""What runs queries, be it within."""


def is_command(text: str) -> bool:
    """Whether a text runs no query, such as VACUUM, COMMIT or CREATE INDEX, so that its time is none that indexes
    could save."""
    if _QUERY.match(text):
        return False
    try:
        trees = parsed(text)
    except (ParseError, RecursionError, ValueError):
        return False
    return bool(trees) and not any(isinstance(it.stmt, _RUNNING) for it in trees)


def look_up(server: Server, listed: list[Input]) -> None:
    """Gives inputs whose role is known that role's path."""
    roles = {it.role for it in listed if it.role}
    paths = read_paths(server) if roles else None
    for it in listed:
        if paths is not None and it.role:
            it.path = paths.of(it.role)


def _rows_of(server: Server, query: str) -> list[Row]:
    try:
        return server.rows(query)
    except ServerFault as fault:
        raise NoInput(f"pg_stat_statements can't be read ({fault}): cophy-pg setup says how it is loaded") from None


class NoInput(Exception):
    """No statement can be read, and why."""


def from_sql(content: bytes) -> list[Input]:
    """The statements of a text, each with the weight of the last comment `-- weight N` before it.

    Commands of psql are left out, and its variables are parameters. SET search_path holds for what comes after it.
    """
    text = content.decode(errors="replace").lstrip("\ufeff").replace("\0", " ")
    weight, path, listed = 1, None, list[Input]()
    for piece in pieces(text):
        weight = ([weight] + _weights(piece.before))[-1]
        rows = float(piece.rows) if piece.rows is not None else None
        listed.append(Input(piece.text, weight, rows=rows, line=piece.line, path=path))
        weight = ([1] + _weights(piece.text))[-1]
        if (given := path_set_by(piece.text)) is not None:
            path = given or None
    return listed


def _weights(text: str) -> list[int]:
    return [min(int(it.text[:18]), 10**9) for it in tokens(text.encode()) if it.kind == "weight"]


def from_log(content: bytes) -> list[Input]:
    """The statements of a server's log (stderr, csvlog or jsonlog), those of one form taken together."""
    text = content.decode(errors="replace").replace("\0", " ")
    first = text.lstrip()[:1]
    messages = _json_messages(text) if first == "{" else _csv_messages(text) if _is_csv(text) else _plain_messages(text)
    forms: dict[tuple[str, str], Input] = {}
    for role, message in messages:
        found = _LOGGED.search(message)
        if found is None or found["part"]:
            continue
        sql, seconds = found["sql"].strip(), float(found["ms"]) / 1000 if found["ms"] else None
        if sql.startswith(OWN) or role == ADVISOR or is_command(sql):
            continue
        try:
            form = fingerprint_of(sql)
        except (ParseError, RecursionError, ValueError):
            form = sql
        known = forms.setdefault((form, role), Input(sql, 0, None, role=role))
        known.calls += 1
        if seconds is not None:
            known.seconds = (known.seconds or 0.0) + seconds
    return list(forms.values())


def _plain_messages(text: str) -> Iterator[tuple[str, str]]:
    """Messages of the format stderr, whose role isn't known: a line with its severity, and lines that begin with a tab."""
    held: list[str] = []
    for line in text.split("\n"):
        if _BEGINS.match(line) and not line.startswith("\t"):
            if held:
                yield "", "\n".join(held)
            held = [line]
        elif held:
            held.append(line.removeprefix("\t"))
    if held:
        yield "", "\n".join(held)


def _is_csv(text: str) -> bool:
    try:
        row: list[str] = next(csv.reader(io.StringIO(text[:100000])), [])
    except csv.Error:
        return False
    return len(row) >= 14 and row[11] in ("LOG", "ERROR", "FATAL", "PANIC", "WARNING", "NOTICE", "INFO", "DEBUG")


def _csv_messages(text: str) -> Iterator[tuple[str, str]]:
    csv.field_size_limit(2**30)
    rows = csv.reader(io.StringIO(text))
    while True:
        try:
            row = next(rows, None)
        except csv.Error:
            continue
        if row is None:
            return
        if len(row) >= 14:
            yield row[1], f"{row[11]}:  {row[13]}"


def _json_messages(text: str) -> Iterator[tuple[str, str]]:
    for line in text.splitlines():
        try:
            entry = json.loads(line)
        except (ValueError, RecursionError):
            continue
        if isinstance(entry, dict):
            yield str(entry.get("user", "")), f"{entry.get('error_severity', '')}:  {entry.get('message', '')}"
