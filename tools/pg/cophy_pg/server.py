"""A connection to a server, in a session that runs no code of other users, and what is read there.

The session's path holds PostgreSQL's own schema before all others, so that no name and no operator of a query is looked up
among what other users made. Each call is one statement by the extended protocol, whatever its text holds.
"""
from __future__ import annotations

import argparse
import os
import re
import socket
import threading
from collections.abc import Iterator, Mapping, Sequence
from contextlib import contextmanager, suppress
from typing import Any

try:
    import psycopg
except ImportError:
    psycopg = None  # type: ignore[assignment]

Row = Sequence[Any]
Values = Sequence[Any] | Mapping[str, Any]

OWN = "/* cophy-pg */"
"""What each statement of ours begins with, so that nobody takes it for one of the workload."""
TIMEOUT = 60
"""The seconds that a statement of ours may take."""
MOST_FAULTS = 20
_SETTINGS = {
    "search_path": "pg_catalog, pg_temp",
    "lock_timeout": "2s",
    "idle_in_transaction_session_timeout": "60s",
    "default_transaction_read_only": "on",
    "standard_conforming_strings": "on",
    "client_min_messages": "error",
    # A table whose rows a policy hides gives an error, not the plan of an empty table.
    "row_security": "off",
    "datestyle": "ISO, YMD",
    "timezone": "UTC",
    "extra_float_digits": "3",
}
_WHERE_THERE = {
    # What is asked here is no part of the workload. Not every role may say so.
    "pg_stat_statements.track": "none",
    # Nor are the planner's looks at the ends of indexes scans of them.
    "track_counts": "off",
    # A server that goes on when nobody reads its answer ends.
    "client_connection_check_interval": "10s",
    # A plan for statements with parameters doesn't hang on their values.
    "plan_cache_mode": "force_generic_plan",
    # It takes longer than the queries of the catalogs do.
    "jit": "off",
}
UNKNOWN_DATABASE = "the server knows no such database: look at PGDATABASE"
UNKNOWN = "the connection failed"
_CONNECTION_FAULTS = (
    (
        "password authentication failed",
        "the server refuses the user or the password: look at PGUSER and at its line in ~/.pgpass",
    ),
    ("no password supplied", "the server asks for a password: give it in ~/.pgpass, or another file by PGPASSFILE"),
    ("authentication failed", "the server refuses the user"),
    ("FATAL:  role", "the server knows no such user, or it may not log in"),
    ("FATAL:  database", UNKNOWN_DATABASE),
    ("permission denied for database", "the user may not connect to the database"),
    ("too many ", "the server has no connection left"),
    ("no pg_hba.conf entry", "the server's pg_hba.conf lets no such connection in"),
    ("definition of service", "there is no such service"),
    ("Name or service not known", "the host's name isn't known"),
    ("No address associated", "the host's name isn't known"),
    ("name resolution", "the host's name can't be looked up"),
    ("could not translate host name", "the host's name isn't known"),
    ("Connection refused", "nothing listens there: look at PGHOST and PGPORT"),
    ("is unreachable", "there is no way to the host"),
    ("No route to host", "there is no way to the host"),
    ("No such file or directory", "no server listens on that socket"),
    ("Permission denied", "the server's socket may not be opened"),
    ("timeout", "the server doesn't answer in time"),
    ("closed the connection", "what listens there closes the connection: is it PostgreSQL?"),
    ("SSL", "the server and this client don't agree on encryption"),
    ("starting up", "the server is only starting up"),
    ("shutting down", "the server is shutting down"),
)
_FAULTS = {
    "08006": "the connection is lost",
    "0A000": "the server doesn't have that",
    "22021": "the text can't be written in the database's encoding",
    "25006": "it would write",
    "42501": "the role has no right to it",
    "42601": "a fault of syntax",
    "42703": "a column isn't there",
    "42704": "a type or an operator class isn't there",
    "42725": "an operator or a function isn't unique",
    "42804": "types don't go together",
    "42846": "there is no such cast",
    "42883": "a function or an operator isn't there",
    "42P01": "a table isn't there",
    "42P02": "a parameter isn't there",
    "42P18": "the type of a parameter can't be told",
    "53200": "the server has no memory left",
    "54001": "it is too deep for the server",
    "55P03": "a lock wasn't given in time",
    "57014": "it took too long",
    "57P01": "the server ended the session",
}


class ServerFault(Exception):
    """What went wrong on the server, in words that hold nothing of the connection or of the database, with the SQLSTATE
    where there is one. `place` counts the characters of a query before what is wrong in it, and `parameter` is the number
    of one that is."""

    def __init__(self, text: str, code: str = "", place: int | None = None, parameter: int = 0) -> None:
        super().__init__(text)
        self.code, self.place, self.parameter = code, place, parameter

    def shown(self) -> str:
        """The SQLSTATE and what it says."""
        return f"{self.code} {_FAULTS.get(self.code, 'an error of the server')}" if self.code else str(self)


def reason(fault: BaseException) -> str:
    """Why a connection failed, without a word of the connection string."""
    text = str(fault)
    if (
        "connection info string" in text
        or "invalid dsn" in text
        or "invalid connection option" in text
        or "invalid integer" in text
    ):
        return "the connection string can't be read"
    return next((why for word, why in _CONNECTION_FAULTS if word in text), UNKNOWN)


class Server:
    """An open connection. `search_path` is the one that the role has for its own statements."""

    def __init__(self, connection: Any, timeout: int = TIMEOUT) -> None:
        self.connection, self.timeout, self.search_path = connection, timeout, ""

    def rows(self, query: str, values: Values = ()) -> list[Row]:
        """The rows of a query. A fault tells its code alone, since messages may hold literals."""
        if "\0" in query:
            raise ServerFault("a text with a byte 0 can't be sent", "22021")
        # The server's own limit ends a statement once; code that catches that end goes on.
        limit = threading.Timer(2 * self.timeout + 3, self._cut)
        limit.daemon = True
        limit.start()
        try:
            with self.connection.cursor() as cursor:
                # Answers in binary form come by the extended protocol, which takes one statement a call.
                cursor.execute(f"{OWN} {query}", values or None, binary=True)
                return list(cursor.fetchall()) if cursor.description else []
        except psycopg.Error as fault:
            raise self._told(fault) from None
        except UnicodeError:
            raise ServerFault("a text can't be written in the database's encoding", "22021") from None
        except BaseException:
            # Whatever ends the program here ends the query, too.
            with suppress(psycopg.Error):
                self.connection.cancel()
            self.connection.close()
            raise
        finally:
            limit.cancel()

    def _told(self, fault: Any) -> ServerFault:
        """A fault by its code, its place and the number of a parameter alone."""
        if self.is_lost():
            return ServerFault("the connection to the server was lost", fault.sqlstate or "08006")
        code, place = fault.sqlstate or "none", str(fault.diag.statement_position or "")
        before = len(OWN) + 2
        number = re.search(r"\$(\d{1,5})\b", str(fault.diag.message_primary or "")) if code == "42P18" else None
        said = f", {_FAULTS[code]}" if code in _FAULTS else ""
        return ServerFault(
            f"the server answers a query with the error {code}{said}"
            + "; --timeout gives it more seconds" * (code == "57014"),
            code,
            max(0, int(place) - before) if place.isdecimal() else None,
            int(number[1]) if number else 0,
        )

    def value(self, query: str, values: Values = ()) -> Any:
        """The first value of the first row, if there is one."""
        rows = self.rows(query, values)
        return rows[0][0] if rows else None

    def place(self) -> tuple[str, int]:
        """The host, or the folder of the socket, and the port."""
        info = self.connection.info
        return str(info.host or info.hostaddr or ""), int(info.port)

    def is_lost(self) -> bool:
        """Whether the connection has ended."""
        return bool(self.connection.closed)

    def _cut(self) -> None:
        with suppress(OSError), socket.socket(fileno=os.dup(self.connection.fileno())) as ours:
            ours.shutdown(socket.SHUT_RDWR)

    @contextmanager
    def savepoint(self) -> Iterator[None]:
        """What is done inside is undone at the end, settings too, and a fault inside costs the transaction nothing."""
        self.rows("SAVEPOINT cophy_pg")
        try:
            yield
        finally:
            if not self.is_lost():
                self.rows("ROLLBACK TO SAVEPOINT cophy_pg")
                self.rows("RELEASE SAVEPOINT cophy_pg")

    def each(self, query: str, keys: Sequence[int]) -> tuple[list[Row], dict[int, ServerFault]]:
        """The rows of a query over an array of keys, for those keys that the server answers for, and the fault of each
        other: what one key costs is that key."""
        found: list[Row] = []
        faults: dict[int, ServerFault] = {}
        waiting = [[*keys]] if keys else []
        while waiting:
            some = waiting.pop()
            try:
                with self.savepoint():
                    found += self.rows(query, (some,))
            except ServerFault as fault:
                if self.is_lost():
                    raise
                if len(some) == 1 or len(faults) >= MOST_FAULTS:
                    faults |= {it: fault for it in some}
                else:
                    waiting += [some[len(some) // 2 :], some[: len(some) // 2]]
        return found, faults

    def use_path(self, schemas: Sequence[str] | None = None) -> None:
        """Sets the path of statements, or else the role's own, until the savepoint ends. What is asked then has to name all
        schemas itself."""
        path = self.search_path if schemas is None else ", ".join(map(quoted_name, schemas))
        self.rows("SELECT pg_catalog.set_config('search_path', %s, true)", (path,))

    def own_path(self) -> list[str]:
        """The schemas of the role's own path."""
        with self.savepoint():
            self.use_path()
            return [str(it) for it in self.value("SELECT pg_catalog.current_schemas(false)") or ()]


def seconds(text: str) -> int:
    """A number of seconds up to a day."""
    if not 1 <= int(text) <= 86400:
        raise ValueError
    return int(text)


def add_connection(parser: argparse.ArgumentParser) -> None:
    """The words of a connection."""
    parser.add_argument(
        "--dsn", default="", help="a connection string; better in PGSERVICE, since others may see words"
    )
    parser.add_argument(
        "--timeout",
        type=seconds,
        default=TIMEOUT,
        metavar="N",
        help=f"the seconds that a statement may take ({TIMEOUT})",
    )


@contextmanager
def connected(dsn: str = "", timeout: int = TIMEOUT) -> Iterator[Server]:
    """Connects as psql does: what the string leaves out comes from PGHOST and its like."""
    if psycopg is None:
        raise ServerFault("python3-psycopg isn't installed")
    try:
        connection = psycopg.connect(
            dsn, autocommit=True, prepare_threshold=None, application_name="cophy-pg", connect_timeout=15
        )
    except psycopg.Error as fault:
        raise ServerFault(reason(fault)) from None
    try:
        server = Server(connection, timeout)
        _begin(server)
        yield server
    finally:
        connection.close()


def _begin(server: Server) -> None:
    """Makes the session safe. Until the path is set, only names with their schema are looked up."""
    # A database without an encoding hands its bytes as they are; this one maps each byte to a character.
    odd = server.connection.info.parameter_status("server_encoding") == "SQL_ASCII"
    server.rows(f"SET client_encoding TO '{'LATIN1' if odd else 'UTF8'}'")
    server.search_path = str(server.value("SELECT pg_catalog.current_setting('search_path')"))
    _set(server, "false")
    for name, value in _WHERE_THERE.items():
        with suppress(ServerFault):
            server.rows(f"SET {name} TO '{value}'")


def _set(server: Server, is_local: str) -> None:
    """Sets all settings by one query, in which no name is looked up and no operator stands."""
    settings = _SETTINGS | {"statement_timeout": f"{server.timeout}s"}
    calls = (f"pg_catalog.set_config('{name}', '{value}', {is_local})" for name, value in settings.items())
    server.rows(f"SELECT {', '.join(calls)}")


@contextmanager
def reading(server: Server, level: str = "REPEATABLE READ") -> Iterator[Server]:
    """One read-only transaction; as it is by default it sees one state of the database."""
    server.rows(f"BEGIN ISOLATION LEVEL {level} READ ONLY")
    try:
        # Once more, since behind a pooler each transaction may have another session. After its first query, nobody can make
        # a transaction one that writes.
        _set(server, "true")
        yield server
    finally:
        if not server.is_lost():
            server.rows("ROLLBACK")


def quoted_name(name: str) -> str:
    """A name in PostgreSQL's quotes."""
    return '"' + name.replace('"', '""') + '"'


def database_word(name: str) -> str:
    """The name of a database as psql's -d takes it, which would take some names for a connection, as to another host."""
    if "=" not in name and not name.startswith(("postgres://", "postgresql://")):
        return name
    return "dbname='" + name.replace("\\", "\\\\").replace("'", "\\'") + "'"


def version_of(server: Server) -> int:
    """The server's version, as 150018."""
    return int(server.value("SELECT pg_catalog.current_setting('server_version_num')"))
