"""Makes the databases of the field, and has pg_stat_statements count their statements."""
from __future__ import annotations

from server import ADVISOR_ROLE, HERE, FieldServer
from sessions import session
from statements import Statement

SCALES = {"tpch": 0.05, "bank": 0.05, "orders": 0.2, "forum": 0.15}
"""Each database with the scale by which all its numbers of rows are multiplied."""
BRANCHES = 100
"""pgbench's scale at a scale of 1."""


def make(server: FieldServer, database: str, scale: float) -> None:
    """Fills a database from its seeds. One that couldn't be filled isn't there."""
    making = f"{database}_making"
    server.psql(f"DROP DATABASE IF EXISTS {making}")
    server.psql(f"CREATE DATABASE {making}")
    server.psql("CREATE EXTENSION pg_stat_statements", making)
    if database == "bank":
        server.run("pgbench", making, "-i", "-q", "--foreign-keys", "-s", str(max(1, round(BRANCHES * scale))))
    files = [word for it in ("draws", database) for word in ("-f", str(HERE / "databases" / f"{it}.sql"))]
    server.run("psql", making, "-X", "-q", "-v", "ON_ERROR_STOP=1", "-v", f"scale={scale}", *files)
    server.run("psql", making, "-X", "-q", "-f", str(ADVISOR_ROLE))
    server.run("psql", making, "-X", "-q", "-c", "VACUUM FREEZE", "-c", "ANALYZE", "-c", "CHECKPOINT")
    server.psql(f"ALTER DATABASE {making} RENAME TO {database}")


def collect(server: FieldServer, database: str, statements: list[Statement], scale: float) -> None:
    """Runs each statement as often as it is called, and takes back what it wrote. pg_stat_statements counts anew, and so does
    ANALYZE, since VACUUM alone takes the rows that were written for others of the table."""
    with session(server, database) as connection:
        connection.execute("SELECT pg_stat_statements_reset()")
        for it in statements:
            for number in range(it.calls):
                with connection.transaction(force_rollback=True):
                    connection.execute(it.drawn(number, scale).encode())
    server.run("psql", database, "-X", "-q", "-c", "VACUUM (ANALYZE)")
