"""What `cophy-pg advise` chooses, from what pg_stat_statements counted."""
from __future__ import annotations

import json
import subprocess
import time
from pathlib import Path
from typing import Any

from server import HERE, FieldServer
from sessions import Connection, Index, index_of

TOOL = HERE.parents[1] / "tools" / "pg" / "cophy-pg"
_CALLS = """
SELECT coalesce(sum(s.calls), 0)::int FROM pg_stat_statements s JOIN pg_database d ON d.oid = s.dbid
WHERE d.datname = current_database() AND s.query ~* '^\\s*(/\\*.*?\\*/)?\\s*EXPLAIN'"""
NOTHING_TO_MAKE = 3


def advised(server: FieldServer, connection: Connection, budget: int, folder: Path, words: list[str]) -> dict[str, Any]:
    """What the advice within so many pages says, with the planner's calls. A former call's that was broken off behind it is
    taken as it is."""
    known = folder.with_name(f"{folder.name}.document")
    if known.exists():
        found: dict[str, Any] = json.loads(known.read_text())
        return found
    calls, began = _explains(connection), time.monotonic()
    ran = subprocess.run(
        [str(TOOL), "advise", "--budget", str(budget), "--folder", str(folder), "--json", *words],
        env=server.environment(connection.info.dbname, PGUSER="cophy_advisor"),
        capture_output=True,
        text=True,
        check=False,
    )
    if ran.returncode not in (0, NOTHING_TO_MAKE):
        raise RuntimeError(f"cophy-pg advise: {ran.stderr.strip().splitlines()[-1:]}")
    document = json.loads(ran.stdout)
    document |= {"seconds_to_advise": time.monotonic() - began, "calls": _explains(connection) - calls}
    known.write_text(json.dumps(document))
    return dict(document)


def picks_of(document: dict[str, Any]) -> list[Index]:
    """The indexes of all picks."""
    return [index_of(it["statements"][0]) for it in document["picks"]]


def made_of(document: dict[str, Any]) -> list[Index]:
    """Those that the script makes unless it is told otherwise."""
    made = [it for it in document["hints"] if not it["why_not"]]
    return [index_of(it["statements"][0]) for it in [*document["picks"], *made] if not it.get("caveat")]


def _explains(connection: Connection) -> int:
    row = connection.execute(_CALLS.encode()).fetchone()
    return int(row[0]) if row else 0
