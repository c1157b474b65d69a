"""`setup --undo`: takes back what `setup` made, and says what is gone, what stays, and why."""
from __future__ import annotations

import json
import shlex
from pathlib import Path

from cophy_text import files
from cophy_text.shown import in_row, printable
from cophy_pg.inputs import ADVISOR
from cophy_pg.passwords import forget
from cophy_pg.superuser import Superuser

SCRIPT = Path(__file__).resolve().parent / "undo_role.sql"
INDEXES = "Indexes that were made stay; cophy-pg make FOLDER --undo takes them back."
Told = list[str]


def undo(superuser: Superuser, database: str, host: str, port: str) -> int:
    """Lets a superuser take back what `setup` made in a database. The status is 1 where something of it is left."""
    printed = superuser.run(database, files.read(str(SCRIPT)).decode())
    told: list[Told] = [json.loads(it) for it in printed.splitlines() if it.startswith("[")]
    stays = _stays(told)
    left = any(it[0] in ("left", "known") for it in told)
    gone = _gone(told)
    try:
        if ["no role"] in told and (name := forget(host, port)):
            gone.append(f"its line in {files.shown(name)}")
    finally:
        # What the server has dropped is told, even where the file can't be written.
        for text in [f"gone: {', '.join(gone)}"] * bool(gone) + stays:
            print(printable(text))
    if not gone and not left:
        print(f"Nothing that setup made is in {database!a}.")
    else:
        print(INDEXES)
    return 1 if left else 0


def _gone(told: list[Told]) -> list[str]:
    """What is gone, an extension with its schema; the role's rights where it stays itself."""
    gone = [it[1] for it in told if it[0] == "gone"]
    if ["gone", f"the role {ADVISOR}"] not in told and ["rights", ADVISOR] in told:
        gone.append(f"the rights of {ADVISOR} in this database")
    text = ", ".join(gone)
    for extension, schema in (("hypopg", "hypopg"), ("pg_stat_statements", "counted")):
        pair = f"the extension {extension}, the schema {schema}"
        text = text.replace(pair, f"the extension {extension} and its schema {schema}")
    return [text] if text else []


def _stays(told: list[Told]) -> list[str]:
    """A line for each thing that stays, with what drops it, or with the reason."""
    lines = [f"stays: {it[1]}, which setup did not make, or not mark: {it[2]}" for it in told if it[0] == "kept"]
    lines += [f"stays: {it[1]}: {'; '.join(filter(None, it[2:]))}" for it in told if it[0] == "left"]
    for thing in dict.fromkeys(it[1] for it in told if it[0] == "known"):
        names = [it[2] for it in told if it[:2] == ["known", thing]]
        calls = "; ".join(f"cophy-pg setup --undo {shlex.quote(it)}" for it in names)
        lines.append(f"stays: {thing}, which other databases know, {in_row([ascii(it) for it in names])}: {calls}")
    return lines
