"""Why a superuser's psql could not connect, and which databases and servers there are instead."""
from __future__ import annotations

import re
import shlex
import shutil
import subprocess

from cophy_pg.server import UNKNOWN_DATABASE, reason

NAMES = "SELECT datname FROM pg_catalog.pg_database WHERE datallowconn AND NOT datistemplate ORDER BY 1"


def failed(superuser: list[str], environment: dict[str, str], port: str, said: str, is_here: bool) -> str:
    """Why psql could not connect, by what it said, with the databases and the clusters that there are."""
    why = reason(Exception(said))
    text = f"{shlex.join(superuser)}: {why}"
    if why == UNKNOWN_DATABASE:
        names = _output([*superuser, "-X", "-A", "-t", "-d", "postgres", "-c", NAMES], environment).splitlines()
        text += f"; it has {', '.join(map(ascii, names))}" * bool(names)
    listed = _output(["pg_lsclusters", "-h"], environment) if is_here and shutil.which("pg_lsclusters") else ""
    return "\n".join([text, *clusters(listed, port)])


def clusters(listed: str, port: str) -> list[str]:
    """A line for each running cluster of another port, with what takes it."""
    rows = (it.split() for it in listed.splitlines())
    found = [it for it in rows if len(it) > 3 and it[3].startswith("online") and it[2] != port]
    found = [it for it in found if re.fullmatch(r"\d+", it[2])]
    return [f"    the cluster {it[0]}/{it[1]} runs: export PGPORT={it[2]}" for it in found]


def _output(words: list[str], environment: dict[str, str]) -> str:
    """What a program prints; nothing where it fails."""
    try:
        how = {"stdin": subprocess.DEVNULL, "stderr": subprocess.DEVNULL, "env": environment, "check": True}
        return str(subprocess.run(words, stdout=subprocess.PIPE, errors="replace", **how).stdout)  # type: ignore[call-overload]
    except (OSError, subprocess.CalledProcessError):
        return ""
