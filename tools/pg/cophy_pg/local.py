"""The servers of this machine, by the sockets on which they listen, and how a call connects where nobody says so."""
from __future__ import annotations

import getpass
import os
import re
import socket
from collections.abc import Sequence

from cophy_pg.inputs import ADVISOR
from cophy_pg.progress import say

SOCKETS = ("/var/run/postgresql",)
"""Where psql looks for sockets, unless PGHOST names another folder."""
PORT = "5432"
LOCAL = ("localhost", "127.0.0.1", "::1")
_SOCKET = re.compile(r"\.s\.PGSQL\.([0-9]{1,5})")


def port_of(host: str) -> str:
    """The port of PGPORT, or else that of the only server that runs on this machine, which is told where it is an odd one."""
    if given := os.environ.get("PGPORT"):
        return given
    if host not in LOCAL and not host.startswith("/"):
        return PORT
    found = ports([host] if host.startswith("/") else SOCKETS)
    if len(found) != 1 or found == [PORT]:
        return PORT
    say(f"the one server that runs here has port {found[0]} (PGPORT takes another)")
    return found[0]


def ports(folders: Sequence[str]) -> list[str]:
    """The ports of the servers that listen on sockets in these folders."""
    found = set[str]()
    for folder in folders:
        try:
            names = os.listdir(folder)
        except OSError:
            continue
        found |= {it[1] for it in map(_SOCKET.fullmatch, names) if it and _listens(os.path.join(folder, it[0]))}
    return sorted(found, key=int)


def _listens(name: str) -> bool:
    """Whether somebody listens there: a server that was killed leaves its socket."""
    with socket.socket(socket.AF_UNIX) as ours:
        ours.settimeout(1)
        try:
            ours.connect(name)
        except PermissionError:
            return True
        except OSError:
            return False
    return True


def run_as(user: str) -> list[str]:
    """What stands before a command that a user of this machine is to run."""
    known: dict[str, list[str]] = {"root": ["runuser", "-u", user, "--"], user: []}
    return known.get(getpass.getuser(), ["sudo", "-u", user])


def connect_as_set_up(database: str, host: str = "", port: int = 0) -> None:
    """Lets this call connect as `setup` has it: to a database of this machine, or of a host and a port that are known,
    as `cophy_advisor`, where the environment says nothing else."""
    given = os.environ
    given["PGDATABASE"] = database
    given["PGUSER"] = given.get("PGUSER") or ADVISOR
    if not given.get("PGHOST"):
        given["PGHOST"] = host or LOCAL[0]
        if port and not given.get("PGPORT"):
            given["PGPORT"] = str(port)
    given["PGPORT"] = port_of(given["PGHOST"])


def is_told_where(dsn: str) -> bool:
    """Whether a connection string, a service or the environment names the database."""
    return bool(dsn or os.environ.get("PGSERVICE") or os.environ.get("PGDATABASE"))
