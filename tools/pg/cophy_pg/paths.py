"""The schemas in which the names of a statement are looked up, as the settings of roles and databases say."""
from __future__ import annotations

import re

from cophy_pg.server import Server

USUAL = '"$user", public'
_NAME = re.compile(r'"((?:[^"]|"")*)"|\'((?:[^\']|\'\')*)\'|([^,\s"\']+)')
_SET = re.compile(r"\s*SET\s+(?:SESSION\s+|LOCAL\s+)?search_path\s*(?:=|\bTO\b)(?P<path>.*)", re.IGNORECASE | re.DOTALL)
_RESET = re.compile(r"\s*RESET\s+(?:search_path|ALL)\s*(?:;\s*)?\Z", re.IGNORECASE)
_SETTINGS = """
SELECT s.setrole::int8, s.setdatabase <> 0, c.text
FROM pg_catalog.pg_db_role_setting s, unnest(s.setconfig) c(text)
WHERE c.text ~ '^search_path=' AND s.setdatabase IN (
    0, (SELECT d.oid FROM pg_catalog.pg_database d WHERE d.datname = pg_catalog.current_database()))
ORDER BY 2"""


def schemas_of(text: str, role: str) -> tuple[str, ...]:
    """The schemas of a setting search_path, where `$user` is the role's own."""
    names = []
    for quoted, apart, plain in _NAME.findall(text):
        name = quoted.replace('""', '"') if quoted else apart.replace("''", "'") if apart else plain.lower()
        names.append(role if name == "$user" else name)
    return tuple(names)


def path_set_by(text: str) -> tuple[str, ...] | None:
    """The path that a statement sets; an empty one where it sets the path back, nothing where it leaves it."""
    found = _SET.match(text)
    if found is None:
        return () if _RESET.match(text) else None
    path = found["path"].strip().rstrip(";").strip()
    return () if path.upper() == "DEFAULT" else schemas_of(path, "")


class Paths:
    """The paths of roles. A role's setting in the database comes before its setting everywhere, and that before the
    database's; `own` is the path of the role that is connected."""

    def __init__(self, by_role: dict[str, str], of_all: str, me: str, own: str) -> None:
        self.by_role, self.of_all, self.me, self.own = by_role, of_all, me, own

    def of(self, role: str) -> tuple[str, ...]:
        """The schemas of a role; of one that isn't known those of the role that is connected."""
        if role in ("", self.me):
            return schemas_of(self.own, self.me)
        return schemas_of(self.by_role.get(role, self.of_all), role)


def read_paths(server: Server) -> Paths:
    """Reads the settings of the connected database."""
    names = {
        int(oid): str(name) for oid, name in server.rows("SELECT oid::int8, rolname::text FROM pg_catalog.pg_roles")
    }
    me = str(server.value("SELECT session_user::text"))
    by_role: dict[str, str] = {}
    of_all = ""
    # Those of the database come last, and so count.
    for role, _, text in server.rows(_SETTINGS):
        setting = str(text).removeprefix("search_path=")
        if int(role) == 0:
            of_all = setting
        elif int(role) in names:
            by_role[names[int(role)]] = setting
    usual = USUAL if me in by_role else server.search_path
    return Paths(by_role, of_all or usual or USUAL, me, server.search_path)
