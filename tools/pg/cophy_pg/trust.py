"""Whose code may run while statements are explained: the powers of the role, what it owns, and functions of users.

PostgreSQL's planner runs functions: it folds those that are immutable, and asks for the values of stable ones, of
operators, and of functions below types, in a statement as well as in views, indexes, constraints and policies of its tables.
"""
from __future__ import annotations

from collections.abc import Iterable, Mapping, Sequence
from dataclasses import dataclass, field, fields

from cophy_pg.server import Server, ServerFault, quoted_name, version_of

POWERS = (
    "pg_execute_server_program",
    "pg_write_server_files",
    "pg_read_server_files",
    "pg_write_all_data",
    "pg_signal_backend",
)
"""Roles whose rights reach beyond a read-only transaction, or beyond the database."""
BETTER = "cophy-pg setup DATABASE makes one whose rights suffice"
COMPARISONS = frozenset(("=", "<>", "<", "<=", ">", ">="))

MOST_NAMES = 20
_HIDDEN = """
SELECT n.nspname::text, c.relname::text FROM pg_catalog.pg_class c JOIN pg_catalog.pg_namespace n ON n.oid = c.relnamespace
WHERE c.oid = ANY(%s::oid[])
    AND (NOT pg_catalog.has_any_column_privilege(c.oid, 'SELECT') OR pg_catalog.row_security_active(c.oid))
ORDER BY 1, 2"""
_POWER = """
SELECT CASE WHEN r.rolsuper THEN '' ELSE r.rolname::text END
FROM pg_catalog.pg_roles r
WHERE (r.rolsuper OR r.rolreplication OR r.rolname = ANY(%s))
    AND (pg_catalog.pg_has_role(session_user, r.oid, 'MEMBER') OR pg_catalog.pg_has_role(current_user, r.oid, 'MEMBER'))
ORDER BY r.rolsuper DESC, r.rolname LIMIT 1"""

# What is read or called goes by the extension's own list of its parts, never by its name alone. Who owns the database has the
# rights of pg_database_owner.
_PARTS = """
WITH parts AS (
    SELECT e.oid AS extension, e.extnamespace AS home, d.classid, d.objid FROM pg_catalog.pg_extension e
    JOIN pg_catalog.pg_depend d ON d.refclassid = 'pg_catalog.pg_extension'::regclass AND d.refobjid = e.oid AND d.deptype = 'e'
    WHERE e.extname = %s
), owners(oid) AS (
    SELECT e.extowner FROM pg_catalog.pg_extension e JOIN parts p ON p.extension = e.oid
    UNION SELECT n.nspowner FROM pg_catalog.pg_namespace n JOIN parts p ON p.home = n.oid
    UNION SELECT c.relowner FROM pg_catalog.pg_class c JOIN parts p ON p.objid = c.oid
        AND p.classid = 'pg_catalog.pg_class'::regclass
    UNION SELECT f.proowner FROM pg_catalog.pg_proc f JOIN parts p ON p.objid = f.oid
        AND p.classid = 'pg_catalog.pg_proc'::regclass
    UNION SELECT b.datdba FROM pg_catalog.pg_database b WHERE b.datname = pg_catalog.current_database() AND EXISTS (
        SELECT FROM pg_catalog.pg_namespace n JOIN parts p ON p.home = n.oid
        JOIN pg_catalog.pg_roles r ON r.oid = n.nspowner WHERE r.rolname = 'pg_database_owner')
), others(names) AS (
    SELECT ARRAY(SELECT r.rolname::text FROM owners o JOIN pg_catalog.pg_roles r ON r.oid = o.oid
        WHERE NOT r.rolsuper AND r.rolname NOT IN ('pg_database_owner', session_user) ORDER BY 1)
)"""
_VIEW = f"""{_PARTS}
SELECT n.nspname::text, c.oid::int8, o.names
FROM others o CROSS JOIN parts p JOIN pg_catalog.pg_class c ON c.oid = p.objid AND c.relnamespace = p.home AND c.relkind = 'v'
JOIN pg_catalog.pg_namespace n ON n.oid = p.home
WHERE p.classid = 'pg_catalog.pg_class'::regclass AND c.relname = %s"""
_CALLED = f"""{_PARTS}
SELECT n.nspname::text, p.proname::text, pg_catalog.oidvectortypes(p.proargtypes), w.rolname::text, l.lanname = 'c',
    w.rolsuper OR w.rolname = session_user, o.names
FROM others o CROSS JOIN parts JOIN pg_catalog.pg_proc p ON p.oid = parts.objid AND p.pronamespace = parts.home
JOIN pg_catalog.pg_namespace n ON n.oid = parts.home JOIN pg_catalog.pg_language l ON l.oid = p.prolang
JOIN pg_catalog.pg_roles w ON w.oid = p.proowner
WHERE parts.classid = 'pg_catalog.pg_proc'::regclass AND p.proname = ANY(%s)"""

# Whether the role, or one that it is a member of, owns anything in the database, or a database.
_OWNS = """
SELECT EXISTS (
    SELECT FROM pg_catalog.pg_shdepend d JOIN pg_catalog.pg_roles r ON r.oid = d.refobjid
    WHERE d.refclassid = 'pg_catalog.pg_authid'::regclass AND d.deptype = 'o'
        AND d.dbid IN (0, (SELECT b.oid FROM pg_catalog.pg_database b WHERE b.datname = pg_catalog.current_database()))
        AND (pg_catalog.pg_has_role(session_user, r.oid, 'MEMBER') OR pg_catalog.pg_has_role(current_user, r.oid, 'MEMBER')))"""

# Asked in the path of statements, so each name has its schema, and there is no operator.
_RESOLVED = """
SELECT pg_catalog.to_regclass(name)::pg_catalog.oid::pg_catalog.int8 FROM pg_catalog.unnest(%s::pg_catalog.text[]) AS name"""

_REACHED = """
WITH RECURSIVE reached(oid) AS (
    SELECT unnest(%(tables)s::oid[])
    UNION
    SELECT more.oid FROM reached r CROSS JOIN LATERAL (
        SELECT d.refobjid FROM pg_catalog.pg_rewrite w JOIN pg_catalog.pg_depend d
            ON d.classid = 'pg_catalog.pg_rewrite'::regclass AND d.objid = w.oid WHERE w.ev_class = r.oid
            AND d.refclassid = 'pg_catalog.pg_class'::regclass
        UNION ALL
        SELECT d.refobjid FROM pg_catalog.pg_policy p JOIN pg_catalog.pg_depend d
            ON d.classid = 'pg_catalog.pg_policy'::regclass AND d.objid = p.oid WHERE p.polrelid = r.oid
            AND d.refclassid = 'pg_catalog.pg_class'::regclass
        UNION ALL
        SELECT i.inhrelid FROM pg_catalog.pg_inherits i WHERE i.inhparent = r.oid) more(oid)
), parts(classid, objid) AS (
    SELECT 'pg_catalog.pg_class'::regclass::oid, oid FROM reached
    UNION ALL SELECT 'pg_catalog.pg_class'::regclass, indexrelid FROM pg_catalog.pg_index JOIN reached r ON r.oid = indrelid
    UNION ALL SELECT 'pg_catalog.pg_rewrite'::regclass, w.oid FROM pg_catalog.pg_rewrite w JOIN reached r ON r.oid = ev_class
    UNION ALL SELECT 'pg_catalog.pg_policy'::regclass, p.oid FROM pg_catalog.pg_policy p JOIN reached r ON r.oid = polrelid
    UNION ALL SELECT 'pg_catalog.pg_constraint'::regclass, c.oid
        FROM pg_catalog.pg_constraint c JOIN reached r ON r.oid = conrelid
    UNION ALL SELECT 'pg_catalog.pg_attrdef'::regclass, a.oid FROM pg_catalog.pg_attrdef a JOIN reached r ON r.oid = adrelid
    UNION ALL SELECT 'pg_catalog.pg_statistic_ext'::regclass, s.oid
        FROM pg_catalog.pg_statistic_ext s JOIN reached r ON r.oid = stxrelid
), types(oid) AS (
    SELECT atttypid FROM pg_catalog.pg_attribute JOIN reached r ON r.oid = attrelid WHERE attnum > 0 AND atttypid <> 0
    UNION SELECT refobjid FROM pg_catalog.pg_depend NATURAL JOIN parts WHERE refclassid = 'pg_catalog.pg_type'::regclass
    UNION SELECT oid FROM pg_catalog.pg_type WHERE typname = ANY(%(types)s)
    UNION SELECT more.oid FROM types y JOIN pg_catalog.pg_type t ON t.oid = y.oid
        CROSS JOIN LATERAL (VALUES (t.typbasetype), (t.typelem)) more(oid) WHERE more.oid <> 0
), all_parts AS (
    SELECT classid, objid FROM parts
    UNION ALL SELECT 'pg_catalog.pg_type'::regclass, oid FROM types
    UNION ALL SELECT 'pg_catalog.pg_constraint'::regclass, c.oid FROM pg_catalog.pg_constraint c JOIN types t ON t.oid = contypid
), used AS (
    SELECT DISTINCT refclassid, refobjid FROM pg_catalog.pg_depend NATURAL JOIN all_parts
), operators AS (
    SELECT o.oid, o.oprcom, o.oprnegate FROM pg_catalog.pg_operator o WHERE o.oprname = ANY(%(operators)s)
        OR o.oid IN (SELECT refobjid FROM used WHERE refclassid = 'pg_catalog.pg_operator'::regclass)
), functions(oid) AS (
    SELECT refobjid FROM used WHERE refclassid = 'pg_catalog.pg_proc'::regclass
    UNION SELECT o.oprcode FROM pg_catalog.pg_operator o JOIN operators m ON o.oid IN (m.oid, m.oprcom, m.oprnegate)
    UNION SELECT castfunc FROM pg_catalog.pg_cast WHERE castfunc <> 0 AND %(casts)s
    UNION SELECT oid FROM pg_catalog.pg_proc WHERE proname = ANY(%(functions)s)
        OR pronargs = 1 AND proname = ANY(%(columns)s)
)"""

_FUNCTIONS = f"""{_REACHED}
SELECT n.nspname::text, p.proname::text, pg_catalog.pg_get_function_identity_arguments(p.oid), w.rolname::text,
    pg_catalog.pg_has_role(session_user, p.proowner, 'MEMBER')
FROM functions f JOIN pg_catalog.pg_proc p ON p.oid = f.oid JOIN pg_catalog.pg_namespace n ON n.oid = p.pronamespace
JOIN pg_catalog.pg_roles w ON w.oid = p.proowner JOIN pg_catalog.pg_language l ON l.oid = p.prolang
WHERE l.lanname NOT IN ('internal', 'c') AND n.nspname NOT IN ('pg_catalog', 'information_schema') AND NOT (w.rolsuper AND EXISTS (
    SELECT FROM pg_catalog.pg_depend d WHERE d.classid = 'pg_catalog.pg_proc'::regclass AND d.objid = p.oid
        AND d.deptype = 'e'))
ORDER BY 1, 2, 3"""

_OWNED = f"""{_REACHED}
SELECT n.nspname::text, c.relname::text
FROM reached r JOIN pg_catalog.pg_class c ON c.oid = r.oid JOIN pg_catalog.pg_namespace n ON n.oid = c.relnamespace
WHERE pg_catalog.pg_has_role(session_user, c.relowner, 'MEMBER') ORDER BY 1, 2 LIMIT 1"""
_OWNERS = """
SELECT c.oid::pg_catalog.int8, r.rolname::text FROM pg_catalog.pg_class c JOIN pg_catalog.pg_roles r ON r.oid = c.relowner
WHERE c.oid = ANY(%s::pg_catalog.oid[])"""
DISTRUST, WHO = "the advice stands unless you distrust ", ", who may "
"""How a doubt begins, and what follows the roles that it is of."""
_DATABASE_OWNER = """
SELECT r.rolname::text FROM pg_catalog.pg_database d JOIN pg_catalog.pg_roles r ON r.oid = d.datdba
WHERE d.datname = pg_catalog.current_database()"""


class NotTrusted(ServerFault):
    """Why statements aren't explained with this role."""

    def __init__(self, why: str) -> None:
        super().__init__(
            f"verify doesn't explain statements as {why}, since PostgreSQL runs functions of users while it plans: "
            "cophy-pg setup DATABASE makes a role for it; with --i-trust-the-statements it does"
        )


@dataclass
class Names:
    """What statements name: tables with their schema, where they have one, and the rest by the last part of the name."""

    tables: set[tuple[str | None, str]] = field(default_factory=set)
    functions: set[str] = field(default_factory=set)
    operators: set[str] = field(default_factory=lambda: {*COMPARISONS})
    columns: set[str] = field(default_factory=set)
    types: set[str] = field(default_factory=set)

    @staticmethod
    def of(several: Iterable[Names]) -> Names:
        """What any of several names."""
        found = Names()
        for it in several:
            for part in fields(Names):
                getattr(found, part.name).update(getattr(it, part.name))
        return found


def refuse_powers(server: Server) -> None:
    """Refuses a role with a power that code could use in a read-only transaction."""
    found = server.value(_POWER, ([*POWERS],))
    if found is not None:
        raise NotTrusted(f"a member of {found}" if found else "a superuser")


def view_of(server: Server, extension: str, name: str = "") -> tuple[str, int, list[str]] | None:
    """The view of a name, or else of the extension's, that is a part of it: its schema, its number, and who may put another in its place but
    is no superuser. Nothing where there is none."""
    rows = server.rows(_VIEW, (extension, name or extension))
    return (str(rows[0][0]), int(rows[0][1]), [*map(str, rows[0][2])]) if rows else None


def callable_of(server: Server, extension: str, functions: Mapping[str, str]) -> tuple[str, list[str]] | None:
    """The schema of an extension's functions, by their names with the types that they take, and who may put others in their
    place but is no superuser. Nothing where one isn't there; refuses one that is no longer the extension's own."""
    rows = server.rows(_CALLED, (extension, [*functions]))
    found = [it for it in rows if functions[it[1]] == it[2]]
    for schema, name, _, owner, is_in_c, is_safe, _ in found:
        if not is_in_c or not is_safe:
            why = f"{schema!a}.{name!a} isn't called, since {owner!a} owns it" + " and has replaced it" * (not is_in_c)
            raise ServerFault(f"the function {why}: make the extension {extension} anew as a superuser")
    return (str(found[0][0]), [*map(str, found[0][6])]) if len(found) == len(functions) else None


def has_power(server: Server) -> bool:
    """Whether the role has a power that code could use in a read-only transaction."""
    return server.value(_POWER, ([*POWERS],)) is not None


def may_plan(server: Server) -> bool:
    """Whether the role may plan queries over all tables: planning may run functions of a table's indexes, constraints and
    statistics, whatever a query asks for, and these have the rights of the role, so it has to be one that only reads.
    """
    return not has_power(server) and server.value(_OWNS) is False


def runs_functions(server: Server, tables: Iterable[int]) -> bool:
    """Whether planning queries over tables may run functions of users."""
    return bool(server.rows(_FUNCTIONS, _values(Names(operators=set()), tables) | {"casts": False}))


def refuse_owner(server: Server, names: Names, tables: Iterable[int]) -> None:
    """Refuses a role that owns a table, a view or a function of what is explained."""
    values = _values(names, tables)
    owned = server.rows(_OWNED, values) or [it[:2] for it in server.rows(_FUNCTIONS, values) if it[4]]
    if owned:
        raise NotTrusted(f"the owner of {'.'.join(map(ascii, owned[0]))}")


def owners_of(server: Server, tables: Sequence[int]) -> dict[int, str]:
    """The role that owns each table."""
    return {int(oid): str(owner) for oid, owner in server.rows(_OWNERS, ([*tables],))}


def database_owner(server: Server) -> str:
    """The role that owns the database."""
    return str(server.value(_DATABASE_OWNER))


def functions_of_users(server: Server, names: Names, tables: Iterable[int]) -> list[str]:
    """The functions of users that may run while statements with these names are planned, each with its owner. It errs to
    too many: of functions of one name all are told."""
    rows = server.rows(_FUNCTIONS, _values(names, tables))
    return [f"{_plain(f'{schema}.{name}({given})')} of {_plain(owner)}" for schema, name, given, owner, _ in rows]


def rights(server: Server, tables: Sequence[int]) -> list[str]:
    """What to warn of: rights that the role lacks to see everything, tables that it can't see, and rights that it doesn't
    need."""
    is_super = server.value("SELECT rolsuper FROM pg_catalog.pg_roles WHERE rolname = session_user")
    what = "is a superuser" if is_super else "owns something here, or may do more than read"
    told = [] if may_plan(server) else [f"the role {what}, so no table is sampled: {BETTER}"]
    if is_super:
        return told
    wanted = ["pg_read_all_stats"] + ["pg_read_all_data"] * (version_of(server) >= 140000)
    lacks = [it for it in wanted if not server.value("SELECT pg_has_role(current_user, %s, 'USAGE')", (it,))]
    told += [f"the role isn't a member of {it}, so some statements or statistics may be missing" for it in lacks]
    hidden = [".".join(map(ascii, it)) for it in server.rows(_HIDDEN, ([*tables],))]
    if hidden:
        some = ", ".join(hidden[:MOST_NAMES]) + (f" and {len(hidden) - MOST_NAMES} more" if hidden[MOST_NAMES:] else "")
        told.append(f"without the right to read them, or for a policy, there are no statistics of {some}")
    return told


def resolved(
    server: Server, names: Iterable[tuple[str | None, str]], path: Sequence[str] | None
) -> dict[tuple[str | None, str], int]:
    """The numbers of the tables and views that names stand for, as a path or else the role's own has it."""
    listed = [*names]
    texts = [".".join(quoted_name(part) for part in it if part is not None) for it in listed]
    with server.savepoint():
        server.use_path(path)
        rows = server.rows(_RESOLVED, (texts,))
    return {name: int(row[0]) for name, row in zip(listed, rows, strict=True) if row[0] is not None}


def _values(names: Names, tables: Iterable[int]) -> dict[str, object]:
    listed: dict[str, object] = {"tables": [*tables], "casts": True}
    return listed | {it: [*getattr(names, it)] for it in ("functions", "operators", "columns", "types")}


def _plain(text: str) -> str:
    """A text of the database in printable ASCII."""
    return ascii(text)[1:-1]
