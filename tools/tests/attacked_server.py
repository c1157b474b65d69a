"""A server with a database of the role `app`, in which all is planted that may run when others plan or name it.

Whatever is planted tries to leave a mark: a file beside the server, a row in a table, the rights of a superuser.
"""
from __future__ import annotations

import atexit
import functools
import subprocess
from pathlib import Path

from fixtures import ADVISOR, InFolder, called
from private_server import PrivateServer

# What is tried, whoever runs it. `strike` is called by all that is planted.
STRIKE = """
CREATE TABLE mark (who text);
CREATE FUNCTION strike() RETURNS int LANGUAGE plpgsql AS $$
DECLARE
    tried pg_catalog.text;
BEGIN
    FOREACH tried IN ARRAY ARRAY[
        'SELECT pg_catalog.set_config(''default_transaction_read_only'', ''off'', false)',
        'SELECT pg_catalog.set_config(''transaction_read_only'', ''off'', false)',
        'SELECT pg_catalog.set_config(''search_path'', ''evil, public'', false)',
        'SELECT pg_catalog.set_config(''row_security'', ''on'', false)',
        'RESET ROLE', 'SET ROLE cophy', 'SET SESSION AUTHORIZATION cophy',
        'ALTER ROLE app SUPERUSER', 'GRANT pg_execute_server_program TO app', 'INSERT INTO public.mark VALUES (current_user)',
        'DEALLOCATE ALL', 'PREPARE cophy_pg AS SELECT public.strike()',
        'COPY (SELECT 1) TO PROGRAM ''touch FILE''', 'COPY (SELECT 1) TO ''FILE'''] LOOP
        BEGIN
            EXECUTE tried;
        EXCEPTION WHEN OTHERS THEN NULL;
        END;
    END LOOP;
    RETURN 1;
END $$;
CREATE FUNCTION folded(int) RETURNS int LANGUAGE plpgsql IMMUTABLE AS $$ BEGIN RETURN public.strike(); END $$;
"""
# By name: what is planted, and a statement whose plan runs it.
PLANTED = {
    "an immutable function that calls a volatile one": ("", "SELECT a FROM t WHERE a = folded(1)"),
    "a function of SQL that is taken in line": (
        "CREATE FUNCTION lined(int) RETURNS int LANGUAGE sql IMMUTABLE AS 'SELECT folded($1)'",
        "SELECT a FROM t WHERE a = lined(2)",
    ),
    "an operator whose function is asked for its selectivity": (
        "CREATE FUNCTION like_it(int, int) RETURNS boolean LANGUAGE plpgsql AS $$ BEGIN PERFORM strike(); RETURN true; END $$;"
        "CREATE OPERATOR === (LEFTARG = int, RIGHTARG = int, FUNCTION = like_it, RESTRICT = eqsel)",
        "SELECT a FROM t WHERE a === 5",
    ),
    "a cast": (
        "CREATE TYPE mood AS ENUM ('good'); CREATE TABLE moods (m mood); INSERT INTO moods VALUES ('good'); ANALYZE moods;"
        "CREATE FUNCTION to_mood(int) RETURNS mood LANGUAGE plpgsql IMMUTABLE AS"
        " $$ BEGIN PERFORM strike(); RETURN 'good'; END $$; CREATE CAST (int AS mood) WITH FUNCTION to_mood(int)",
        "SELECT m FROM moods WHERE m = 7::mood",
    ),
    "the difference of a range type": (
        "CREATE FUNCTION apart(float8, float8) RETURNS float8 LANGUAGE plpgsql IMMUTABLE AS"
        " $$ BEGIN PERFORM strike(); RETURN $1 - $2; END $$;"
        "CREATE TYPE span AS RANGE (SUBTYPE = float8, SUBTYPE_DIFF = apart); CREATE TABLE spans (s span);"
        "INSERT INTO spans SELECT span(g, g + 5) FROM generate_series(1, 300) g; ANALYZE spans",
        "SELECT s FROM spans WHERE s && '[3,4)'::span",
    ),
    "a view": ("CREATE VIEW quiet AS SELECT a, b FROM t WHERE b <> folded(3)::text", "SELECT a FROM quiet"),
    "an index over an expression": (
        "CREATE FUNCTION later(int) RETURNS int LANGUAGE sql IMMUTABLE AS 'SELECT 1';"
        "CREATE TABLE indexed (a int, long text); CREATE INDEX ON indexed ((a + later(1)));"
        "CREATE OR REPLACE FUNCTION later(int) RETURNS int LANGUAGE plpgsql IMMUTABLE AS $$ BEGIN RETURN strike(); END $$",
        "SELECT a FROM indexed WHERE a = 3",
    ),
    "the condition of a partial index": (
        "CREATE TABLE partial (a int, long text); CREATE INDEX ON partial (a) WHERE a > folded(4)",
        "SELECT a FROM partial WHERE a > 3",
    ),
    "a constraint of a child": (
        "CREATE TABLE parent (a int, long text); CREATE TABLE child (CHECK (a > folded(6))) INHERITS (parent)",
        "SELECT a FROM parent WHERE a = 3",
    ),
    "statistics of an expression": (
        "CREATE TABLE counted (a int, b int, long text); CREATE STATISTICS st ON (a + folded(7)), b FROM counted",
        "SELECT a FROM counted WHERE a = 1 GROUP BY a, b",
    ),
    "the key of a partitioned table": (
        "CREATE TABLE keyed (a int, long text) PARTITION BY RANGE ((a + folded(8)));"
        "CREATE TABLE keyed_1 PARTITION OF keyed FOR VALUES FROM (0) TO (100)",
        "SELECT a FROM keyed WHERE a = 3",
    ),
    "a function in the place of PostgreSQL's": (
        "CREATE FUNCTION evil.lower(text) RETURNS text LANGUAGE plpgsql IMMUTABLE AS $$ BEGIN PERFORM public.strike();"
        " RETURN $1; END $$",
        "SELECT a FROM t WHERE b = lower('X')",
    ),
    "an operator in the place of PostgreSQL's": (
        "CREATE FUNCTION evil.same(text, text) RETURNS boolean LANGUAGE plpgsql AS $$ BEGIN PERFORM public.strike();"
        " RETURN true; END $$;"
        "CREATE OPERATOR evil.= (LEFTARG = text, RIGHTARG = text, FUNCTION = evil.same, RESTRICT = eqsel)",
        "SELECT a FROM t WHERE b = 'y'",
    ),
    "a policy": (
        "CREATE TABLE hidden (a int); INSERT INTO hidden VALUES (1); ANALYZE hidden;"
        "ALTER TABLE hidden ENABLE ROW LEVEL SECURITY; CREATE POLICY p ON hidden USING (a = folded(9))",
        "SELECT a FROM hidden WHERE a = 1",
    ),
    "a default": (
        "CREATE TABLE filled (a int DEFAULT folded(10), b int)",
        "INSERT INTO filled (b) SELECT a FROM t WHERE a = 4",
    ),
}
# PostgreSQL's own names, taken in a schema that the database's path has first.
SHADOWS = """
CREATE FUNCTION evil.pg_relation_size(oid) RETURNS bigint LANGUAGE plpgsql AS $$ BEGIN RETURN public.strike(); END $$;
CREATE FUNCTION evil.pg_relation_size(regclass) RETURNS bigint LANGUAGE plpgsql AS $$ BEGIN RETURN public.strike(); END $$;
CREATE FUNCTION evil.pg_get_viewdef(oid) RETURNS text LANGUAGE plpgsql AS $$ BEGIN RETURN public.strike()::text; END $$;
CREATE FUNCTION evil.pg_partition_root(regclass) RETURNS regclass LANGUAGE plpgsql AS
    $$ BEGIN PERFORM public.strike(); RETURN $1; END $$;
CREATE FUNCTION evil.current_setting(text) RETURNS text LANGUAGE plpgsql AS
    $$ BEGIN PERFORM public.strike(); RETURN pg_catalog.current_setting($1); END $$;
CREATE FUNCTION evil.current_database() RETURNS name LANGUAGE plpgsql AS $$ BEGIN PERFORM public.strike(); RETURN 'x'; END $$;
CREATE FUNCTION evil.current_schemas(boolean) RETURNS name[] LANGUAGE plpgsql AS
    $$ BEGIN PERFORM public.strike(); RETURN '{evil}'; END $$;
CREATE FUNCTION evil.pg_has_role(name, text, text) RETURNS boolean LANGUAGE plpgsql AS
    $$ BEGIN PERFORM public.strike(); RETURN false; END $$;
CREATE FUNCTION evil.unnest(oid[]) RETURNS SETOF oid LANGUAGE plpgsql AS $$ BEGIN PERFORM public.strike(); RETURN; END $$;
CREATE FUNCTION evil.same(oid, oid) RETURNS boolean LANGUAGE plpgsql AS $$ BEGIN RETURN public.strike() = 1; END $$;
CREATE OPERATOR evil.= (LEFTARG = oid, RIGHTARG = oid, FUNCTION = evil.same);
CREATE FUNCTION evil.same(name, text) RETURNS boolean LANGUAGE plpgsql AS $$ BEGIN RETURN public.strike() = 1; END $$;
CREATE OPERATOR evil.!~ (LEFTARG = name, RIGHTARG = text, FUNCTION = evil.same);
CREATE OPERATOR evil.= (LEFTARG = name, RIGHTARG = text, FUNCTION = evil.same);
CREATE FUNCTION evil.sum_of(bigint, bigint) RETURNS bigint LANGUAGE plpgsql AS $$ BEGIN RETURN public.strike(); END $$;
CREATE AGGREGATE evil.sum(bigint) (SFUNC = evil.sum_of, STYPE = bigint);
CREATE FUNCTION evil.checked(text) RETURNS boolean LANGUAGE plpgsql AS $$ BEGIN RETURN public.strike() = 1; END $$;
CREATE DOMAIN evil.text AS pg_catalog.text CHECK (evil.checked(VALUE));
CREATE DOMAIN evil.int8 AS pg_catalog.int8 CHECK (evil.checked(VALUE::pg_catalog.text));
CREATE DOMAIN evil.float8 AS pg_catalog.float8 CHECK (evil.checked(VALUE::pg_catalog.text));
CREATE DOMAIN evil.oid AS pg_catalog.oid CHECK (evil.checked(VALUE::pg_catalog.text));
CREATE TABLE evil.pg_class (oid pg_catalog.oid, relname name);
CREATE TABLE evil.pg_stat_statements (query pg_catalog.text);
CREATE DOMAIN public.int4 AS pg_catalog.int4 CHECK (evil.checked(VALUE::pg_catalog.text));
CREATE TABLE public.typed (a public.int4, b evil.text);
INSERT INTO public.typed SELECT g % 9, 'x' FROM generate_series(1, 200) g;
ANALYZE public.typed;
CREATE VIEW public.seen AS SELECT a FROM public.t;
"""


@functools.cache
def prey() -> PrivateServer:
    """A server with a database of the role `app`, in which all is planted."""
    server = PrivateServer()
    atexit.register(server.stop)
    server.psql("CREATE ROLE app LOGIN; CREATE DATABASE prey OWNER app")
    server.psql("CREATE EXTENSION pg_stat_statements; GRANT ALL ON SCHEMA public TO app", "prey")
    server.psql(ADVISOR.read_text(), "prey")
    mark(server).parent.mkdir()
    mark(server).parent.chmod(0o777)
    as_app(server, "CREATE SCHEMA evil;" + STRIKE.replace("FILE", str(mark(server))))
    as_app(
        server,
        "CREATE TABLE t (a int, b text); INSERT INTO t SELECT g % 50, 'y' FROM generate_series(1, 900) g; ANALYZE t",
    )
    for what, _ in PLANTED.values():
        as_app(server, what)
    as_app(server, SHADOWS)
    # The path of every session in the database, a superuser's too.
    as_app(server, "ALTER DATABASE prey SET search_path TO evil, pg_catalog, public")
    return server


def mark(server: PrivateServer) -> Path:
    """The file that says that an attack was a success."""
    return server.folder / "marks" / "mark"


def as_app(server: PrivateServer, text: str, database: str = "prey") -> None:
    """Runs a script as the application's role."""
    server.psql(text, database, PGUSER="app")


class OverPrey(InFolder):
    """Tests over that database, of which the advisor's role asks, and before which no mark is left."""

    server: PrivateServer

    @classmethod
    def setUpClass(cls) -> None:
        cls.server = prey()

    def setUp(self) -> None:
        super().setUp()
        self.files = self.in_folder("catalogue.toml", "workload.sql", "advice")
        self.assertFalse(self.marks(), "a test before this one left a mark")

    def marks(self) -> list[str]:
        """What an attack left, which is taken away."""
        found = ["file"] if mark(self.server).exists() else []
        mark(self.server).unlink(missing_ok=True)
        asked = """SET ROLE NONE; SET search_path TO pg_catalog;
SELECT concat_ws(' ', (SELECT 'superuser' FROM pg_roles WHERE rolname = 'app' AND rolsuper),
    (SELECT 'member' WHERE pg_has_role('app', 'pg_execute_server_program', 'MEMBER')),
    (SELECT 'row' FROM public.mark WHERE who <> 'app' LIMIT 1));
DELETE FROM public.mark;
ALTER ROLE app NOSUPERUSER; REVOKE pg_execute_server_program FROM app"""
        return found + self.server.value(asked, "prey").split()

    def call(
        self, *words: str, user: str = "cophy_advisor", database: str = "prey"
    ) -> subprocess.CompletedProcess[str]:
        ran = called(self.server, *words, database=database, PGUSER=user)
        self.assertNotIn("Traceback", ran.stderr)
        return ran

    def export(
        self, text: str, *more: str, user: str = "cophy_advisor", database: str = "prey"
    ) -> subprocess.CompletedProcess[str]:
        """An export with a file of SQL, which ends well."""
        (self.folder / "given.sql").write_text(text)
        words = (*self.files[:2], "--sql", str(self.folder / "given.sql"), *more)
        ran = self.call("export", *words, user=user, database=database)
        self.assertEqual(ran.returncode, 0, ran.stderr)
        return ran

    def verify(
        self, statements: list[str], *more: str, user: str = "cophy_advisor", database: str = "prey"
    ) -> subprocess.CompletedProcess[str]:
        """Verifies a pick over statements, which the workload is said to come from."""
        from cophy_pg.workload import form_of

        self.export(";\n".join(statements) + ";\n", database=database)
        written = [f"-- from {form_of(it)}\n-- weight 1\nSELECT a FROM t;\n" for it in statements]
        Path(self.files[1]).write_text("\n".join(written))
        self.lay_advice(["t(a)"])
        return self.verify_again(*more, user=user, database=database)

    def verify_again(
        self, *more: str, user: str = "cophy_advisor", database: str = "prey"
    ) -> subprocess.CompletedProcess[str]:
        """Verifies what is laid."""
        words = ("verify", *self.files, "--sql", str(self.folder / "given.sql"), "--program", "/bin/false", *more)
        return self.call(*words, user=user, database=database)

    def make_database(self, name: str, owner: str = "cophy", lent: bool = False) -> None:
        """Makes a database, which goes with the test; in one that is lent the application's role may make schemas."""
        self.server.psql(f"CREATE DATABASE {name} OWNER {owner}")
        self.addCleanup(self.server.psql, f"DROP DATABASE {name} WITH (FORCE)")
        if lent:
            self.server.psql(f"GRANT CREATE ON DATABASE {name} TO app")
