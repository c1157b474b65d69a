"""What stands in the place of an extension's schema, view or functions is neither read nor called."""
from __future__ import annotations

import unittest

from attacked_server import OverPrey, as_app, mark
from fixtures import ADVISOR, NO_HYPOPG

VIEW = (
    "CREATE VIEW {0}.pg_stat_statements AS SELECT public.took()::oid AS userid, 5::oid AS dbid, 'SELECT 1' AS query,"
    " 1::int8 AS calls, 1::float8 AS total_exec_time, 1::int8 AS rows"
)
# By name: what is made, and why the statements aren't read; nothing where the extension's are.
SWAPS = {
    "none": (VIEW.format("public"), "isn't there"),
    "another": ("CREATE SCHEMA other; CREATE EXTENSION pg_stat_statements SCHEMA other;" + VIEW.format("public"), ""),
    "schema": (
        "CREATE SCHEMA other; CREATE EXTENSION pg_stat_statements SCHEMA other;"
        "ALTER SCHEMA other OWNER TO app; ALTER SCHEMA other RENAME TO gone; CREATE SCHEMA other;"
        + VIEW.format("other"),
        "'app' may put another view in the place of pg_stat_statements, in schema 'gone'",
    ),
    "view": (
        "CREATE EXTENSION pg_stat_statements; ALTER SCHEMA public OWNER TO cophy;"
        "ALTER VIEW pg_stat_statements OWNER TO app;"
        "CREATE OR REPLACE VIEW public.pg_stat_statements AS"
        " SELECT s.* FROM public.pg_stat_statements(true) s WHERE public.took() = 1",
        "'app' may put another view in the place of pg_stat_statements, in schema 'public'",
    ),
}


@unittest.skipIf(NO_HYPOPG, NO_HYPOPG)
class Replaced(OverPrey):
    def test_a_view_in_the_place_of_the_statements_is_not_read(self) -> None:
        """The owner of the extension's schema, of the extension's view, or of a schema of the same name may be an attacker."""
        body = f"$$ BEGIN COPY (SELECT 1) TO PROGRAM 'touch {mark(self.server)}'; RETURN 1; END $$"
        took = f"CREATE FUNCTION public.took() RETURNS int LANGUAGE plpgsql AS {body};"
        for name, (made, why) in SWAPS.items():
            with self.subTest(name=name):
                self.make_database(f"swap_{name}")
                self.server.psql(f"CREATE TABLE public.t (a int); {took} {made}", f"swap_{name}")
                ran = self.call("export", *self.files[:2], user="cophy", database=f"swap_{name}")
                self.assertEqual(ran.returncode, 1 if why else 0, ran.stderr)
                self.assertIn(why, ran.stderr)
                self.assertFalse(mark(self.server).exists())

    def test_a_schema_that_is_there_already_is_not_taken_for_hypopg(self) -> None:
        self.make_database("taken", owner="app")
        self.server.psql("CREATE SCHEMA hypopg AUTHORIZATION app", "taken")
        ran = self.server.psql(ADVISOR.read_text(), "taken", check=False)
        self.assertNotEqual(ran.returncode, 0)
        self.assertIn('schema "hypopg" already exists', ran.stderr)

    def test_functions_beside_those_of_hypopg_are_not_called(self) -> None:
        self.make_database("beside", owner="app")
        self.server.psql("CREATE EXTENSION hypopg", "beside")
        body = f"LANGUAGE plpgsql AS $$ BEGIN COPY (SELECT 1) TO PROGRAM 'touch {mark(self.server)}'; END $$"
        given = "OUT indexrelid oid, OUT indexname text"
        as_app(
            self.server,
            f"CREATE FUNCTION hypopg_create_index(varchar, {given}) RETURNS SETOF record {body};"
            f"CREATE FUNCTION hypopg_reset(int DEFAULT 0) RETURNS void {body};"
            "CREATE TABLE t (a int, b text); INSERT INTO t SELECT g, 'y' FROM generate_series(1, 900) g; ANALYZE t",
            "beside",
        )
        more = ("--i-trust-the-statements",)
        ran = self.verify(["SELECT a FROM t WHERE a = 3"], *more, user="cophy", database="beside")
        self.assertIn("pick 1 t(a): taken by 1 statement", ran.stdout, ran.stderr)
        self.assertFalse(self.marks())
        named = "'public'.'hypopg_create_index', in whose place 'app' may put another"
        self.assertIn(named, ran.stderr, "who owns the database owns the schema public")

    def test_functions_that_replaced_those_of_hypopg_are_not_called(self) -> None:
        # A program that doesn't read what it is given may end before that is written, which is an error.
        body = f"$$ BEGIN COPY (SELECT 1) TO PROGRAM 'cat >{mark(self.server)}'; RETURN; END $$"
        given = {
            "hypopg_create_index": "(sql_order text, OUT indexrelid oid, OUT indexname text) RETURNS SETOF record",
            "hypopg_reset": "() RETURNS void",
        }
        more = ("--i-trust-the-statements",)
        for name, form in given.items():
            with self.subTest(function=name):
                database = f"replaced_{name}"
                self.make_database(database)
                lent = f"CREATE EXTENSION hypopg; ALTER FUNCTION {name}{'(text)' * (form[1] == 's')} OWNER TO app;"
                table = "CREATE TABLE t (a int); INSERT INTO t SELECT generate_series(1, 900); ANALYZE t"
                self.server.psql(f"{lent} GRANT CREATE ON SCHEMA public TO app; {table}", database)
                ran = self.verify(["SELECT a FROM t WHERE a = 3"], *more, user="cophy", database=database)
                self.assertIn(f"the function 'public'.'{name}' isn't called, since 'app' owns it: ", ran.stderr)
                as_app(self.server, f"CREATE OR REPLACE FUNCTION {name}{form} LANGUAGE plpgsql AS {body}", database)
                ran = self.verify(["SELECT a FROM t WHERE a = 3"], *more, user="cophy", database=database)
                self.assertEqual((ran.returncode, ran.stdout), (1, ""))
                self.assertIn(f"'{name}' isn't called, since 'app' owns it and has replaced it: ", ran.stderr)
                self.assertFalse(self.marks())
                call = f"{name}({chr(39) * 2 * (form[1] == 's')})"
                self.server.psql(f"SELECT public.{call}", database)
                self.assertTrue(self.marks(), "a superuser who calls it leaves the mark")


if __name__ == "__main__":
    unittest.main()
