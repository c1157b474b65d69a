"""Attacks on `cophy-pg` by the role of an application, which owns its database: code that plans and triggers would run.

`bait` says that they would leave a mark: a superuser who asks by hand leaves it.
"""
from __future__ import annotations

import re
import unittest
from pathlib import Path

from attacked_server import PLANTED, OverPrey, as_app
from fixtures import ADVISOR, NO_HYPOPG


@unittest.skipIf(NO_HYPOPG, NO_HYPOPG)
class Attacks(OverPrey):
    def test_bait(self) -> None:
        for name, (_, statement) in PLANTED.items():
            with self.subTest(planted=name):
                self.server.psql(f"EXPLAIN {statement}", "prey")
                if name != "a policy":
                    self.assertTrue(self.marks(), "the plan of a superuser runs what is planted")
        self.server.psql("SELECT pg_relation_size(1259::pg_catalog.oid)", "prey")
        self.assertTrue(self.marks())

    def test_export_by_a_superuser_runs_nothing(self) -> None:
        ran = self.export(";\n".join(statement for _, statement in PLANTED.values()), user="cophy")
        self.assertIn("the role is a superuser", ran.stderr)
        self.assertFalse(self.marks())
        self.assertIn('name = "t"', Path(self.files[0]).read_text())
        # Who owns the database owns the schema of pg_stat_statements.
        ran = self.call("export", *self.files[:2], user="cophy")
        self.assertEqual(ran.returncode, 1)
        self.assertIn("'app' may put another view in the place of pg_stat_statements", ran.stderr)
        ran = self.call("export", *self.files[:2])
        self.assertEqual(ran.returncode, 0, ran.stderr)
        told = "warning: the advice stands unless you distrust 'app', who may replace pg_stat_statements in"
        self.assertIn(told, ran.stderr)
        self.assertFalse(self.marks())

    def test_verify_by_the_advisor_leaves_no_mark_and_names_functions(self) -> None:
        ran = self.verify([statement for _, statement in PLANTED.values()])
        self.assertFalse(self.marks())
        self.assertEqual(ran.returncode, 0, ran.stderr)
        self.assertIn("verdict: of 1 pick ", ran.stdout)
        told = ran.stderr.split("may run these functions of users while it plans: ")[1]
        for name in (
            "folded(integer)",
            "lined(integer)",
            "like_it(",
            "to_mood(",
            "apart(",
            "later(integer)",
            "evil.lower(",
        ):
            self.assertRegex(told, rf"(public\.)?{re.escape(name)}[^;]* of app")
        self.assertIn("evil.same(", told)
        what = "; they have this role's rights: look at their code, unless you trust their owners\n"
        self.assertEqual(told.count(what), 1, told)
        self.assertRegex(ran.stdout, r"statement [^:]*: not explained: 42501 the role has no right to it")

    def test_no_plan_runs_what_only_a_write_would(self) -> None:
        for kind in ("a default", "a policy"):
            ran = self.verify([PLANTED[kind][1]])
            self.assertEqual(ran.returncode, 0, ran.stderr)
            self.assertFalse(self.marks())

    def test_settings_that_a_function_changes_are_undone(self) -> None:
        statements = [
            "SELECT a FROM t WHERE a = folded(1)",
            "SELECT a FROM t WHERE a = 2",
            "SELECT a FROM t WHERE a = $1",
        ]
        ran = self.verify(statements)
        self.assertEqual(ran.returncode, 0, ran.stderr)
        self.assertNotIn("not explained", ran.stdout)
        self.assertIn("estimate for 3 statements", ran.stdout)
        self.assertFalse(self.marks())

    def test_a_call_is_one_statement(self) -> None:
        from cophy_pg.server import ServerFault, connected, reading

        with connected(f"host={self.server.folder} user=cophy dbname=prey") as server:
            self.assertEqual(server.value("SELECT pg_catalog.current_setting('search_path')"), "pg_catalog, pg_temp")
            self.assertEqual(server.search_path, "evil, pg_catalog, public")
            with self.assertRaises(ServerFault) as caught:
                server.rows("SELECT 1; ALTER ROLE app SUPERUSER")
            self.assertEqual(caught.exception.code, "42601")
            with reading(server):
                for text in (
                    "INSERT INTO public.mark VALUES ('x')",
                    "CREATE TEMP TABLE x ()",
                    "SET transaction_read_only TO off",
                ):
                    with self.assertRaises(ServerFault), server.savepoint():
                        server.rows(text)
        self.assertFalse(self.marks())

    def test_event_triggers_do_not_fire(self) -> None:
        as_app(
            self.server,
            "CREATE FUNCTION public.fires() RETURNS event_trigger LANGUAGE plpgsql AS $$ BEGIN PERFORM public.strike(); END $$",
        )
        self.server.psql("CREATE EVENT TRIGGER fires ON ddl_command_start EXECUTE FUNCTION public.fires()", "prey")
        self.addCleanup(self.server.psql, "DROP EVENT TRIGGER fires", "prey")
        self.marks()
        self.export("SELECT a FROM t;\n", user="cophy")
        self.assertEqual(self.call("export", *self.files[:2]).returncode, 0)
        self.assertEqual(self.verify(["SELECT a FROM t WHERE a = 3"]).returncode, 0)
        self.assertFalse(self.marks())
        ran = self.server.psql(ADVISOR.read_text(), "prey", check=False)
        self.assertIn("an event trigger runs a function that no superuser owns", ran.stderr)
        self.assertFalse(self.marks())

    def test_an_event_trigger_of_others_ends_the_script_for_a_superuser(self) -> None:
        body = "RETURNS event_trigger LANGUAGE plpgsql AS $$ BEGIN PERFORM public.strike(); END $$"
        as_app(self.server, f"CREATE FUNCTION public.fires_too() {body}")
        self.server.psql("CREATE TABLE public.ours AS SELECT generate_series(1, 900) AS a; ANALYZE public.ours", "prey")
        self.server.psql("CREATE EVENT TRIGGER too ON ddl_command_start EXECUTE FUNCTION public.fires_too()", "prey")
        self.addCleanup(self.server.psql, "DROP EVENT TRIGGER too; DROP TABLE public.ours", "prey")
        self.marks()
        self.assertEqual(self.verify(["SELECT a FROM public.ours WHERE a = 3"]).returncode, 0)
        name = re.search(r'name = "(\w*ours)"', Path(self.files[0]).read_text())
        assert name is not None
        self.lay_advice([f"{name[1]}(a)"])
        script, plain = (self.call("ddl", self.files[0], self.files[2], *more).stdout for more in (("--script",), ()))
        said = self.server.psql(script, "prey", check=False).stderr
        self.assertIn("event triggers of others: let their owner run the script, not a superuser", said)
        said = self.server.psql(f"SET ROLE pg_monitor;\n{script}", "prey", check=False).stderr
        self.assertIn("event triggers of others: let their owner run the script, not a superuser", said)
        self.assertFalse(self.marks())
        self.assertIn("-- Let the owner of the tables run this, not a superuser: ", plain)
        self.server.psql(plain, "prey")
        self.assertTrue(self.marks(), "a superuser who runs the plain statements runs what the trigger does")


if __name__ == "__main__":
    unittest.main()
