"""Rights: with which roles `cophy-pg` explains statements and takes samples, and what the role of advisor_role.sql may do."""
from __future__ import annotations

import unittest

from attacked_server import PLANTED, OverPrey, as_app
from fixtures import ADVISOR, NO_HYPOPG


@unittest.skipIf(NO_HYPOPG, NO_HYPOPG)
class Rights(OverPrey):
    def test_verify_refuses_roles_with_powers(self) -> None:
        self.server.psql(
            "CREATE ROLE files NOINHERIT LOGIN IN ROLE pg_write_server_files, pg_read_all_data;"
            "CREATE ROLE programs LOGIN IN ROLE pg_execute_server_program, pg_read_all_data;"
            "CREATE ROLE other NOLOGIN; CREATE ROLE heir LOGIN IN ROLE other, app, pg_read_all_data",
            "prey",
        )
        table = [
            ("cophy", "a superuser"),
            ("files", "a member of pg_write_server_files"),
            ("programs", "a member of pg_execute_server_program"),
            ("app", "the owner of 'public'.'t'"),
            ("heir", "the owner of 'public'.'t'"),
        ]
        for user, why in table:
            with self.subTest(user=user):
                ran = self.verify(
                    [PLANTED["an immutable function that calls a volatile one"][1], "SELECT a FROM t"], user=user
                )
                self.assertEqual((ran.returncode, ran.stdout), (1, ""))
                self.assertIn(f"verify doesn't explain statements as {why}", ran.stderr)
                self.assertFalse(self.marks())

    def test_a_superuser_in_another_role_is_refused(self) -> None:
        self.server.psql("ALTER DATABASE prey SET role TO app", "prey")
        self.addCleanup(self.server.psql, "ALTER DATABASE prey RESET role")
        ran = self.verify(["SELECT a FROM t WHERE a = folded(1)"], user="cophy")
        self.assertIn("verify doesn't explain statements as a superuser", ran.stderr)
        self.assertFalse(self.marks())

    def test_who_trusts_the_statements_may(self) -> None:
        ran = self.verify(["SELECT a FROM t WHERE a = 3"], "--i-trust-the-statements", user="cophy")
        self.assertEqual(ran.returncode, 0, ran.stderr)
        self.assertIn("evil.same(", ran.stderr)
        self.marks()

    def test_a_role_that_owns_something_takes_no_sample(self) -> None:
        """Neither of its own tables nor of others', whose functions would run as this role."""
        self.server.psql(
            "CREATE ROLE owner LOGIN; GRANT pg_read_all_data TO owner;"
            "CREATE ROLE reader LOGIN; GRANT pg_read_all_data TO reader"
        )
        self.addCleanup(self.server.psql, "DROP ROLE owner; DROP ROLE reader")
        self.make_database("lent", lent=True)
        self.server.psql("CREATE TABLE own (a int); ALTER TABLE own OWNER TO owner", "lent")
        as_app(
            self.server,
            "CREATE SCHEMA app; SET search_path TO app; CREATE TABLE ran (who text);"
            "CREATE FUNCTION runs(int) RETURNS int LANGUAGE plpgsql IMMUTABLE AS $$ BEGIN"
            " PERFORM pg_catalog.pg_advisory_lock(4711); RETURN 1; END $$;"
            "CREATE TABLE t (a int, b text); INSERT INTO t SELECT i, repeat('x', 200) FROM generate_series(1, 9) i;"
            "ANALYZE t",
            "lent",
        )
        as_app(self.server, "CREATE INDEX ON app.t ((a + app.runs(1)))", "lent")
        from cophy_pg.server import connected, reading
        from cophy_pg.trust import may_plan

        for user, may in (("owner", False), ("reader", True), ("cophy", False), ("app", False)):
            with self.subTest(user=user):
                ran = self.export("SELECT a FROM app.t;\n", user=user, database="lent")
                self.assertEqual("so no table is sampled" in ran.stderr, not may)
                with connected(f"host={self.server.folder} user={user} dbname=lent") as server, reading(server):
                    self.assertEqual(may_plan(server), may)

    def test_the_script_makes_a_role_with_the_least_rights(self) -> None:
        self.server.psql(ADVISOR.read_text(), "prey")
        self.assertFalse(self.marks())
        found = self.server.value(
            "SET search_path TO pg_catalog; SELECT rolsuper OR rolcreaterole OR rolcreatedb OR rolreplication OR rolbypassrls,"
            " ARRAY(SELECT roleid::regrole::text FROM pg_auth_members WHERE member = r.oid ORDER BY 1)"
            " FROM pg_roles r WHERE rolname = 'cophy_advisor'",
            "prey",
        )
        self.assertEqual(found, "f|{pg_read_all_data,pg_read_all_stats}")
        found = self.server.value("SELECT pg_catalog.has_schema_privilege('cophy_advisor', 'hypopg', 'CREATE')", "prey")
        self.assertEqual(found, "f")


if __name__ == "__main__":
    unittest.main()
