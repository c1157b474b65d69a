"""`cophy-pg setup --undo`: what setup made is gone, what it didn't make stays, and nothing that others planted runs."""
from __future__ import annotations

import os
import shlex
import stat
import subprocess
import unittest
from unittest import mock

from attacked_server import OverPrey, as_app
from fixtures import ADVISOR, NO_HYPOPG, InFolder, called
from private_server import PrivateServer, program

INDEXES = "Indexes that were made stay; cophy-pg make FOLDER --undo takes them back."
STATE = """SELECT concat_ws(' ', (SELECT string_agg(rolname, ' ' ORDER BY rolname) FROM pg_roles WHERE rolname !~ '^pg_'),
    (SELECT string_agg(nspname, ' ' ORDER BY nspname) FROM pg_namespace WHERE nspname !~ '^pg_'),
    (SELECT string_agg(extname, ' ' ORDER BY extname) FROM pg_extension), (SELECT datacl FROM pg_database WHERE datname = 'odd'))"""
ROLE = "SELECT count(*) FROM pg_roles WHERE rolname = 'cophy_advisor'"
ALL_GONE = (
    "gone: the extension hypopg and its schema hypopg, the extension pg_stat_statements and its schema counted, "
    "the role cophy_advisor"
)
BARE = "cophy information_schema public plpgsql"
"""The roles, schemas and extensions of a new database."""


def superuser(server: PrivateServer) -> str:
    """How psql is called as the superuser of a server."""
    return shlex.join([str(program("psql")), "-h", str(server.folder), "-U", "cophy"])


class OverOdd(InFolder):
    """Tests over a database of a server of their own, whose passwords are in the folder."""

    server: PrivateServer

    @classmethod
    def setUpClass(cls) -> None:
        cls.server = PrivateServer()
        cls.addClassCleanup(cls.server.stop)

    def setUp(self) -> None:
        super().setUp()
        self.passwords = self.folder / ".pgpass"
        self.addCleanup(self.server.psql, "DROP ROLE IF EXISTS cophy_advisor")
        self.make("odd")

    def make(self, name: str, owner: str = "cophy") -> None:
        quoted = '"' + name.replace('"', '""') + '"'
        self.server.psql(f"CREATE DATABASE {quoted} OWNER {owner}")
        self.addCleanup(self.server.psql, f"DROP DATABASE {quoted} WITH (FORCE)")

    def call(self, *words: str, status: int = 0) -> subprocess.CompletedProcess[str]:
        """A call of `setup` that ends with a status."""
        ran = called(self.server, "setup", *words, "--psql", superuser(self.server), database="", HOME=str(self.folder))
        self.assertNotIn("Traceback", ran.stderr)
        self.assertEqual(ran.returncode, status, ran.stdout + ran.stderr)
        return ran

    def undone(self, database: str = "odd", status: int = 0) -> list[str]:
        """What an undoing prints."""
        return self.call("--undo", database, status=status).stdout.splitlines()


@unittest.skipIf(NO_HYPOPG, NO_HYPOPG)
class Undo(OverOdd):
    def test_all_is_as_it_was_before(self) -> None:
        before = self.server.value(STATE, "odd")
        self.call("odd")
        self.assertNotEqual(self.server.value(STATE, "odd"), before)
        line = f"{self.server.folder}:5432:*:cophy_advisor:".encode()
        others = b"# mine\r\n*:*:*:me:a\x0bb\xff\nlocalhost:5432:*:cophy_advisor:c\n*:*:*:cophy_advisor:d"
        self.passwords.write_bytes(line + b"old\n" + others)
        self.passwords.chmod(0o400)
        self.assertEqual(self.undone(), [f"{ALL_GONE}, its line in {self.passwords}", INDEXES])
        # The database's own list of rights is written out once one was given.
        self.assertEqual(self.server.value(STATE, "odd").partition(" {")[0], before)
        self.assertEqual(self.server.value("SELECT has_database_privilege('public', 'odd', 'CONNECT')"), "t")
        self.assertEqual(self.passwords.read_bytes(), others)
        self.assertEqual(stat.S_IMODE(self.passwords.stat().st_mode), 0o400)
        self.assertEqual(self.undone(), ["Nothing that setup made is in 'odd'."])

    def test_it_is_not_counted(self) -> None:
        self.make("watch")
        self.server.psql("CREATE EXTENSION pg_stat_statements; SELECT pg_stat_statements_reset()", "watch")
        self.call("odd")
        self.undone()
        seen = (
            "SELECT count(*) FROM pg_stat_statements WHERE query ~ 'REVOKE|DROP|pg_shdepend' AND query !~ 'IF EXISTS'"
        )
        self.assertEqual(self.server.value(seen, "watch"), "0")

    def test_a_role_that_another_database_knows_stays_until_that_is_undone(self) -> None:
        self.make("it's")
        self.server.psql('REVOKE CONNECT ON DATABASE "it\'s" FROM PUBLIC')
        self.call("odd")
        self.call("it's")
        first, second, last = self.undone(status=1)
        extensions = ALL_GONE.rpartition(", ")[0]
        self.assertEqual(first, f"{extensions}, the rights of cophy_advisor in this database")
        self.assertEqual(
            second,
            'stays: the role cophy_advisor, which other databases know, "it\'s": '
            + "cophy-pg setup --undo 'it'\"'\"'s'",
        )
        self.assertEqual(last, INDEXES)
        # There the role can do what it could.
        self.assertEqual(self.server.psql("SELECT 1", "it's", PGUSER="cophy_advisor").stdout, "1\n")
        self.assertEqual(self.undone("it's"), [ALL_GONE, INDEXES])
        self.assertEqual(self.server.value(ROLE), "0")

    def test_what_was_there_before_stays(self) -> None:
        self.server.psql("CREATE EXTENSION hypopg; CREATE SCHEMA counted", "odd")
        self.server.psql("CREATE EXTENSION pg_stat_statements SCHEMA counted", "odd")
        self.call("odd")
        kept = [
            "stays: the extension hypopg in the schema public, which setup did not make, or not mark: "
            "DROP EXTENSION hypopg;",
            "stays: the extension pg_stat_statements and its schema counted, which setup did not make, or not mark: "
            "DROP EXTENSION pg_stat_statements; DROP SCHEMA counted;",
        ]
        self.assertEqual(self.undone(), ["gone: the role cophy_advisor", *kept, INDEXES])
        self.assertEqual(self.server.value("SELECT count(*) FROM pg_extension", "odd"), "3")
        self.server.psql("".join(it.rpartition(": ")[2] for it in kept), "odd")

    def test_a_schema_with_a_table_of_somebody_else_stays(self) -> None:
        self.call("odd")
        self.server.psql("CREATE TABLE hypopg.mine (a int); CREATE VIEW v AS TABLE counted.pg_stat_statements", "odd")
        lines = self.undone(status=1)
        self.assertEqual(lines[0], "gone: the extension hypopg, the role cophy_advisor")
        self.assertIn("stays: the schema hypopg: ", lines[1])
        self.assertIn("table hypopg.mine depends on schema hypopg", lines[1])
        self.assertIn("stays: the extension pg_stat_statements: ", lines[2])
        self.assertIn("view public.v depends on view counted.pg_stat_statements", lines[2])
        self.assertEqual(lines[3:], [INDEXES])
        self.server.psql("TABLE hypopg.mine; TABLE v; DROP VIEW v; ALTER TABLE hypopg.mine SET SCHEMA public", "odd")
        gone = "gone: the schema hypopg, the extension pg_stat_statements and its schema counted"
        self.assertEqual(self.undone(), [gone, INDEXES])
        self.server.psql("TABLE mine", "odd")

    def test_what_the_role_owns_is_not_dropped(self) -> None:
        self.call("odd")
        self.server.psql("CREATE TABLE a (a int); CREATE TABLE b (a int)", "odd")
        self.server.psql("ALTER TABLE a OWNER TO cophy_advisor; ALTER TABLE b OWNER TO cophy_advisor", "odd")
        lines = self.undone(status=1)
        self.assertIn("the rights of cophy_advisor in this database", lines[0])
        self.assertEqual(lines[1:], ["stays: the role cophy_advisor: it owns table public.a and 1 more", INDEXES])
        self.server.psql("ALTER TABLE a OWNER TO cophy; DROP TABLE b; TABLE a", "odd")
        self.assertEqual(self.undone(), ["gone: the role cophy_advisor", INDEXES])

    def test_rights_that_others_gave_are_taken_and_a_policy_is_told(self) -> None:
        self.call("odd")
        self.server.psql(
            'CREATE SCHEMA "a\'b"; CREATE TABLE "a\'b"."c""d" (a int, b int);'
            'GRANT USAGE ON SCHEMA "a\'b" TO cophy_advisor; GRANT SELECT (a) ON "a\'b"."c""d" TO cophy_advisor;'
            "CREATE FUNCTION f(int) RETURNS int LANGUAGE sql AS 'SELECT 1'; GRANT EXECUTE ON FUNCTION f TO cophy_advisor;"
            "CREATE TYPE mood AS ENUM (); GRANT USAGE ON TYPE mood TO cophy_advisor;"
            "ALTER DEFAULT PRIVILEGES IN SCHEMA public GRANT SELECT ON TABLES TO cophy_advisor;"
            "ALTER DEFAULT PRIVILEGES GRANT USAGE ON TYPES TO cophy_advisor;"
            "CREATE TABLE t (a int); CREATE POLICY p ON t TO cophy_advisor",
            "odd",
        )
        self.assertEqual(
            self.undone(status=1)[1:],
            ["stays: the role cophy_advisor: policy p on table public.t in this database needs it", INDEXES],
        )
        self.server.psql("DROP POLICY p ON t", "odd")
        self.assertEqual(self.undone(), ["gone: the role cophy_advisor", INDEXES])

    def test_a_role_that_make_left_goes_too(self) -> None:
        self.server.psql("CREATE ROLE boss; CREATE ROLE cophy_maker LOGIN IN ROLE boss")
        self.addCleanup(self.server.psql, "DROP ROLE boss")
        words = [str(program("psql")), "-X", "-q"]
        given = self.server.environment("odd", PGUSER="cophy_maker")
        with subprocess.Popen(words, stdin=subprocess.PIPE, stdout=subprocess.PIPE, text=True, env=given) as busy:
            assert busy.stdin is not None and busy.stdout is not None
            busy.stdin.write("\\echo begun\n")
            busy.stdin.flush()
            busy.stdout.readline()
            self.assertEqual(self.undone(status=1)[0], "stays: the role cophy_maker: it has a session")
            busy.communicate("", timeout=60)
        self.assertEqual(self.undone(), ["gone: the role cophy_maker", INDEXES])
        self.assertEqual(self.server.value("SELECT count(*) FROM pg_roles WHERE rolname = 'boss'"), "1")

    def test_who_is_no_superuser_is_refused(self) -> None:
        self.call("odd")
        self.server.psql("CREATE ROLE you LOGIN")
        self.addCleanup(self.server.psql, "DROP ROLE you")
        psql = superuser(self.server).removesuffix("cophy") + "you"
        ran = called(self.server, "setup", "--undo", "odd", "--psql", psql, database="", HOME=str(self.folder))
        self.assertEqual((ran.returncode, ran.stdout), (1, ""))
        self.assertIn("only a superuser may run this", ran.stderr)
        self.assertEqual(self.server.value(ROLE), "1")


@unittest.skipIf(NO_HYPOPG, NO_HYPOPG)
class Attacks(OverPrey):
    """The owner of a database plants what a superuser who undoes a setup there might run, or drop."""

    def setUp(self) -> None:
        super().setUp()
        self.make_database("bait", owner="app")
        as_app(self.server, "CREATE SCHEMA evil", "bait")

    def run_as_superuser(self, *words: str, database: str = "bait") -> subprocess.CompletedProcess[str]:
        more = ("--psql", superuser(self.server))
        ran = called(self.server, "setup", database, *words, *more, database="", HOME=str(self.folder))
        self.assertNotIn("Traceback", ran.stderr)
        return ran

    def test_nothing_that_is_planted_runs(self) -> None:
        """Functions and operators stand in the place of PostgreSQL's own, before these on the path of the database."""
        self.addCleanup(self.server.psql, ADVISOR.read_text(), "prey")
        settings = {"standard_conforming_strings": "off", "default_transaction_read_only": "on"}
        for name, value in settings.items():
            as_app(self.server, f"ALTER DATABASE prey SET {name} TO {value}", "postgres")
        ran = self.run_as_superuser("--undo", database="prey")
        for name in settings:
            as_app(self.server, f"ALTER DATABASE prey RESET {name}", "postgres")
        self.assertIn("gone: the extension hypopg and its schema hypopg", ran.stdout, ran.stderr)
        self.assertIn("stays: the extension pg_stat_statements in the schema public, ", ran.stdout)
        self.assertFalse(self.marks())

    def test_an_event_trigger_of_others_ends_it(self) -> None:
        self.run_as_superuser()
        body = "RETURNS event_trigger LANGUAGE plpgsql AS $$ BEGIN ALTER ROLE app SUPERUSER; END $$"
        as_app(self.server, f"CREATE FUNCTION evil.fires() {body}", "bait")
        self.server.psql("CREATE EVENT TRIGGER fires ON sql_drop EXECUTE FUNCTION evil.fires()", "bait")
        ran = self.run_as_superuser("--undo")
        self.assertEqual((ran.returncode, ran.stdout), (1, ""))
        self.assertIn("an event trigger runs a function that no superuser owns", ran.stderr)
        self.assertFalse(self.marks())

    def test_a_lock_that_others_hold_is_waited_for_no_longer_than_5_seconds(self) -> None:
        self.run_as_superuser()
        words = [str(program("psql")), "-X", "-q"]
        given = self.server.environment("bait", PGUSER="app")
        with subprocess.Popen(words, stdin=subprocess.PIPE, stdout=subprocess.PIPE, text=True, env=given) as holder:
            assert holder.stdin is not None and holder.stdout is not None
            holder.stdin.write("BEGIN; SELECT count(*) FROM counted.pg_stat_statements;\n\\echo held\n")
            holder.stdin.flush()
            while "held\n" not in holder.stdout.readline():
                pass
            lines = self.run_as_superuser("--undo").stdout.splitlines()
            holder.communicate("ROLLBACK;\n", timeout=60)
        self.assertIn("stays: the extension pg_stat_statements: canceling statement due to lock timeout", lines)
        self.assertIn("the extension hypopg and its schema hypopg", lines[0])

    def test_a_right_of_another_grantor_keeps_the_role(self) -> None:
        self.run_as_superuser()
        as_app(self.server, "CREATE TABLE evil.t (a int)", "bait")
        self.server.psql("CREATE ROLE other LOGIN", "bait")
        self.addCleanup(self.server.psql, "DROP ROLE other")
        self.addCleanup(as_app, self.server, "DROP SCHEMA evil CASCADE", "bait")
        as_app(
            self.server,
            "GRANT SELECT ON evil.t TO other WITH GRANT OPTION; GRANT USAGE ON SCHEMA evil TO other",
            "bait",
        )
        self.server.psql("GRANT SELECT ON evil.t TO cophy_advisor", "bait", PGUSER="other")
        lines = self.run_as_superuser("--undo").stdout.splitlines()
        self.assertIn("stays: the role cophy_advisor: table evil.t in this database needs it", lines)

    def test_a_schema_of_others_with_the_comment_stays(self) -> None:
        mark = "'made by cophy-pg setup'"
        as_app(self.server, f"CREATE SCHEMA counted; COMMENT ON SCHEMA counted IS {mark}", "bait")
        self.server.psql("CREATE EXTENSION hypopg SCHEMA evil", "bait")
        as_app(self.server, f"CREATE SCHEMA hypopg; COMMENT ON SCHEMA hypopg IS {mark}", "bait")
        self.run_as_superuser()
        lines = self.run_as_superuser("--undo").stdout.splitlines()
        told = "stays: the extension {} in the schema {}, which setup did not make, or not mark: DROP EXTENSION {};"
        self.assertIn(told.format("hypopg", "evil", "hypopg"), lines)
        self.assertIn(told.format("pg_stat_statements", "counted", "pg_stat_statements"), lines)
        there = "SELECT count(*) FROM pg_namespace WHERE nspname IN ('hypopg', 'counted')"
        self.assertEqual(self.server.value(there, "bait"), "2")

    def test_names_forge_no_line(self) -> None:
        self.run_as_superuser()
        name = '"x\n[""gone"", ""all""]\n\x1b[2J"'
        as_app(self.server, f"CREATE TABLE evil.{name} (a int)", "bait")
        as_app(self.server, f"ALTER TABLE evil.{name} ENABLE ROW LEVEL SECURITY", "bait")
        as_app(self.server, f"CREATE POLICY p ON evil.{name} TO cophy_advisor", "bait")
        ran = self.run_as_superuser("--undo")
        self.assertEqual(ran.returncode, 1, ran.stderr)
        self.assertNotIn("\x1b", ran.stdout + ran.stderr)
        self.assertFalse([it for it in ran.stdout.splitlines() if it.startswith(("[", "gone: all"))])
        as_app(self.server, "DROP SCHEMA evil CASCADE", "bait")


class Line(InFolder):
    """The line of the file of passwords."""

    def test_a_link_is_not_written_through_and_no_file_is_none(self) -> None:
        from cophy_pg.passwords import forget
        from cophy_text.files import NoFile

        name = self.folder / "pass"
        with mock.patch.dict(os.environ, {"PGPASSFILE": str(name)}):
            self.assertEqual(forget("localhost", "5432"), "")
            (self.folder / "there").write_text("localhost:5432:*:cophy_advisor:a\n")
            name.symlink_to(self.folder / "there")
            with self.assertRaises(NoFile):
                forget("localhost", "5432")
            self.assertEqual(forget("localhost", "5433"), "")
        self.assertEqual((self.folder / "there").read_text(), "localhost:5432:*:cophy_advisor:a\n")

    @unittest.skipIf(os.geteuid(), "only root may give a file to another user")
    def test_root_leaves_it_with_its_owner(self) -> None:
        from cophy_pg.passwords import forget

        name = self.folder / "pass"
        name.write_text("::*:cophy_advisor:a\nlocalhost:5432:*:cophy_advisor:a\n")
        name.chmod(0o600)
        os.chown(name, 12345, 54321)
        with mock.patch.dict(os.environ, {"PGPASSFILE": str(name)}):
            self.assertEqual(forget("localhost", "5432"), str(name))
        found = name.stat()
        self.assertEqual((found.st_uid, found.st_gid, stat.S_IMODE(found.st_mode)), (12345, 54321, 0o600))
        self.assertEqual(name.read_text(), "::*:cophy_advisor:a\n")


if __name__ == "__main__":
    unittest.main()
