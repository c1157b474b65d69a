"""`cophy_maker`: the role that is a member of the owner of tables for as long as `make` runs a script."""
from __future__ import annotations

import signal
import subprocess
import unittest
from unittest import mock

from fixtures import MISSING, InFolder
from patience import LONG, until
from private_server import PrivateServer, program


@unittest.skipIf(MISSING, MISSING)
class Joined(InFolder):
    """The role is a member for as long as that is asked for."""

    def setUp(self) -> None:
        from cophy_pg.superuser import Superuser

        super().setUp()
        self.server = PrivateServer()
        self.addCleanup(self.server.stop)
        psql = [str(program("psql")), "-h", str(self.server.folder), "-U", "cophy"]
        self.superuser = Superuser(psql, {"PATH": "/usr/bin:/bin"})

    def roles(self) -> str:
        return self.server.value("SELECT string_agg(rolname, ' ' ORDER BY rolname) FROM pg_roles WHERE oid > 16000")

    def members(self) -> str:
        """Who is a member of whom, of roles that aren't PostgreSQL's own."""
        names = "member::regrole::text || ' of ' || roleid::regrole::text"
        return self.server.value(f"SELECT string_agg({names}, ' ') FROM pg_auth_members WHERE roleid > 16000")

    def logins(self) -> str:
        """The roles that may connect, but for PostgreSQL's own."""
        return self.server.value("SELECT string_agg(rolname, ' ') FROM pg_roles WHERE rolcanlogin AND oid > 16000")

    def test_it_is_gone_behind_it_whatever_the_owner_is_called(self) -> None:
        from cophy_pg.joined import joined

        for owner in (
            "boss",
            "b\"o's\\s $(x)",
            "b`x`)\\n%s :x \\c",
            'c\\0042 FROM d;ALTER ROLE "boss" SUPERUSER;--',
            "a{b}\nc",
            "b\u00f6\U0001f600ss",
        ):
            quoted = '"' + owner.replace('"', '""') + '"'
            self.server.psql(f"CREATE ROLE {quoted}")
            before = self.roles()
            with joined(self.superuser, owner):
                count = "SELECT count(*) FROM pg_auth_members WHERE roleid = '{}'::regrole"
                self.assertEqual(self.server.value(count.format(quoted.replace("'", "''"))), "1", owner)
                until = "SELECT rolvaliduntil < now() + interval '1 minute' AND rolconnlimit = 1 FROM pg_roles"
                self.assertEqual(self.server.value(f"{until} WHERE rolname = 'cophy_maker'"), "t")
            self.assertEqual((self.roles(), self.members()), (before, ""))
        self.assertEqual(self.server.value("SELECT rolsuper FROM pg_roles WHERE rolname = 'boss'"), "f")

    def test_a_fault_and_a_signal_leave_nothing(self) -> None:
        from cophy_pg.joined import joined
        from cophy_pg.main import Ended

        self.server.psql("CREATE ROLE boss")
        with self.assertRaises(Ended), joined(self.superuser, "boss"):
            raise Ended(signal.SIGINT)
        self.assertEqual(self.roles(), "boss")
        with self.assertRaises(Ended), joined(self.superuser, "boss"):
            # Ctrl-C ends the session of the superuser too.
            self.server.psql(
                "SELECT pg_terminate_backend(pid) FROM pg_stat_activity WHERE application_name = 'psql' AND "
                "pid <> pg_backend_pid()"
            )
            raise Ended(signal.SIGINT)
        self.assertEqual(self.roles(), "boss")

    def test_one_that_was_left_is_made_anew_and_one_that_is_at_work_stays(self) -> None:
        from cophy_pg.inputs import NoInput
        from cophy_pg.joined import joined

        self.server.psql("CREATE ROLE boss; CREATE ROLE other; CREATE ROLE cophy_maker LOGIN IN ROLE other")
        with joined(self.superuser, "boss"):
            self.assertEqual(self.members(), "cophy_maker of boss")
        self.server.psql("CREATE ROLE cophy_maker LOGIN IN ROLE other")
        sleeping = [str(program("psql")), "-X", "-c", "SELECT pg_sleep(600)"]
        with subprocess.Popen(
            sleeping, env=self.server.environment(PGUSER="cophy_maker"), stdout=subprocess.DEVNULL
        ) as ran:
            asked = "SELECT count(*) FROM pg_stat_activity WHERE usename = 'cophy_maker'"
            until(lambda: self.server.value(asked) == "1", "the session of another call is there")
            with self.assertRaisesRegex(NoInput, "did not make the role cophy_maker"), joined(self.superuser, "boss"):
                self.fail("another is at work")
            self.assertEqual(self.members(), "cophy_maker of other")
            # A server that is asked to stop waits for it.
            self.server.psql("SELECT pg_terminate_backend(pid) FROM pg_stat_activity WHERE usename = 'cophy_maker'")
            ran.wait(LONG)

    def test_an_owner_that_isnt_there_is_refused(self) -> None:
        from cophy_pg.inputs import NoInput
        from cophy_pg.joined import joined

        with self.assertRaises(NoInput), joined(self.superuser, "stranger"):
            self.fail("there is none")
        self.assertEqual(self.roles(), "")

    def test_what_the_owner_planted_keeps_it_without_any_right_and_that_is_told(self) -> None:
        from cophy_pg.joined import joined

        self.server.psql("CREATE ROLE boss; GRANT ALL ON SCHEMA public TO boss")
        with mock.patch("cophy_pg.joined.say") as said, joined(self.superuser, "boss"):
            self.server.psql("CREATE TABLE public.its_own ()", PGUSER="cophy_maker")
        self.assertIn("cophy_maker is left as a role", said.call_args[0][0])
        self.assertEqual(
            (self.members(), self.server.value("SELECT count(*) FROM pg_roles WHERE rolcanlogin AND oid > 16000")),
            ("", "0"),
        )

    def test_a_right_that_is_just_being_given_holds_nothing_up(self) -> None:
        from cophy_pg.joined import joined

        self.server.psql("CREATE ROLE boss; CREATE ROLE low LOGIN; GRANT TEMP ON DATABASE postgres TO low")
        held = "BEGIN; CREATE TEMP TABLE its_own (); GRANT SELECT ON its_own TO cophy_maker; SELECT pg_sleep(600)"
        waits = "SELECT pid FROM pg_stat_activity WHERE usename = 'low' AND query LIKE '%pg_sleep%' AND wait_event = 'PgSleep'"
        with mock.patch("cophy_pg.joined.say") as said, joined(self.superuser, "boss"):
            holder = subprocess.Popen(
                [str(program("psql")), "-X", "-c", held],
                env=self.server.environment(PGUSER="low"),
                stdout=subprocess.DEVNULL,
            )
            until(lambda: self.server.value(waits) != "", "the right is given")
        self.server.psql(f"SELECT pg_terminate_backend(({waits}))")
        holder.wait(LONG)
        self.assertIn("cophy_maker is left as a role", said.call_args[0][0])
        self.assertEqual((self.members(), self.logins()), ("", "low"))
        with joined(self.superuser, "boss"):
            self.assertEqual(self.members(), "cophy_maker of boss")

    def test_an_owner_who_is_called_otherwise_by_now_leaves_nothing(self) -> None:
        from cophy_pg.joined import joined

        self.server.psql("CREATE ROLE boss; CREATE ROLE other; GRANT ALL ON SCHEMA public TO boss")
        with joined(self.superuser, "boss"):
            self.server.psql("ALTER ROLE boss RENAME TO chief")
        self.assertEqual(self.roles(), "chief other")
        with mock.patch("cophy_pg.joined.say"), joined(self.superuser, "chief"):
            self.server.psql("CREATE TABLE public.its_own ()", PGUSER="cophy_maker")
            self.server.psql("ALTER ROLE chief RENAME TO boss; GRANT other TO cophy_maker")
        self.assertEqual((self.members(), self.logins()), ("", ""))

    def test_one_whose_comment_was_changed_is_told(self) -> None:
        from cophy_pg.joined import joined

        self.server.psql("CREATE ROLE boss")
        for change in ("COMMENT ON ROLE cophy_maker IS 'another'", "COMMENT ON ROLE cophy_maker IS NULL"):
            with mock.patch("cophy_pg.joined.say") as said, joined(self.superuser, "boss"):
                self.server.psql(change)
            self.assertIn("cophy_maker is left as a role", said.call_args[0][0])

    def test_what_is_said_of_a_script_that_was_broken_off_is_none_of_the_next(self) -> None:
        with self.superuser.session("postgres") as session:
            assert session.process.stdin is not None
            session.process.stdin.write("\\echo done\n")
            self.assertFalse(session.run("SELECT nothing;"))

    def test_a_password_that_planted_code_gives_it_serves_nobody_after_a_minute(self) -> None:
        from cophy_pg.joined import joined

        self.server.psql("CREATE ROLE boss")
        with joined(self.superuser, "boss"):
            self.server.psql("ALTER ROLE cophy_maker PASSWORD 'known'", PGUSER="cophy_maker")
            longer = "ALTER ROLE cophy_maker VALID UNTIL 'infinity'"
            self.assertNotEqual(self.server.psql(longer, check=False, PGUSER="cophy_maker").returncode, 0)
        self.assertEqual(self.roles(), "boss")


if __name__ == "__main__":
    unittest.main()
