"""`cophy-pg setup`: what a superuser's script makes and says, on a server that counts statements and on one that doesn't."""
from __future__ import annotations

import argparse
import base64
import hashlib
import hmac
import json
import os
import shlex
import socket
import stat
import subprocess
import unittest
from pathlib import Path
from unittest import mock

from fixtures import ADVISOR, NO_HYPOPG, STAND_IN, InFolder, called
from private_server import PrivateServer, program


@unittest.skipIf(NO_HYPOPG, NO_HYPOPG)
class Setup(InFolder):
    server: PrivateServer

    @classmethod
    def setUpClass(cls) -> None:
        cls.server = PrivateServer()
        cls.addClassCleanup(cls.server.stop)

    def setUp(self) -> None:
        super().setUp()
        self.server.psql("CREATE DATABASE odd")
        self.addCleanup(self.server.psql, "DROP DATABASE odd")

    def call(self, server: PrivateServer, *words: str, status: int = 0) -> subprocess.CompletedProcess[str]:
        superuser = shlex.join([str(program("psql")), "-h", str(server.folder), "-U", "cophy"])
        more = {"HOME": str(self.folder)}
        ran = called(server, "setup", *words, "--psql", superuser, database="", **more)
        self.assertNotIn("Traceback", ran.stderr)
        self.assertEqual(ran.returncode, status, ran.stderr)
        return ran

    def test_it_makes_all_and_prints_the_next_command(self) -> None:
        self.server.psql("CREATE TABLE t AS SELECT generate_series(1, 300000) AS a", "odd")
        ran = self.call(self.server, "odd")
        extensions = (
            "the extension hypopg and its schema hypopg, the extension pg_stat_statements and its schema counted"
        )
        begin = f"cophy-pg: made: (the role cophy_advisor, )?{extensions}\n"
        self.assertRegex(
            ran.stderr, begin + r"cophy-pg: statements have been counted for .* alone: a working day.*\n\Z"
        )
        first, command = ran.stdout.splitlines()
        self.assertEqual(first, "'odd' can be advised on, 1 statement is counted. Next:")
        begin, _, end = command.partition(" PGUSER=cophy_advisor ")
        self.assertEqual(begin, f"PGHOST={self.server.folder}")
        self.assertTrue(end.endswith("cophy-pg advise odd"), command)
        more = {"PGUSER": "", "COPHY_PROGRAM": str(STAND_IN)}
        found = str(self.folder / "found")
        # The command finds the role, and the budget.
        ran = called(self.server, "advise", "odd", "--folder", found, "--no-curve", database="", **more)
        self.assertIn("cophy-pg: the budget is 2.0 MB, 20.0 % of the tables; --budget takes another\n", ran.stderr)
        self.assertEqual(ran.returncode, 3, ran.stderr)
        self.assertEqual(json.loads((self.folder / "found" / "advice.json").read_text())["asked_pages"], 256)
        homes = "SELECT string_agg(e.extname || ' in ' || n.nspname, ', ' ORDER BY 1) FROM pg_extension e"
        homes += " JOIN pg_namespace n ON n.oid = e.extnamespace WHERE e.extname <> 'plpgsql'"
        self.assertEqual(self.server.value(homes, "odd"), "hypopg in hypopg, pg_stat_statements in counted")
        # Here each role connects without a password, so none is made.
        self.assertFalse((self.folder / ".pgpass").exists())
        again = self.call(self.server, "odd")
        self.assertEqual(again.stdout.splitlines()[1:], [command])
        self.assertNotIn("made:", again.stderr)

    def test_it_counts_as_advise_does_and_itself_not_at_all(self) -> None:
        other = PrivateServer()
        self.addCleanup(other.stop)
        other.psql("CREATE DATABASE odd")
        other.psql("CREATE TABLE t AS SELECT i AS a FROM generate_series(1, 9000) i; ANALYZE t", "odd")
        other.psql("CREATE SCHEMA counted; CREATE EXTENSION pg_stat_statements SCHEMA counted", "odd")
        other.psql("SELECT counted.pg_stat_statements_reset()", "odd")
        other.psql("SELECT a FROM t WHERE a = 3; SELECT a FROM t WHERE a > 3; SHOW work_mem", "odd")
        # That which began to count anew is counted too.
        ran = self.call(other, "odd")
        self.assertIn(", 3 statements are counted. Next:\n", ran.stdout)
        made = "cophy-pg: made: the role cophy_advisor, the extension hypopg and its schema hypopg\n"
        self.assertIn(made, ran.stderr)
        words = ("advise", "--budget", "9MB", "--folder", str(self.folder / "found"), "--no-curve")
        more = {"PGUSER": "cophy_advisor", "COPHY_PROGRAM": str(STAND_IN)}
        ran = called(other, *words, database="odd", **more)
        self.assertEqual(ran.returncode, 0, ran.stderr)
        details = (self.folder / "found" / "details.txt").read_text()
        self.assertIn(" database 'odd', 2 of 3 statements counted with ", details)
        own = "SELECT count(*) FROM counted.pg_stat_statements WHERE userid = 'cophy_advisor'::regrole"
        self.assertEqual(other.value(own, "odd"), "0")
        # Nor is an index in use for what the planner reads of it.
        other.psql("CREATE TABLE e AS SELECT i AS a FROM generate_series(1, 9000) i; ANALYZE e", "odd")
        other.psql("CREATE INDEX e_a ON e (a)", "odd")
        scans = "SELECT idx_scan FROM pg_stat_user_indexes WHERE indexrelname = 'e_a'"
        other.psql("EXPLAIN SELECT FROM e WHERE a > 8999", "odd", PGUSER="cophy_advisor")
        self.assertEqual(other.value(scans, "odd"), "0")
        other.psql("EXPLAIN SELECT FROM e WHERE a > 8999", "odd")
        self.assertEqual(other.value(scans, "odd"), "1")
        # What the role ran where it was counted is none of the workload either.
        other.psql("ALTER ROLE cophy_advisor RESET pg_stat_statements.track")
        other.psql("SELECT count(a) FROM t WHERE a < 7", "odd", PGUSER="cophy_advisor")
        self.assertNotEqual(other.value(own, "odd"), "0")
        names = self.in_folder("c.toml", "w.sql")
        ran = called(other, "export", *names, database="odd", PGUSER="cophy_advisor")
        self.assertEqual(ran.returncode, 0, ran.stderr)
        self.assertNotIn("count", (self.folder / "w.sql").read_text())

    def test_a_server_that_counts_nothing_is_told_with_the_lines_that_mend_it(self) -> None:
        other = PrivateServer(settings=("shared_preload_libraries=auto_explain",))
        self.addCleanup(other.stop)
        other.psql("CREATE DATABASE odd")
        ran = self.call(other, "odd", status=1)
        for line in (
            "The server counts no statements until pg_stat_statements is loaded.",
            """sudo -u postgres psql -p 5432 -c "ALTER SYSTEM SET shared_preload_libraries = 'auto_explain', 'pg_stat_statements'\"""",
            "sudo systemctl restart postgresql",
            "call this again when that is done",
        ):
            self.assertIn(line, ran.stderr)
        self.assertEqual(ran.stdout, "")
        said = other.psql(ADVISOR.read_text()).stderr
        self.assertIn("CREATE EXTENSION pg_stat_statements SCHEMA counted;", said)

    def test_faults_are_told(self) -> None:
        ran = self.call(self.server, "nowhere", status=1)
        self.assertIn("the server knows no such database: look at PGDATABASE; it has 'odd', 'postgres'", ran.stderr)
        self.assertNotIn("FATAL", ran.stderr)
        ran = self.call(self.server, status=1)
        self.assertIn("name the database", ran.stderr)


class Clusters(unittest.TestCase):
    def test_running_clusters_of_other_ports_are_listed(self) -> None:
        from cophy_pg.no_connection import clusters

        listed = "14 old 5432 online postgres /a /b\n15 main 5433 online,recovery postgres /a /b\n16 new 5434 down postgres /a /b\n"
        self.assertEqual(clusters(listed, "5432"), ["    the cluster 15/main runs: export PGPORT=5433"])


class Ports(InFolder):
    """The port is that of the only server that listens on a socket."""

    def listening(self, port: int) -> socket.socket:
        ours = socket.socket(socket.AF_UNIX)
        self.addCleanup(ours.close)
        ours.bind(str(self.folder / f".s.PGSQL.{port}"))
        ours.listen()
        return ours

    def port(self, **environment: str) -> tuple[str, str]:
        """The port that is taken, and what is said of it."""
        from cophy_pg.local import port_of

        with mock.patch.dict("os.environ", environment), mock.patch("cophy_pg.local.say") as said:
            if not environment:
                os.environ.pop("PGPORT", None)
            return port_of(str(self.folder)), said.call_args[0][0] if said.called else ""

    def test_it_is_that_of_the_only_server_unless_it_is_given(self) -> None:
        self.assertEqual(self.port(), ("5432", ""))
        (self.folder / ".s.PGSQL.5433.lock").touch()
        first = self.listening(5433)
        told = "the one server that runs here has port 5433 (PGPORT takes another)"
        self.assertEqual(self.port(), ("5433", told))
        self.assertEqual(self.port(PGPORT="5440"), ("5440", ""))
        second = self.listening(5434)
        self.assertEqual(self.port(), ("5432", ""))
        first.close()
        self.assertEqual(self.port()[0], "5434")
        second.close()
        self.assertEqual(self.port(), ("5432", ""))

    def test_of_another_machine_nothing_is_looked_for(self) -> None:
        from cophy_pg.local import port_of

        with mock.patch("cophy_pg.local.ports", return_value=["5433"]), mock.patch("cophy_pg.local.say"):
            with mock.patch.dict("os.environ"):
                os.environ.pop("PGPORT", None)
                self.assertEqual([port_of(it) for it in ("db.example", "::1")], ["5432", "5433"])


class Password(InFolder):
    def test_the_server_gets_what_cant_be_turned_back(self) -> None:
        from cophy_pg.setup import verifier_of

        kind, rounds, keys = verifier_of("secret").split("$")
        count, salt = rounds.split(":")
        stored, server = (base64.b64decode(it) for it in keys.split(":"))
        salted = hashlib.pbkdf2_hmac("sha256", b"secret", base64.b64decode(salt), int(count))
        self.assertEqual((kind, count), ("SCRAM-SHA-256", "4096"))
        self.assertEqual(stored, hashlib.sha256(hmac.digest(salted, b"Client Key", "sha256")).digest())
        self.assertEqual(server, hmac.digest(salted, b"Server Key", "sha256"))

    def test_it_stands_before_the_other_lines_in_the_place_of_the_last_one(self) -> None:
        from cophy_pg.passwords import keep

        name = Path(self.folder) / "pass"
        name.write_text("localhost:5432:*:cophy_advisor:old\n*:*:*:me:mine")
        with mock.patch.dict("os.environ", {"PGPASSFILE": str(name)}):
            keep("localhost", "5432", "new")
            keep("::1", "5433", "third")
        lines = [r"\:\:1:5433:*:cophy_advisor:third", "localhost:5432:*:cophy_advisor:new", "*:*:*:me:mine"]
        self.assertEqual(name.read_text().splitlines(), lines)
        self.assertEqual(stat.S_IMODE(name.stat().st_mode), 0o600)

    def test_a_share_of_the_tables_is_a_budget(self) -> None:
        from cophy_pg.amounts import FIFTH, Share, budget

        table = {0: 128, 250 * 2**20: 128 * 50, 100 * 2**30: 128 * 1024 * 20}
        self.assertEqual([FIFTH.pages(it) for it in table], [*table.values()])
        shares = {"20%": FIFTH, "7.5%": Share(7.5), "2MB": 256, "9": 9}
        self.assertEqual([budget(it) for it in shares], [*shares.values()])
        for it in ("0%", "%", "-1%", "a%", "12345%"):
            with self.assertRaises(argparse.ArgumentTypeError):
                budget(it)


if __name__ == "__main__":
    unittest.main()
