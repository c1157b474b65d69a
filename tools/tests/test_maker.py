"""`make`: the indexes of a folder, made as the owner of their tables."""
from __future__ import annotations

import argparse
import json
import os
import pty
import shlex
import signal
import subprocess
import time
import unittest
from typing import Any
from unittest import mock

from fixtures import MISSING, TOOL, OverOwn
from patience import LONG, until
from private_server import program


def row(at: int, owner: str | None = "boss", caveat: str | None = None, **more: Any) -> dict[str, Any]:
    """A pick of a document."""
    given = {
        "table": "t",
        "columns": [f"c{at}"],
        "statements": [f"CREATE INDEX i{at};"],
        "owner": owner,
        "caveat": caveat,
    }
    return given | {"notes": [], "stored_pages": 128, "build_seconds": 2.0, "clustered": False, "number": at} | more


def document(*picks: dict[str, Any], **more: Any) -> dict[str, Any]:
    """A document with picks."""
    given = {"owners": ["boss"], "host": "localhost", "port": 5433, "database": "a b", "picks": [*picks]}
    return given | more


def words(**more: Any) -> argparse.Namespace:
    """The words of a call."""
    given = {"only": [], "without": [], "is_all": False, "undo": False, "psql": None, "is_owner": False}
    return argparse.Namespace(**given | more)


class Chosen(unittest.TestCase):
    """Which numbers are made, and how the script is told."""

    def asked(self, *picks: dict[str, Any], **more: Any) -> tuple[list[int], str]:
        from cophy_pg.maker import _chosen, _variables

        places = [at for at, _ in _chosen(document(*picks), words(**more))]
        return places, " ".join(_variables(document(*picks), places, words(**more)))

    def test_it_is_what_is_recommended_unless_numbers_or_words_say_else(self) -> None:
        picks = [row(1), row(2), row(3, caveat="it saves little"), row(4, caveat="it saves little")]
        table: list[tuple[dict[str, Any], list[int], str]] = [
            ({}, [1, 2], ""),
            ({"without": [2]}, [1], "-v without=2"),
            ({"is_all": True}, [1, 2, 3, 4], "-v all=1"),
            ({"is_all": True, "without": [3]}, [1, 2, 4], "-v all=1 -v without=3"),
            ({"only": [2]}, [2], "-v without=1"),
            ({"only": [1, 4]}, [1, 4], "-v all=1 -v without=2,3"),
            ({"only": [1, 2], "without": [1]}, [2], "-v without=1"),
            ({"undo": True}, [1, 2, 3, 4], "-v undo=1"),
            ({"undo": True, "only": [3]}, [3], "-v undo=1 -v without=1,2,4"),
        ]
        for given, places, variables in table:
            self.assertEqual(self.asked(*picks, **given), (places, variables), given)
        self.assertEqual(self.asked(picks[2]), ([], ""))

    def test_a_number_that_isnt_there_is_refused(self) -> None:
        from cophy_pg.inputs import NoInput

        for given in ({"only": [3]}, {"without": [0]}):
            with self.assertRaisesRegex(NoInput, "there is no index [03]: they are 1 to 2"):
                self.asked(row(1), row(2), **given)


class Told(unittest.TestCase):
    """What a person sees before anything is done."""

    def told(self, *picks: dict[str, Any], given: dict[str, Any] | None = None, **more: Any) -> list[str]:
        from cophy_pg.maker import _owners, _told

        found, rows = document(*picks, **given or {}), [*enumerate(picks, 1)]
        with mock.patch("getpass.getuser", return_value="you"):
            return _told(found, rows, _owners(found, rows), words(**more))

    def test_the_statements_the_size_the_time_and_the_role(self) -> None:
        self.assertEqual(
            self.told(row(1), row(2, statements=["CREATE INDEX \x1b[2J;", "ANALYZE t;"])),
            [
                "  1. CREATE INDEX i1;",
                "  2. CREATE INDEX ?[2J;",
                "  2. ANALYZE t;",
                "2.0 MB, about 4 seconds, reads and writes go on; database 'a b' as cophy_maker, which "
                "'sudo -u postgres psql' makes a member of their owner boss, and then drops.",
            ],
        )
        self.assertEqual(
            self.told(row(1), row(2, owner="root"), undo=True),
            [
                "  1. t(c1)",
                "  2. t(c2)",
                "Of these what was made; database 'a b' as cophy_maker, which 'sudo -u postgres psql' makes a member of "
                "their owner boss, and then drops; as their owner root.",
            ],
        )
        self.assertIn("CLUSTER locks its table, readers too", self.told(row(1, clustered=True))[-1])
        lines = self.told(*(row(at) for at in range(1, 31)))
        self.assertEqual(lines[20:-1], ["and 10 more"])

    def test_where_no_role_is_made_it_is_the_owner(self) -> None:
        far = {"host": "elsewhere"}
        table: list[tuple[dict[str, Any], dict[str, Any], str]] = [
            (far, {}, "as their owner boss."),
            ({}, {"is_owner": True}, "as their owner boss."),
            (
                far,
                {"psql": "psql -h elsewhere -U admin"},
                "as cophy_maker, which 'psql -h elsewhere -U admin' makes a member",
            ),
        ]
        for given, more, wanted in table:
            self.assertIn(wanted, self.told(row(1), given=given, **more)[-1])

    def test_whose_tables_they_are_has_to_be_known(self) -> None:
        from cophy_pg.inputs import NoInput

        with self.assertRaisesRegex(NoInput, "who owns the tables"):
            self.told(row(1, owner=None), given={"owners": []})


class After(unittest.TestCase):
    """What is told once all is made, or taken back."""

    def test_tables_to_vacuum_are_named_with_the_indexes_that_this_helps(self) -> None:
        from cophy_pg.folder import Folder
        from cophy_pg.maker import _end

        alone: dict[str, Any] = {"notes": ["so VACUUM often"]}
        rows = [(1, row(1, **alone)), (2, row(2)), (3, row(3, path="s.u", **alone))]
        found, kept = document(*(it for _, it in rows)), Folder("/a b")
        end = ["whether it helped: cophy-pg effect '/a b'", "to take them back: cophy-pg make '/a b' --undo"]
        first = "VACUUM of s.u and t soon: plans read 1 and 3 without the table where it has marked pages"
        self.assertEqual(_end(found, kept, rows, False).splitlines(), [first, *end])
        self.assertEqual(_end(found, kept, rows[1:2], False).splitlines(), end)
        self.assertEqual(_end(found, kept, rows, True), "to make them again: cophy-pg make '/a b'")


class Connected(unittest.TestCase):
    """How psql is called."""

    def called(self, owner: str, **more: Any) -> str:
        from cophy_pg.maker import _connected

        given = document(row(1), owners=[owner], **more)
        with mock.patch("getpass.getuser", return_value="you"), _connected(given, owner, words()) as (
            psql,
            environment,
        ):
            self.assertFalse({"PGHOST", "PGOPTIONS", "PGSERVICE"} & {*environment})
            return shlex.join(psql)

    def test_who_is_a_user_here_runs_it_and_elsewhere_its_password_is_asked_for(self) -> None:
        with mock.patch.dict("os.environ", {"PGHOST": "x", "PGOPTIONS": "-c role=x", "PGSERVICE": "x"}):
            self.assertEqual(self.called("root"), "sudo -u root psql -X -p 5433 -d 'a b'")
            self.assertEqual(self.called("root", host="/run/db"), "sudo -u root psql -X -p 5433 -d 'a b' -h /run/db")
            self.assertEqual(self.called("boss", host="far"), "psql -X -p 5433 -d 'a b' -h far -U boss")

    def test_another_user_gets_no_password_of_ours(self) -> None:
        from cophy_pg.maker import _connected

        for who, kept in (("you", set()), ("root", {"PGPASSWORD", "PGSSLMODE"})):
            with mock.patch.dict("os.environ", {"PGPASSWORD": "secret", "PGSSLMODE": "require"}), mock.patch(
                "getpass.getuser", return_value=who
            ), _connected(document(row(1), owners=["root"]), "root", words()) as (_, environment):
                self.assertEqual({it for it in environment if it.startswith("PG")}, kept)

    def test_words_that_cant_be_taken_apart_are_refused(self) -> None:
        from cophy_pg.inputs import NoInput
        from cophy_pg.superuser import Superuser

        with self.assertRaisesRegex(NoInput, "No closing quotation"):
            Superuser.of("psql 'x", "localhost", "5432")

    def test_a_database_is_no_connection(self) -> None:
        for name, word in (
            ("host=it's", """ -d 'dbname='"'"'host=it\\'"'"'s'"'"'' """),
            ("postgres://x", """ -d 'dbname='"'"'postgres://x'"'"'' """),
        ):
            self.assertIn(word, self.called("boss", host="far", database=name))


@unittest.skipIf(MISSING, MISSING)
class Made(OverOwn):
    """The whole way, over a folder of two picks."""

    database = "made_here"
    content = """CREATE TABLE t (a int, b int); INSERT INTO t SELECT i, i % 9 FROM generate_series(1, 900) i; ANALYZE t;
CREATE ROLE made_boss; ALTER TABLE t OWNER TO made_boss; GRANT ALL ON SCHEMA public TO made_boss;
"""

    def setUp(self) -> None:
        super().setUp()
        self.addCleanup(self.server.psql, "DROP INDEX IF EXISTS t_a_idx, t_b_idx", self.database)
        names = self.in_folder("catalogue.toml", "workload.sql", "q.sql")
        (self.folder / "q.sql").write_text("SELECT a FROM t WHERE b = 3;\n")
        self.call("export", *names[:2], "--sql", names[2])
        script = self.call("ddl", names[0], self.lay_advice(["t(a)", "t(b)"]), "--script").stdout
        (self.folder / "indexes.sql").write_text(script)
        picks = [
            row(
                at,
                owner="made_boss",
                table="t",
                columns=[name],
                name=f"t_{name}_idx",
                statements=[f"CREATE INDEX ON t({name});"],
            )
            for at, name in enumerate("ab", 1)
        ]
        where = {"host": str(self.server.folder), "port": 5432, "database": self.database, "owners": ["made_boss"]}
        (self.folder / "advice.json").write_text(json.dumps(document(*picks, version=1, **where)))
        self.psql = shlex.join([str(program("psql")), "-h", str(self.server.folder), "-U", "cophy"])

    def make(self, *more: str, status: int = 0) -> subprocess.CompletedProcess[str]:
        self.server.release(self.database)
        path = f"{os.path.dirname(str(program('psql')))}:{os.environ['PATH']}"
        return self.call("make", str(self.folder), "--psql", self.psql, *more, status=status, PATH=path)

    def there(self) -> str:
        found = "SELECT string_agg(relname, ' ' ORDER BY relname) FROM pg_class WHERE relname LIKE 't\\__\\_idx'"
        return self.server.value(found, self.database)

    def test_they_are_made_by_the_owner_and_taken_back_one_by_one(self) -> None:
        ran = self.make("--yes")
        self.assertEqual(self.there(), "t_a_idx t_b_idx")
        owner = "SELECT DISTINCT relowner::regrole FROM pg_class WHERE relname LIKE 't\\__\\_idx'"
        self.assertEqual(self.server.value(owner, self.database), "made_boss")
        lines = ran.stdout.splitlines()
        begin = [f"{self.folder}:", "  1. CREATE INDEX ON t(a);", "  2. CREATE INDEX ON t(b);"]
        self.assertEqual(lines[:3], begin)
        end = [
            f"whether it helped: cophy-pg effect {self.folder}",
            f"to take them back: cophy-pg make {self.folder} --undo",
        ]
        self.assertEqual(lines[-2:], end)
        self.assertIn("\n1: t(a), about ", ran.stdout)
        self.assertEqual(self.server.value("SELECT count(*) FROM pg_roles WHERE rolname = 'cophy_maker'"), "0")
        self.make("--undo", "--only", "2", "--yes")
        self.assertEqual(self.there(), "t_a_idx")
        self.make("--undo", "--yes")
        self.assertEqual(self.there(), "")
        self.make("--only", "2", "--yes")
        self.assertEqual(self.there(), "t_b_idx")

    def test_nothing_is_done_unless_a_person_says_so(self) -> None:
        ran = self.make(status=1)
        self.assertIn("nobody is there to be asked: --yes asks nothing", ran.stderr)
        self.assertEqual(self.there(), "")
        for answer, wanted in (("n", ""), ("", ""), ("y", "t_a_idx")):
            ours, theirs = pty.openpty()
            path = f"{os.path.dirname(str(program('psql')))}:{os.environ['PATH']}"
            given = [str(TOOL), "make", str(self.folder), "--psql", self.psql, "--only", "1"]
            with subprocess.Popen(
                given, stdin=theirs, stdout=subprocess.PIPE, text=True, env={**os.environ, "PATH": path}
            ) as ran_:
                os.write(ours, f"{answer}\n".encode())
                said, _ = ran_.communicate(timeout=LONG)
            os.close(ours)
            os.close(theirs)
            self.assertEqual((self.there(), ran_.returncode), (wanted, 0 if wanted else 1), said)
            self.assertEqual("Nothing was changed." in said, not wanted)

    def test_a_script_that_was_changed_isnt_run(self) -> None:
        text = (self.folder / "indexes.sql").read_text()
        (self.folder / "indexes.sql").write_text(text.replace('("a")', '("b")'))
        ran = self.make("--yes", status=1)
        self.assertIn("indexes.sql isn't as advise wrote it", ran.stderr)
        (self.folder / "indexes.sql").write_text(f"-- looked at\n{text}")
        self.make("--yes")
        self.assertEqual(self.there(), "t_a_idx t_b_idx")

    def test_what_is_shown_is_what_is_run(self) -> None:
        found = json.loads((self.folder / "advice.json").read_text())
        found["picks"].reverse()
        (self.folder / "advice.json").write_text(json.dumps(found))
        for more in ((), ("--undo",), ("--only", "2")):
            self.assertIn("indexes.sql isn't of this advice, where ", self.make("--yes", *more, status=1).stderr)
        self.assertEqual(self.there(), "")

    def test_what_others_may_change_isnt_run(self) -> None:
        for it in (self.folder, self.folder / "indexes.sql"):
            mode = it.stat().st_mode
            it.chmod(mode | 0o020)
            self.assertIn("belongs to others, or others may write to it", self.make("--yes", status=1).stderr)
            it.chmod(mode)
            if os.geteuid() == 0:
                os.chown(it, 65534, -1)
                self.assertIn("belongs to others, or others may write to it", self.make("--yes", status=1).stderr)
                os.chown(it, 0, -1)
        self.assertEqual(self.there(), "")

    def test_a_fault_has_the_status_1(self) -> None:
        self.server.psql("ALTER TABLE t OWNER TO cophy", self.database)
        self.addCleanup(self.server.psql, "ALTER TABLE t OWNER TO made_boss", self.database)
        self.assertIn("only the owner of the tables may make indexes", self.make("--yes", status=1).stderr)

    def test_streams_that_are_closed_change_nothing(self) -> None:
        path = f"{os.path.dirname(str(program('psql')))}:{os.environ['PATH']}"
        called = shlex.join([str(TOOL), "make", str(self.folder), "--psql", self.psql])
        for more, wanted in ((" --yes >&-", "t_a_idx t_b_idx"), (" --undo --yes <&- >&- 2>&-", "")):
            ran = subprocess.run(called + more, shell=True, env={**os.environ, "PATH": path}, timeout=LONG, check=False)
            self.assertEqual((ran.returncode, self.there()), (0, wanted))
            self.server.release(self.database)
        asked = subprocess.run(called + " <&-", shell=True, capture_output=True, text=True, timeout=LONG, check=False)
        self.assertEqual((asked.returncode, self.there()), (1, ""))
        self.assertIn("nobody is there to be asked", asked.stderr)

    def test_where_nothing_is_recommended_nothing_is_made(self) -> None:
        found = json.loads((self.folder / "advice.json").read_text())
        for it in found["picks"]:
            it["caveat"] = "it saves 0.4 %"
        (self.folder / "advice.json").write_text(json.dumps(found))
        self.assertEqual(self.make("--yes", status=3).stdout, "No index is recommended: --all makes the others.\n")
        self.make("--all", "--yes")
        self.assertEqual(self.there(), "t_a_idx t_b_idx")

    def test_what_is_broken_off_leaves_no_role(self) -> None:
        held = "BEGIN; LOCK t; SELECT 'held'; SELECT pg_sleep(600);"
        path = f"{os.path.dirname(str(program('psql')))}:{os.environ['PATH']}"
        given = [str(TOOL), "make", str(self.folder), "--psql", self.psql, "--yes"]
        holder = [str(program("psql")), "-X", "-c", held]
        with subprocess.Popen(holder, env=self.server.environment(self.database), stdout=subprocess.DEVNULL) as locked:
            locks = "SELECT count(*) FROM pg_locks WHERE relation = 't'::regclass AND mode = 'AccessExclusiveLock'"
            until(lambda: self.server.value(locks, self.database) == "1", "the table is locked")
            # Who is impatient types Ctrl-C again, which reaches what takes the role away too.
            for sent, times in ((signal.SIGINT, 1), (signal.SIGINT, 4), (signal.SIGTERM, 1)):
                how: dict[str, Any] = {
                    "stdout": subprocess.DEVNULL,
                    "stderr": subprocess.PIPE,
                    "text": True,
                    "start_new_session": True,
                }
                # Who runs without a terminal may pass over some of these, and so would whom he starts.
                how |= {"preexec_fn": lambda: signal.signal(signal.SIGINT, signal.SIG_DFL)}
                with subprocess.Popen(given, env={**os.environ, "PATH": path}, **how) as ran:
                    waiting = "SELECT count(*) FROM pg_stat_activity WHERE usename = 'cophy_maker' AND wait_event_type = 'Lock'"
                    until(lambda: self.server.value(waiting) == "1", "the index waits for the lock")
                    for _ in range(times):
                        os.killpg(ran.pid, sent)
                        time.sleep(0.02)
                    ran.communicate(timeout=LONG)
                self.assertNotEqual(ran.returncode, 0)
                self.assertEqual(
                    self.server.value("SELECT count(*) FROM pg_roles WHERE rolname = 'cophy_maker'"), "0", sent
                )
                until(lambda: self.server.value(waiting) == "0", "the server has ended it")
            self.server.psql(
                "SELECT pg_terminate_backend(pid) FROM pg_stat_activity WHERE query LIKE '%pg_sleep(600)%' AND "
                "pid <> pg_backend_pid()"
            )
            locked.wait(LONG)


if __name__ == "__main__":
    unittest.main()
