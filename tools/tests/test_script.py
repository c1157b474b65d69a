"""`cophy-pg ddl --script` and `--include`: the script run by psql, over tables of all kinds, and after faults."""
from __future__ import annotations

import os
import re
import signal
import subprocess
import unittest

from cophy_pg.included import searched_columns
from fixtures import MISSING, OverOwn
from patience import LONG, until
from private_server import program

TABLES = """CREATE TABLE plain (id int PRIMARY KEY, a int, b int, c text);
INSERT INTO plain SELECT i, i % 70, i % 9, 'c' || i FROM generate_series(1, 9000) i;
CREATE SCHEMA "Odd: 's";
CREATE TABLE "Odd: 's"."t\\x ""é" (":a" int, "b'\\c" int);
CREATE TABLE parted (day date, kind int, note text) PARTITION BY RANGE (day);
CREATE TABLE parted_old PARTITION OF parted FOR VALUES FROM ('2020-01-01') TO ('2021-01-01');
CREATE TABLE "parted_Ü" PARTITION OF parted FOR VALUES FROM ('2021-01-01') TO ('2022-01-01') PARTITION BY LIST (kind);
CREATE TABLE parted_one PARTITION OF "parted_Ü" FOR VALUES IN (1);
CREATE TABLE parted_rest PARTITION OF "parted_Ü" DEFAULT;
INSERT INTO parted SELECT date '2020-01-01' + i % 700, i % 3, 'n' FROM generate_series(1, 3000) i;
CREATE TABLE parent (id int, a int); CREATE TABLE child () INHERITS (parent);
INSERT INTO child SELECT i, i FROM generate_series(1, 900) i;
ANALYZE;
"""
PICKS = ("plain(a, b)", "Odd___s_t_x___(_a, b__c)", "parted(kind, day)", "parent(a)")
NAMES = """SELECT c.relname || CASE WHEN i.indisvalid THEN '' ELSE ' INVALID' END FROM pg_index i JOIN pg_class c ON c.oid = i.indexrelid
JOIN pg_namespace n ON n.oid = c.relnamespace WHERE n.nspname !~ '^pg_' AND c.relname <> 'plain_pkey' ORDER BY 1"""
QUERIES = """SELECT c, b FROM plain WHERE a = 3;
SELECT a FROM plain WHERE a > 5 AND c IS NOT NULL;
SELECT count(*) FROM parted WHERE kind = 3 GROUP BY day;
SELECT id FROM parent WHERE a = 4;
SELECT ":a" FROM "Odd: 's"."t\\x ""é" WHERE ":a" = 3;
"""


class Included(unittest.TestCase):
    def test_what_is_compared_joined_grouped_or_ordered_is_searched(self) -> None:
        text = b"""-- weight 5
SELECT x.read1, max(x.read2), any_of(x.read3) FROM t x JOIN u ON x.joined = u.other AND (x.compared = ? OR within IN (1, 2))
WHERE x.read4 IS NOT NULL AND any_of(read5, read6) AND "QUOTED" < 'text ORDER BY no' GROUP BY x.grouped ORDER BY ordered DESC;
UPDATE t SET read7 = 5, read8 = read9 WHERE found = 3; INSERT INTO t (read10) VALUES (?); SELECT read11 FROM t;"""
        wanted = {"joined", "other", "compared", "within", "quoted", "grouped", "ordered", "found"}
        self.assertEqual(searched_columns(text), wanted)


@unittest.skipIf(MISSING, MISSING)
class Script(OverOwn):
    database, content = "making", TABLES

    def setUp(self) -> None:
        super().setUp()
        self.files = self.in_folder("c.toml", "l.sql", "advice", "q.sql")
        (self.folder / "q.sql").write_text(QUERIES)
        self.call("export", *self.files[:2], "--sql", self.files[3])

    def script(self, picks: tuple[str, ...], *more: str) -> str:
        text = self.call("ddl", self.files[0], self.lay_advice(picks), "--script", *more).stdout
        self.assertTrue(text.isascii())
        return text

    def names(self) -> list[str]:
        return self.server.value(NAMES, "making").splitlines()

    def test_it_makes_all_makes_none_twice_and_takes_them_back(self) -> None:
        text = self.script(PICKS)
        said = self.run_script(text)
        self.assertRegex(said, r"\A1: plain\(a, b\), about 0\.1 MB, under a second\n2: .*\n3: .*\n4: .*\ndone\n\Z")
        # Each takes less than what the head says of all, which is said in whole seconds.
        self.assertRegex(text, r"\A-- \d steps, about [0-9.]+ MB of indexes and 1 second,")
        self.assertEqual(said.count(" MB, under a second\n"), 4, said)
        made = self.names()
        self.assertEqual(len(made), 4 + 4 + 1, made)
        self.assertFalse([it for it in made if it.endswith("INVALID")])
        shown = self.server.value("SELECT pg_get_indexdef('parted_kind_day_idx'::regclass)", "making")
        self.assertEqual(shown, "CREATE INDEX parted_kind_day_idx ON ONLY public.parted USING btree (kind, day)")
        count = "SELECT count(*) FROM pg_partition_tree('parted_kind_day_idx')"
        self.assertEqual(self.server.value(count, "making"), "5")
        self.assertEqual(self.run_script(text).count("it is there already"), 5)
        self.assertEqual(self.names(), made)
        self.server.psql("CREATE INDEX other ON plain (b)", "making")
        said = self.run_script(text, "-v", "undo=1")
        dropped = re.findall(r"^(\d): (\w+)_idx is dropped$", said, re.MULTILINE)
        self.assertEqual([dropped[0], *(it for it, _ in dropped)], [("1", "plain_a_b"), *"12344"])
        self.assertEqual(self.names(), ["other"])
        self.server.psql("DROP INDEX other", "making")

    def test_it_has_little_to_read(self) -> None:
        columns = ("a", "b", "c", "a, b", "b, a", "c, a", "a, b, c", "b, c")
        head, _, rest = self.script(tuple(f"plain({it})" for it in columns), "--unadvised", "8").partition("\n\n")
        listed = re.findall(r"^--   (.*)$", head, re.MULTILINE)
        self.assertEqual(len(listed), 7)
        self.assertIn('CREATE INDEX CONCURRENTLY "plain_c_a_idx" ON "public"."plain" ("c", "a");', listed)
        self.assertLessEqual(len(head.split()) - len(" ".join(listed).split()), 120)
        for it in (
            "7 steps",
            " MB of indexes",
            "CONCURRENTLY",
            "-v undo=1",
            "-v without=N,N",
            "-v all=1",
            "run it again",
        ):
            self.assertIn(it, head)
        same, _, indexes = rest.partition("\n-- The indexes\n")
        self.assertLess(len(same.split()), 1000)
        self.assertLessEqual(len(indexes.split()), 8 * 30 + 40)
        parts = indexes.split("\n\n")
        self.assertEqual([len(it.strip().splitlines()) for it in parts[:8]], [3] * 8)

    def test_a_superuser_makes_none_where_a_partition_is_anothers(self) -> None:
        text, before = self.script(("parted(kind, day)",)), self.names()
        self.server.psql("CREATE ROLE stranger; ALTER TABLE parted_one OWNER TO stranger", "making")
        self.addCleanup(self.server.psql, "ALTER TABLE parted_one OWNER TO cophy; DROP ROLE stranger", "making")
        said = self.run_script(text, status=3)
        self.assertIn("let their owner run the script, not a superuser", said)
        todo = "To make these indexes run it as stranger (psql -X -U), or as a role that is a member of it (GRANT)"
        self.assertIn(todo, said)
        self.assertEqual(self.names(), before)

    def test_each_owner_makes_what_is_his(self) -> None:
        text = self.script(("plain(a)", "parent(a)"))
        self.server.psql("CREATE ROLE stranger LOGIN; ALTER TABLE plain OWNER TO stranger", "making")
        self.server.psql("GRANT CREATE ON SCHEMA public TO stranger", "making")
        back = "ALTER TABLE plain OWNER TO cophy; DROP OWNED BY stranger; DROP ROLE stranger"
        self.addCleanup(self.server.psql, back, "making")
        self.assertIn("let their owner run the script, not a superuser", self.run_script(text, status=3))
        self.run_script(text, "-v", "without=1")
        self.assertIn("only the owner of the tables", self.run_script(text, status=3, PGUSER="stranger"))
        self.assertNotIn("joined", self.run_script(text, "-v", "without=2", PGUSER="stranger"))
        self.assertEqual(self.names(), ["child_a_idx", "parent_a_idx", "plain_a_idx"])
        self.run_script(text, "-v", "undo=1", "-v", "without=1")
        self.run_script(text, "-v", "undo=1", "-v", "without=2", PGUSER="stranger")
        self.assertEqual(self.names(), [])

    def test_who_joined_the_owner_is_told_what_ends_that(self) -> None:
        text = self.script(("plain(a)",))
        self.server.psql('CREATE ROLE boss; ALTER TABLE plain OWNER TO boss; CREATE ROLE "Me" LOGIN', "making")
        self.server.psql('GRANT CREATE ON SCHEMA public TO boss; GRANT boss TO "Me"', "making")
        back = 'ALTER TABLE plain OWNER TO cophy; DROP OWNED BY boss; DROP ROLE boss, "Me"'
        self.addCleanup(self.server.psql, back, "making")
        told = '\ndone; joined the owner for this alone? REVOKE boss FROM "Me"\n'
        self.assertIn(told, self.run_script(text, PGUSER="Me"))
        self.assertIn(told, self.run_script(text, "-v", "undo=1", PGUSER="Me"))

    def test_its_statements_are_none_of_the_workload(self) -> None:
        self.server.psql("CREATE EXTENSION pg_stat_statements; SELECT pg_stat_statements_reset()", "making")
        self.addCleanup(self.server.psql, "DROP EXTENSION pg_stat_statements", "making")
        text = self.script(PICKS)
        self.run_script(text)
        self.run_script(text, "-v", "undo=1")
        self.server.psql("SELECT b FROM plain WHERE a = 3", "making")
        self.call("export", *self.files[:2], "--report", *self.in_folder("report"))
        each = (self.folder / "report").read_text().partition("each statement,")[2].splitlines()[1:]
        self.assertTrue(any("SELECT b FROM plain" in it for it in each), each)
        self.assertEqual([it for it in each if re.search("INDEX|cophy_|DO '|SET |is_out|pg_index", it)], [])

    def test_who_owns_no_table_is_told_the_owner_at_once(self) -> None:
        text = self.script(("plain(a)", "parted(kind)"))
        said = self.run_script(text, status=3, PGUSER="cophy_advisor")
        self.assertIn("Run this script as cophy\n", said)
        self.assertIn("only the owner of the tables may make indexes on them", said)
        self.assertNotIn("1: plain", said)
        owner = 'odd "$$\\ é'.replace('"', '""')
        self.server.psql(f'CREATE ROLE "{owner}" LOGIN; ALTER TABLE plain OWNER TO "{owner}"', "making")
        self.addCleanup(self.server.psql, f'ALTER TABLE plain OWNER TO cophy; DROP ROLE "{owner}"', "making")
        said = self.run_script(self.script(("plain(a)",)), status=3, PGUSER="cophy_advisor")
        self.assertIn('Run this script as "odd ""$$\\ ?"\n', said)

    def test_one_is_left_out_by_its_number(self) -> None:
        text = self.script(("plain(a)", "plain(b)", "parent(a)"), "--order", "3,1,2")
        self.assertEqual(
            [*re.findall(r"^-- (\d\. \S+)$", text, re.MULTILINE)], ["1. parent(a)", "2. plain(a)", "3. plain(b)"]
        )
        said = self.run_script(text, "-v", "without=1, 3")
        self.assertRegex(said, r"\A2: plain\(a\), .*\nnot made: 1, 3\ndone\n\Z")
        self.assertEqual(self.names(), ["plain_a_idx"])
        self.run_script(text)
        self.assertEqual(len(self.names()), 4)
        self.run_script(text, "-v", "undo=1", "-v", "without=2")
        self.assertEqual(self.names(), ["plain_a_idx"])
        self.run_script(text, "-v", "undo=1")
        self.assertEqual(self.names(), [])

    def test_what_isnt_recommended_isnt_made_where_others_are_left_out(self) -> None:
        text = self.script(("plain(a)", "plain(b)", "plain(a, b)"), "--unadvised", "3")
        for words, made in (
            (("without=1",), ["plain_b_idx"]),
            (("without=2", "all=1"), ["plain_a_b_idx", "plain_a_idx", "plain_b_idx"]),
        ):
            self.run_script(text, *(word for it in words for word in ("-v", it)))
            self.assertEqual(self.names(), made)
        self.run_script(text, "-v", "undo=1")
        self.assertEqual(self.names(), [])

    def test_what_an_earlier_run_left_is_made_again(self) -> None:
        text = self.script(("plain(a, b)", "parted(kind)"))
        self.run_script(text)
        made = self.names()
        part = next(it for it in made if it.startswith("parted_one"))
        spoil = "UPDATE pg_index SET indisvalid = false WHERE indexrelid = '{}'::regclass"
        self.server.psql(spoil.format("plain_a_b_idx"), "making")
        self.server.psql("DROP INDEX parted_kind_idx", "making")
        self.server.psql(f'CREATE INDEX "{part}" ON parted_one (kind); {spoil.format(part)}', "making")
        self.assertIn(f"{part} INVALID", self.names())
        said = self.run_script(text)
        for what in ("it", "that of parted_one"):
            self.assertEqual(said.count(f"an earlier run left {what} INVALID, so it is dropped first\n"), 1, said)
        self.assertEqual(self.names(), made)
        self.server.psql("DROP INDEX parted_kind_idx", "making")
        self.server.psql(f'CREATE INDEX "{part}" ON parted_one (kind)', "making")
        self.run_script(text, "-v", "undo=1")
        self.assertEqual(self.names(), [])

    def test_a_lock_of_others_ends_it_and_is_told(self) -> None:
        text = self.script(("plain(a)", "plain(b)")).replace("'30min'", "'3s'")
        with self.held("UPDATE plain SET b = b WHERE id = 1"):
            said = self.run_script(text, status=3)
        self.assertIn("canceling statement due to lock timeout", said)
        self.assertIn("it is left INVALID: it serves no query", said)
        self.assertIn("the index plain(a) was not made: run the script again", said)
        self.assertEqual(self.names(), ["plain_a_idx INVALID"])
        self.run_script(text)
        self.assertEqual(self.names(), ["plain_a_idx", "plain_b_idx"])
        self.run_script(text, "-v", "undo=1")
        self.assertEqual(self.names(), [])

    def test_what_a_run_that_was_broken_off_left_is_made_again(self) -> None:
        text = self.script(("plain(a)", "plain(b)"))
        words = [str(program("psql")), "-X", "-f", "-"]
        given = self.server.environment("making", PGAPPNAME="broken")
        waits = "SELECT count(*) FROM pg_stat_activity WHERE application_name = 'broken' AND wait_event_type = 'Lock'"
        end = "SELECT pg_terminate_backend(pid) FROM pg_stat_activity WHERE application_name = 'broken'"
        for how in ("Ctrl-C", "the session ends"):
            with self.subTest(how=how), self.held("UPDATE plain SET b = b WHERE id = 1"):
                with subprocess.Popen(
                    words, stdin=subprocess.PIPE, stdout=subprocess.PIPE, stderr=subprocess.STDOUT, text=True, env=given
                ) as ran:
                    assert ran.stdin is not None
                    ran.stdin.write(text)
                    ran.stdin.close()
                    ran.stdin = None
                    until(lambda: self.server.value(waits, "making") == "1", "the script waits for the other session")
                    if how == "Ctrl-C":
                        ran.send_signal(signal.SIGINT)
                    else:
                        self.server.value(end, "making")
                    said, _ = ran.communicate(timeout=LONG)
                self.assertNotEqual(ran.returncode, 0, said)
                self.assertNotIn("done\n", said)
                self.assertEqual(self.names(), ["plain_a_idx INVALID"])
            said = self.run_script(text)
            self.assertIn(
                "1: plain(a), about 0.1 MB, under a second\nan earlier run left it INVALID, so it is dropped first\n",
                said,
            )
            self.assertEqual(self.names(), ["plain_a_idx", "plain_b_idx"])
            self.run_script(text, "-v", "undo=1")
            self.assertEqual(self.names(), [])

    def test_what_others_made_stays(self) -> None:
        text, other = self.script(("plain(a)", "plain(b)")), self.script(("plain(b)", "plain(a)", "parent(a)"))
        self.server.psql("CREATE INDEX plain_b_idx ON plain (b)", "making")
        self.run_script(text)
        said = self.run_script(other)
        self.assertEqual(said.count("it is there already"), 2)
        said = self.run_script(other, "-v", "undo=1")
        self.assertIn("1: plain_b_idx stays: this script did not make it\n", said)
        self.assertEqual(self.names(), ["plain_a_idx", "plain_b_idx"])
        mark = self.server.value("SELECT obj_description('plain_a_idx'::regclass)", "making")
        self.assertRegex(mark, r"\Acophy-pg, script [0-9a-f]{12}\Z")
        self.run_script(text, "-v", "undo=1")
        self.assertEqual(self.names(), ["plain_b_idx"])
        self.server.psql("DROP INDEX plain_b_idx", "making")

    def test_a_script_in_which_more_than_a_comment_was_changed_is_known(self) -> None:
        from cophy_pg.script import is_unchanged

        text = self.script(("plain(a)", "parted(kind, day)"))
        self.assertTrue(is_unchanged(text))
        self.assertTrue(is_unchanged(text.replace("\n-- 1. ", "\n-- looked at\n-- 1. ")))
        # No literal and no name goes on over a line, so that no line of comment is within one.
        for line in (it for it in text.split("\n") if not it.startswith("--")):
            bare = line.partition(" -- ")[0]
            self.assertEqual([bare.count(it) % 2 for it in "'\""], [0, 0], line)
        begun = "DO 'BEGIN IF current_setting"
        self.assertIn(begun, text)
        for old, new in (
            (begun, begun.replace(" IF", "\n--'; \\! touch /tmp/x\nIF")),
            (begun, begun.replace(" IF", "\x0b-- \x0bIF")),
            ("\\set ON_ERROR_STOP on\n", "\\set ON_ERROR_STOP\non\n"),
            ("\\set QUIET on\n", "\\set QUIET on"),
            ("\n-- 1. ", "\n-- \0\n-- 1. "),
        ):
            self.assertIn(old, text)
            self.assertFalse(is_unchanged(text.replace(old, new, 1)), new)

    def test_what_is_not_recommended_is_made_where_that_is_asked_for(self) -> None:
        text = self.script(("plain(a)", "plain(b)", "parted(kind, day)"), "--unadvised", "2,3")
        self.assertIn("-- 2. plain(b): not recommended\n", text)
        said = self.run_script(text)
        self.assertRegex(said, r"\A1: .*\ndone\n\Z")
        self.assertRegex(self.run_script(text, "-v", "without=1"), r"\Anot made: 1\ndone\n\Z")
        self.assertEqual(self.names(), ["plain_a_idx"])
        self.assertNotIn("not made", self.run_script(text, "-v", "all=1"))
        self.assertEqual([it for it in self.names() if it.startswith("plain")], ["plain_a_idx", "plain_b_idx"])
        self.assertNotIn("not made", self.run_script(text, "-v", "undo=1"))
        self.assertEqual(self.names(), [])

    def test_a_name_that_another_index_has_is_left_alone(self) -> None:
        text = self.script(("plain(a)",))
        self.server.psql("CREATE INDEX plain_a_idx ON plain (c)", "making")
        self.assertIn("its name is taken by another", self.run_script(text, status=3))
        self.run_script(text, "-v", "undo=1")
        self.assertEqual(self.names(), ["plain_a_idx"])
        self.server.psql("DROP INDEX plain_a_idx", "making")

    def test_columns_that_are_only_read_are_included(self) -> None:
        text = self.script(("plain(a, b, c)", "parted(kind, day, note)"), "--include", self.files[1])
        self.assertIn('ON "public"."plain" ("a") INCLUDE ("b", "c");', text)
        self.run_script(text)
        shown = self.server.value("SELECT indexdef FROM pg_indexes WHERE indexname ~ '^parted_one'", "making")
        self.assertTrue(shown.endswith("USING btree (kind, day) INCLUDE (note)"), shown)
        self.assertEqual(self.run_script(text).count("it is there already"), 2)
        self.run_script(text, "-v", "undo=1")
        self.assertEqual(self.names(), [])

    def test_a_newer_catalogue_is_told(self) -> None:
        self.script(("plain(a)",))
        os.utime(self.files[2], (1, 1))
        ran = self.call("ddl", self.files[0], self.files[2])
        self.assertIn("the catalogue is newer than the advice", ran.stderr)
        self.assertIn("-- the catalogue is newer than the advice", ran.stdout)

    def test_estimates_go_by_a_rate(self) -> None:
        self.assertIn("about 0.1 MB, 90 seconds", self.script(("plain(a)",), "--rows-a-second", "100"))


if __name__ == "__main__":
    unittest.main()
