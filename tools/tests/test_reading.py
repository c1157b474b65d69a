"""What `cophy-pg` reads of statements that ran: logs, pg_stat_statements and the paths of roles."""
from __future__ import annotations

import json
import re
import subprocess
import unittest
from pathlib import Path

from fixtures import MISSING, NO_PARSER, OverShop
from patience import LONG
from private_server import program

if not NO_PARSER:
    from cophy_pg import inputs
    from cophy_pg.paths import Paths, schemas_of

MADE = """CREATE EXTENSION pg_stat_statements; CREATE SCHEMA one; CREATE SCHEMA deep;
CREATE TABLE thing (a int, b text); CREATE TABLE one.thing (a int, b text); CREATE TABLE deep.thing (a int, b text);
ALTER ROLE one IN DATABASE reading SET work_mem = '5MB';
INSERT INTO thing SELECT g, 'x' FROM generate_series(1, 100) g;
GRANT ALL ON SCHEMA public, one, deep TO one, two; GRANT ALL ON ALL TABLES IN SCHEMA public, one, deep TO one, two;
ANALYZE; SELECT pg_stat_statements_reset();
"""
# A role, and what it runs at once.
RAN = (
    ("one", "SELECT a FROM thing WHERE a = 1"),
    ("two", "SELECT a FROM thing WHERE a = 1"),
    ("cophy", "SELECT a FROM thing WHERE a = 1"),
    (
        "cophy",
        "EXPLAIN SELECT b FROM thing WHERE a = 5; SELECT b FROM thing WHERE a = 6; SELECT b FROM thing WHERE a = 7",
    ),
    ("cophy_advisor", "SELECT 1 AS own"),
    ("cophy", "VACUUM thing"),
    ("cophy", "COPY thing TO '/dev/null'; INSERT INTO thing SELECT g, 'y' FROM generate_series(1, 30) g"),
)


def as_csv(message: str, role: str = "u") -> str:
    """A row of a log."""
    before = f'2026-01-01,"{role}","d",7,"",1.1,1,"SELECT",2026-01-01,1/1,0,LOG,00000'
    return f'{before},"{message}",,,,,,,,,"psql","client backend",,0\n'


def as_json(message: str, **more: str) -> str:
    """A line of a log."""
    return json.dumps({"error_severity": "LOG", "message": message, **more}) + "\n"


@unittest.skipIf(NO_PARSER, NO_PARSER)
class Entries(unittest.TestCase):
    """Texts of pg_stat_statements, and logs."""

    def test_a_statement_within_explain_counts_where_calls_are_its_own(self) -> None:
        for text, rows, shown in (
            ("SELECT 1", False, "SELECT 1"),
            ("EXPLAIN SELECT a FROM t WHERE a = $1", False, "SELECT a FROM t WHERE a = $1"),
            ("explain (analyze, costs off)\nSELECT a FROM t", True, "SELECT a FROM t"),
            ("EXPLAIN ANALYZE VERBOSE SELECT a FROM t WHERE a = $1", True, "SELECT a FROM t WHERE a = $1"),
            ("EXPLAIN SELECT a FROM t WHERE a = 5", False, "EXPLAIN SELECT a FROM t WHERE a = 5"),
            ("PREPARE p (int) AS SELECT a FROM t WHERE a = $1", True, "SELECT a FROM t WHERE a = $1"),
            ("/* cophy-pg */ SELECT 1", True, None),
            (
                "/* cophy-pg */ EXPLAIN (FORMAT JSON) SELECT a FROM t WHERE a = $1",
                False,
                "SELECT a FROM t WHERE a = $1",
            ),
        ):
            with self.subTest(text=text):
                self.assertEqual(inputs.within(text, rows, True), shown)
        # From PostgreSQL 16 on EXPLAIN's own entry has numbers too.
        text = "EXPLAIN SELECT a FROM t WHERE a = $1"
        self.assertEqual(
            (inputs.within(text, False, False), inputs.within(text, True, False)),
            (text, "SELECT a FROM t WHERE a = $1"),
        )

    def test_logs_of_three_kinds_give_the_same(self) -> None:
        messages = [
            "duration: 1.500 ms  statement: SELECT *\nFROM t WHERE a = 1",
            "duration: 2.500 ms  execute S_1: SELECT * FROM t WHERE a = $1",
            "duration: 0.1 ms  parse S_1: SELECT * FROM t WHERE a = $1",
            "duration: 0.1 ms  bind S_1: SELECT * FROM t WHERE a = $1",
            "connection received: host=[local]",
            "statement: BEGIN",
            "duration: 3.0 ms",
            "statement: CALL p()",
        ]
        plain = "".join(
            f"2026-01-01 10:00:00.1 UTC [7] u@d LOG:  {it}\n".replace("\nFROM", "\n\tFROM") for it in messages
        )
        plain += "2026-01-01 10:00:00.1 UTC [7] u@d DETAIL:  parameters: $1 = 'secret'\n"
        for text in (plain, "".join(map(as_csv, messages)), "".join(map(as_json, messages))):
            with self.subTest(text=text[:30]):
                found = inputs.from_log(text.encode())
                self.assertEqual([(it.calls, it.seconds) for it in found], [(2, 0.004), (1, None)])
                self.assertEqual(found[0].text, "SELECT *\nFROM t WHERE a = 1")

    def test_commands_are_told_from_what_runs_queries(self) -> None:
        for text in (
            "VACUUM t",
            "/* x */ analyze t",
            "CHECKPOINT",
            "COMMIT",
            "SHOW a",
            "CREATE INDEX ON t (a)",
            "EXPLAIN SELECT 1",
        ):
            self.assertTrue(inputs.is_command(text), text)
        for text in (
            "SELECT 1",
            " (select 1) union select 2",
            "COPY t FROM STDIN",
            "-- x\nFETCH c",
            "CALL p()",
            "no SQL",
            "",
        ):
            self.assertFalse(inputs.is_command(text), text)
        self.assertFalse(inputs.is_command("CREATE TABLE u AS SELECT * FROM t"))

    def test_roles_of_a_log_are_kept(self) -> None:
        message, roles = "statement: SELECT a FROM t", ("one", "two", "one")
        for text in ("".join(as_csv(message, it) for it in roles), "".join(as_json(message, user=it) for it in roles)):
            found = inputs.from_log(text.encode())
            self.assertEqual([(it.role, it.calls) for it in found], [("one", 2), ("two", 1)])

    def test_odd_logs_are_read_as_far_as_they_go(self) -> None:
        good = as_csv("statement: SELECT a FROM t")
        for text in (good + '"open', good + "\x00\xff\n", good + "a,b\n" + good):
            self.assertEqual(inputs.from_log(text.encode("latin-1"))[0].text, "SELECT a FROM t")
        deep = as_json("statement: SELECT a FROM t") + "[" * 100000 + "\n{\n5\nnull\n"
        self.assertEqual(len(inputs.from_log(deep.encode())), 1)

    def test_no_log_makes_it_fail(self) -> None:
        for given in (
            "ERROR:  LOG:  duration: 1.1.1 ms  statement: SELECT 1\n",
            "LOG:  duration: . ms  statement: SELECT 1\n",
            "LOG:  duration: " + "9" * 400 + " ms  statement: SELECT 1\n",
            "a\rb,c\n",
            'a,"b\n',
            '{"error_severity":"LOG","message":"statement: SELECT \\ud800","user":"\\ud800"}\n',
            '{"error_severity":[],"message":{},"user":7}\n',
            "{" * 100000,
        ):
            with self.subTest(given=given[:60]):
                self.assertLessEqual(len(inputs.from_log(given.encode())), 1)

    def test_paths_are_taken_apart_as_postgresql_does(self) -> None:
        self.assertEqual(
            schemas_of('"$user", public, "A ""b", \'c d\', Plain', "me"), ("me", "public", 'A "b', "c d", "plain")
        )
        paths = Paths({"app": "app_schema"}, "shared", "me", '"$user", public')
        self.assertEqual(
            [paths.of(it) for it in ("app", "other", "me", "")],
            [("app_schema",), ("shared",), ("me", "public"), ("me", "public")],
        )


@unittest.skipIf(MISSING, MISSING)
class OnServer(OverShop):
    database = "reading"

    def test_statements_of_roles_with_paths_and_within_explain(self) -> None:
        self.server.psql(
            "CREATE DATABASE reading; CREATE ROLE one LOGIN; CREATE ROLE two LOGIN; ALTER ROLE two SET search_path TO deep"
        )
        self.server.psql(MADE, "reading")
        for role, text in RAN:
            words = [str(program("psql")), "-X", "-q", "-v", "ON_ERROR_STOP=1", "-c", text]
            given = self.server.environment("reading", PGUSER=role)
            subprocess.run(words, env=given, check=True, capture_output=True, timeout=LONG)
        catalogue, workload, report = self.in_folder("catalogue.toml", "workload.sql", "report.txt")
        for _ in range(2):
            self.call("export", catalogue, workload, "--report", report)
        text = Path(workload).read_text()
        for table in ("thing", "one_thing", "deep_thing"):
            self.assertIn(f"-- weight 1\nSELECT a\nFROM {table}\nWHERE a = ?;", text)
        self.assertRegex(text, r"-- weight [23]\nSELECT b\nFROM thing\nWHERE a = \?;")
        self.assertIn("SELECT *\nFROM thing;", text)
        insert = re.search(r"INSERT INTO thing\nVALUES (.*);", text)
        self.assertEqual(insert and insert[1].count("(?)"), 30)
        # What export asked is no part of it, also where it was counted.
        self.assertNotIn("TABLESAMPLE", text)
        self.assertNotIn("cophy-pg", text)
        told = Path(report).read_text()
        self.assertNotIn("AS own", told)
        self.assertNotIn("VACUUM", told)


if __name__ == "__main__":
    unittest.main()
