"""`cophy-pg daily` and `changes`, over a stand-in for the program, and the units of systemd that call it."""
from __future__ import annotations

import configparser
import json
import shlex
import tomllib
from pathlib import Path
from typing import Any
from unittest import TestCase, skipIf

from fixtures import ADVISOR, NO_HYPOPG, ROOT, STAND_IN, InFolder, called, shop
from private_server import PrivateServer
from schema_check import faults
from test_page import MISSING, document

SCHEMA = json.loads((ROOT / "tools" / "pg" / "cophy_pg" / "changes.schema.json").read_text())
MADE = """CREATE EXTENSION pg_stat_statements;
CREATE TABLE t AS SELECT i AS a, i % 700 AS b, i % 90 AS c, repeat('x', 90) AS d FROM generate_series(1, 9000) i;
CREATE TABLE u AS SELECT i AS a FROM generate_series(1, 500) i;
ANALYZE;
"""
WORDS = ("--budget", "20MB", "--table", "t")


@skipIf(MISSING, MISSING)
class Recommended(TestCase):
    def test_what_isnt_recommended_isnt_advised(self) -> None:
        from cophy_pg.changes import Found, compared, lines_of
        from cophy_pg.schema import Schema

        plain = document("/a")["picks"][0]
        doubtful = plain | {"caveat": "it saves 0.4 %"}
        rows: list[tuple[list[Any], list[Any], dict[str, list[str]]]] = [
            ([], [doubtful], {}),
            ([doubtful], [doubtful], {}),
            ([doubtful], [plain], {"new": ["t(b) clustered"]}),
            ([plain], [doubtful], {"gone": ["t(b) clustered"]}),
            ([plain], [plain], {"kept": ["t(b) clustered"]}),
        ]
        for old, new, wanted in rows:
            with self.subTest(wanted=wanted, old=len(old)):
                sides = []
                for picks in (old, new):
                    count = sum(not it.get("caveat") for it in picks)
                    found = {"picks": count, "stored_pages": 20, "cost": 9000000, "server_cost": 8000.0}
                    sides.append(Found(document("/a") | {"picks": picks, "recommended": found}, Schema([])))
                told = compared(*sides)
                self.assertEqual([*faults(told, SCHEMA, SCHEMA)], [])
                kinds = {kind: [it["index"] for it in listed] for kind, listed in told["indexes"].items() if listed}
                self.assertEqual(kinds, wanted)
                self.assertEqual((told["to"]["cost"]["after"], told["to"]["server_cost"]["after"]), (9000000, 8000.0))
                text = "\n".join(lines_of(told))
                self.assertIn(
                    "9,000 without new indexes, 9,000 with them; by the server's planner 9,000 and 8,000", text
                )
                self.assertEqual("; not recommended: it saves 0.4 %" in text, "gone" in wanted)


@skipIf(NO_HYPOPG, NO_HYPOPG)
class Daily(InFolder):
    server: PrivateServer

    def setUp(self) -> None:
        super().setUp()
        self.server = shop()
        self.server.psql("CREATE DATABASE days")
        self.addCleanup(self.server.psql, "DROP DATABASE days")
        self.server.psql(MADE + ADVISOR.read_text(), "days")
        self.home = self.folder / "all"

    def call(self, *words: str, status: int = 0) -> str:
        ran = called(self.server, *words, database="days", PGUSER="cophy_advisor", COPHY_PROGRAM=str(STAND_IN))
        self.assertNotIn("Traceback", ran.stderr)
        self.assertEqual(ran.returncode, status, ran.stderr)
        return ran.stdout

    def folders(self) -> list[Path]:
        return sorted(self.home.iterdir())

    def daily(self, *more: str, status: int = 0) -> dict[str, Any]:
        """What a call after the first says of the last one."""
        found: dict[str, Any] = json.loads(self.call("daily", str(self.home), *WORDS, "--json", *more, status=status))
        self.assertEqual([*faults(found, SCHEMA, SCHEMA)], [])
        return found

    def test_day_by_day(self) -> None:
        self.server.psql("SELECT a FROM t WHERE b = 5;" * 9, "days")
        text = self.call("daily", str(self.home), *WORDS, status=3)
        self.assertRegex(text, r"\n 1\. +[\d.]+  +[\d.]+ %  t\(b\)  WHERE b = \$1\n")
        # The second day: other statements, and the index is there.
        self.server.psql("SELECT a FROM t WHERE c = 5;" * 9, "days")
        self.server.psql("CREATE INDEX ON t (b); INSERT INTO u SELECT 1 FROM generate_series(1, 700); ANALYZE", "days")
        found = self.daily(status=3)
        kinds = {kind: [it["index"] for it in picks] for kind, picks in found["indexes"].items()}
        self.assertEqual(kinds, {"new": ["t(c)"], "made": ["t(b)"], "gone": [], "kept": []})
        listed = {(it["change"], it["sql"]): it for it in found["statements"]}
        other = listed[("new", "SELECT a FROM t WHERE c = $1")]
        self.assertEqual((other["calls"], other["numbers"], other["share_of"]), (9, [1], "time"))
        self.assertEqual(listed[("gone", "SELECT a FROM t WHERE b = $1")]["shares"][1], 0)
        self.assertEqual(found["tables"], [{"schema": "public", "table": "u", "rows": [500, 1200]}])
        newest = self.folders()[-1]
        self.assertEqual(json.loads((newest / "changes.json").read_text()), found)
        text = (newest / "changes.txt").read_text()
        self.assertIn("indexes: 1 new, 1 made since, 0 no longer advised, 0 as before\n  new t(c), ", text)
        self.assertIn("\n  made since t(b), ", text)
        self.assertRegex(text, r"\n  new, \d+\.\d % of the time, 9 calls: SELECT a FROM t WHERE c = \$1\n")
        self.assertIn("\n  'u' has 1,200 rows, and had 500\n", text)
        # The third day: the same statements as on the second, so the same advice; the first folder goes.
        self.server.psql("SELECT a FROM t WHERE c = 5;" * 9, "days")
        (self.home / "20200101-000000").mkdir()
        found = self.daily("--keep", "2")
        self.assertEqual([it["index"] for it in found["indexes"]["kept"]], ["t(c)"])
        self.assertEqual(len(self.folders()), 2)
        # Between the first and the third.
        words = ("changes", str(self.folders()[0]), str(self.folders()[1]))
        self.assertEqual(self.call(*words), (self.folders()[1] / "changes.txt").read_text().rsplit("all files", 1)[0])
        self.assertEqual(json.loads(self.call(*words, "--json")), found)

    def test_a_day_whose_statements_name_another_table(self) -> None:
        self.server.psql(
            "INSERT INTO u SELECT generate_series(1, 90000); ANALYZE u; SELECT pg_stat_statements_reset()", "days"
        )
        self.server.psql("SELECT a FROM t WHERE b = 5;" * 9, "days")
        words = ("--budget", "20MB", "--table", "t", "--table", "u")
        self.call("daily", str(self.home), *words, status=3)
        self.server.psql("CREATE INDEX ON t (b);" + "SELECT a FROM u WHERE a = 5;" * 9, "days")
        found = self.daily(*words[2:], status=3)
        named = [tomllib.loads((it / "catalogue.toml").read_text())["table"] for it in self.folders()]
        self.assertEqual([[it["name"] for it in tables] for tables in named], [["t"], ["u"]])
        kinds = {kind: [it["index"] for it in picks] for kind, picks in found["indexes"].items()}
        self.assertEqual(kinds, {"new": ["u(a)"], "made": ["t(b)"], "gone": [], "kept": []})
        # Both tables have the rows that they had on the day whose statements didn't name them.
        self.assertEqual(found["tables"], [])

    def test_a_day_without_statements(self) -> None:
        self.server.psql("SELECT a FROM t WHERE b = 5;" * 9, "days")
        self.call("daily", str(self.home), *WORDS, status=3)
        found = self.daily(status=3)
        self.assertEqual([it["index"] for it in found["indexes"]["gone"]], ["t(b)"])

    def test_a_day_on_which_nothing_is_recommended(self) -> None:
        sql = self.folder / "queries.sql"
        sql.write_text("SELECT a FROM t WHERE b = 5;\n-- weight 9000\nSELECT count(*) FROM t;\n")
        words = ("--sql", str(sql), "--planning", "0", *WORDS)
        found = self.folder / "found"
        text = self.call("advise", "--folder", str(found), *words, status=3)
        self.assertTrue(text.startswith("No index is plainly worth making for 'days'"), text)
        self.assertEqual([it["name"] for it in json.loads((found / "advice.json").read_text())["picks"]], ["t_b_idx"])
        self.call("daily", str(self.home), *words)
        sql.write_text(sql.read_text().replace("b = 5", "c = 5"))
        changes = self.daily(*words[:4])
        self.assertEqual([*changes["indexes"].values()], [[]] * 4)

    def test_what_is_no_folder_of_advise_is_refused(self) -> None:
        for text in ("", "[]", '{"version": 2}'):
            (self.folder / "advice.json").write_text(text)
            self.call("changes", str(self.folder), str(self.folder), status=1)
        self.call("changes", "/nowhere", "/nowhere", status=1)
        self.call("daily", str(self.home), *WORDS, "--folder", str(self.folder), status=1)
        (self.folder / "open").mkdir()
        (self.folder / "open").chmod(0o777)
        self.call("daily", str(self.folder / "open"), *WORDS, status=1)

    def test_the_example_of_a_timer_calls_it(self) -> None:
        units = {}
        for name in ("cophy-daily@.service", "cophy-daily@.timer"):
            units[name] = configparser.ConfigParser(strict=False, interpolation=None)
            units[name].read(ROOT / "examples" / "systemd" / name)
        self.assertEqual(units["cophy-daily@.timer"]["Install"]["WantedBy"], "timers.target")
        service = units["cophy-daily@.service"]["Service"]
        self.assertEqual(service["SuccessExitStatus"], "3")
        command = shlex.split(service["ExecStart"].replace("${STATE_DIRECTORY}", str(self.home)))
        self.assertEqual(command[0], "/usr/bin/cophy-pg")
        self.server.psql("SELECT a FROM t WHERE b = 5;" * 9, "days")
        self.call(*command[1:], status=3)
        self.assertEqual([*self.home.iterdir()], self.folders())
