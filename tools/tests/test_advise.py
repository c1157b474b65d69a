"""`cophy-pg advise`, each of its steps alone, and `snapshot`: over a stand-in for the program, and over the program itself."""
from __future__ import annotations

import importlib.util
import json
import os
import pty
import re
import shlex
import shutil
import stat
import subprocess
import tempfile
import tomllib
import unittest
from contextlib import suppress
from pathlib import Path
from typing import Any

from advised import HAS_JINJA, QUERIES, SCHEMA, OverSql
from fixtures import ADVISOR, COPHY, NO_HYPOPG, STAND_IN, TOOL, called
from patience import LONG
from schema_check import faults

FILES = (
    "advice.json advice.txt catalogue.toml certificate check.txt commands.txt curve.json database.toml details.txt export.txt indexes.sql kept.txt lint.txt "
    "plans.json ruled.txt rules.txt summary.txt verify.json workload.sql"
).split()
HAS_RICH = importlib.util.find_spec("rich") is not None


def without_gains(script: str) -> str:
    """A script without what its picks save, which `ddl` doesn't know."""
    return re.sub(r"(?m)^(-- \d+\. .*?)[:,] saves [\d.,-]+ %.*$", r"\1", script)


@unittest.skipIf(NO_HYPOPG, NO_HYPOPG)
class Advise(OverSql):
    kept: Path
    first: dict[str, Any]

    @classmethod
    def setUpClass(cls) -> None:
        super().setUpClass()
        folder = tempfile.TemporaryDirectory()
        cls.addClassCleanup(folder.cleanup)
        cls.kept = Path(folder.name) / "found"
        sql = Path(folder.name) / "queries.sql"
        sql.write_text(QUERIES)
        words = ("advise", "--sql", str(sql), "--budget", "20MB", "--folder", str(cls.kept), "--json")
        ran = called(cls.server, *words, PGUSER="cophy_advisor", **cls.given)
        assert ran.returncode == 0, ran.stderr
        cls.first = json.loads(ran.stdout)

    def test_it_finds_what_to_make_and_says_what_each_saves(self) -> None:
        found = self.first
        self.assertEqual([*faults(found, SCHEMA, SCHEMA)], [])
        picks = {f"{it['table']}({', '.join(it['columns'])})": it for it in found["picks"]}
        self.assertLessEqual({"customer(city)", "sales_orders(total)"}, set(picks))
        self.assertEqual({it["outcome"] for it in picks.values()}, {"taken"})
        total = picks["sales_orders(total)"]
        self.assertEqual([*picks][0], "sales_orders(total)")
        # What isn't recommended has the last numbers, so that what is printed has no gaps.
        places, caveats = zip(*((it["place"], it["caveat"] is not None) for it in found["picks"]))
        self.assertEqual((places, caveats), ((*range(1, len(places) + 1),), (*sorted(caveats),)))
        script = (self.kept / "indexes.sql").read_text()
        marked = re.findall(r"(?m)^-- (\d+)\. .*: not recommended", script)
        self.assertEqual([*map(int, marked)], [at for at, it in zip(places, caveats) if it])
        shown = "SELECT id FROM sales.orders WHERE total = 17.75 ORDER BY id"
        self.assertEqual([(it["numbers"], it["sql"], it["calls"]) for it in total["changes"]], [([1], shown, 40)])
        self.assertGreater(min(total["saves"]["ours"], total["saves"]["server"]), 20)
        self.assertEqual(
            total["statements"], ['CREATE INDEX CONCURRENTLY "sales_orders_total_idx" ON "sales"."orders" ("total");']
        )
        self.assertEqual((found["owners"], {it["owner"] for it in found["picks"]}), (["cophy"], {"cophy"}))
        self.assertLess(found["server_cost"]["after"], found["server_cost"]["before"])
        self.assertEqual(found["server_cost"]["statements"], 4)
        second = found["statements"][1]
        self.assertEqual((second["numbers"], second["line"], second["calls"]), ([1], 3, 40))
        self.assertEqual((second["picks"], total["place"]), ([1], 1))
        self.assertEqual(found["statements"][4]["not_explained"], "42883 a function or an operator isn't there")
        self.assertEqual(
            self.server.value("SELECT count(*) FROM pg_indexes WHERE indexname LIKE '%total_idx'", "shop"), "0"
        )

    def test_no_file_has_the_password_of_a_command_that_is_skipped(self) -> None:
        self.sql.write_text(f"{QUERIES}ALTER ROLE cophy PASSWORD 'hunter2';")
        found = self.advise("--no-curve")
        self.assertEqual(found["statements"][-1]["sql"], "ALTER ROLE cophy PASSWORD ?")
        self.assertEqual([it.name for it in self.found.iterdir() if b"hunter2" in it.read_bytes()], [])

    def test_costs_add_up(self) -> None:
        found = self.first
        for side in ("before", "after"):
            calls = ((it["calls"], it["server_cost"]) for it in found["statements"] if it["server_cost"])
            self.assertAlmostEqual(found["server_cost"][side], sum(n * it[side] for n, it in calls), 3)
            ours = sum(it["calls"] * it["cost"][side] for it in found["statements"] if it["cost"])
            self.assertEqual(found["cost"][side], ours)
        plan = json.loads(
            self.server.value("EXPLAIN (FORMAT JSON) SELECT id, name FROM customer WHERE city = 'City 3'", "shop")
        )
        self.assertEqual(found["statements"][0]["server_cost"]["before"], plan[0]["Plan"]["Total Cost"])
        for pick in found["picks"]:
            saved = pick["saves"]["cost_without"] - found["cost"]["after"]
            self.assertAlmostEqual(pick["saves"]["ours"], 100 * saved / found["cost"]["before"], 3)

    def test_the_folder_has_each_step_and_each_can_be_taken_alone(self) -> None:
        self.assertEqual(sorted(it.name for it in self.kept.iterdir()), sorted([*FILES, *["report.html"] * HAS_JINJA]))
        self.assertEqual(stat.S_IMODE(self.kept.stat().st_mode), 0o700)
        self.assertEqual({stat.S_IMODE(it.stat().st_mode) for it in self.kept.iterdir()}, {0o600})
        self.assertEqual(json.loads((self.kept / "advice.json").read_text()), self.first)
        self.assertIn(
            "the most of SELECT id FROM sales.orders WHERE total = ?", (self.kept / "indexes.sql").read_text()
        )
        lines = (self.kept / "commands.txt").read_text().splitlines()
        kept = (self.kept / "kept.txt").read_text()
        steps = [shlex.split(it) for it in lines if it.startswith("cophy-pg") and " curve " not in it]
        # Once the catalogue is exported anew, the script says that it is newer than the advice.
        for step in sorted(steps, key=lambda it: it[1] != "ddl"):
            if step[1] == "report" and not HAS_JINJA:
                continue
            ran = self.call(*step[1:])
            if step[1] == "ddl":
                self.assertEqual(ran.stdout, without_gains((self.kept / "indexes.sql").read_text()))
        self.assertEqual((self.kept / "kept.txt").read_text(), kept)

    def test_the_catalogue_has_the_tables_that_statements_name(self) -> None:
        both = [tomllib.loads((self.kept / it).read_text()) for it in ("catalogue.toml", "database.toml")]
        few, every = ({it["name"]: it for it in one["table"]} for one in both)
        # So has the table that is called as the word ORDER.
        self.assertEqual({*few}, {"customer", "line", "order", "product", "sales_orders"})
        self.assertEqual(few, {it: every[it] for it in few})
        self.assertIn("pgbench_accounts", every)
        # No index gets the name of what isn't in it.
        self.assertLessEqual({"pgbench_accounts", "pgbench_accounts_pkey"}, {*both[0]["postgres_taken"]})
        ran = [
            self.call("ddl", str(self.kept / it), str(self.kept / "kept.txt"))
            for it in ("catalogue.toml", "database.toml")
        ]
        self.assertEqual(ran[0].stdout, ran[1].stdout)

    def test_text_for_people(self) -> None:
        words = ("advise", "--sql", str(self.sql), "--budget", "2560", "--folder", str(self.found))
        short = self.call(*words).stdout
        self.assertEqual(short, (self.found / "summary.txt").read_text())
        self.assertRegex(
            short,
            r"\AMake these \d+ indexes: [0-9.]+ MB of the budget of 20\.0 MB\.\nThey save [\d.]+ % of the cost by the",
        )
        self.assertRegex(short, r"\n 1\. +[\d.]+  +[\d.]+ %  sales\.orders\(total\) +WHERE total = 17\.75\n")
        self.assertLessEqual(len(short.split()), 180)
        before = (self.found / "details.txt").read_text()
        text = self.call(*words, "-v").stdout
        self.assertEqual(text, (self.found / "details.txt").read_text())
        self.assertEqual(re.sub("advised in .*", "", text), re.sub("advised in .*", "", before))
        self.assertRegex(
            text,
            r"\A\d+ indexes to make, [0-9.]+ MB of 20\.0 MB, and \d+ not recommended, [0-9.]+ MB: database 'shop', 5 of 5 statements; ",
        )
        ddl = r'CREATE INDEX CONCURRENTLY "sales_orders_total_idx" ON "sales"\."orders" \("total"\);'
        sql = r"WHERE total = 17\.75"
        row = rf" +[\d.]+ MB +\d+\.\d +\d+\.\d  statement 1, 40 calls: {sql}\n"
        self.assertRegex(text, rf"\n1\. {ddl}\n{row}")
        self.assertRegex(
            text, r"\nour model +[0-9,]+( +[0-9,]+ +\d+\.\d %){2}  +[0-9,]+\nthe server's +[0-9,]+ +[0-9,]+ "
        )
        self.assertIn("statement 5: 42883 a function or an operator isn't there", text)
        end = r"by our model no (other )?indexes of [\d.,]+ MB cost less.*; certificate checked\n"
        self.assertRegex(text, end)
        place = f"-h {self.server.folder} -p 5432 -d shop -U cophy -f {self.found}/indexes.sql"
        command = f"cophy-pg make {self.found}; or their owner runs: psql -X {place}"
        then = f"whether it helped: cophy-pg effect {self.found}"
        self.assertEqual(text.splitlines()[-2:], [f"to make them in about 1 second: {command}", then])
        self.assertEqual(short.splitlines()[-2:], [f"cophy-pg make {self.found}", then])
        self._reads_alone()

    def _reads_alone(self) -> None:
        """Exactly those picks ask for VACUUM that some plans read without their tables."""
        from cophy_pg.picks import scans_of

        plans = json.loads((self.found / "plans.json").read_text())
        scans = {it for one in plans["statements"] for it in scans_of(one["after"] or {})}
        for it in json.loads((self.found / "advice.json").read_text())["picks"]:
            shown = f"{it['table']}({', '.join(it['columns'])})"
            kinds = {kind for name, kind in scans if plans["shown"].get(name) == shown}
            self.assertEqual(any("VACUUM" in note for note in it["notes"]), "Index Only Scan" in kinds, it)

    def test_statuses(self) -> None:
        self.sql.write_text("SELECT id FROM customer WHERE id = 3;\n")
        self.assertEqual(self.advise(status=3)["picks"], [])
        self.assertIn("No index is worth making for 'shop', judged by", (self.found / "summary.txt").read_text())
        self.assertIn("no index is worth making: database 'shop'", (self.found / "details.txt").read_text())
        words = ("advise", "--sql", str(self.sql), "--folder", str(self.found), "--budget")
        for budget in ("2PB", "-1", "lots"):
            self.assertIn("is no amount of space", self.call(*words, budget, status=2).stderr)
        ran = self.call(*words, "1MB", status=1, COPHY_PROGRAM="/nowhere/cophy")
        self.assertIn("the program /nowhere/cophy isn't there", ran.stderr)
        self.assertTrue((self.found / "advice.json").exists())
        self.call(*words, "1MB", status=1, COPHY_PROGRAM="/bin/false")
        self.assertFalse((self.found / "advice.json").exists())
        self.call(*words, "1MB", "--since", str(self.sql), status=1)

    def test_a_role_with_powers_is_refused_before_anything_is_made(self) -> None:
        words = ("advise", "--sql", str(self.sql), "--budget", "1MB", "--folder", str(self.found))
        ran = self.call(*words, status=1, PGUSER="cophy")
        self.assertIn("verify doesn't explain statements as a superuser", ran.stderr)
        self.assertFalse(self.found.exists())
        self.call(*words, "--i-trust-the-statements", PGUSER="cophy")

    def test_a_folder_of_others_or_behind_a_link_is_refused(self) -> None:
        words = ("advise", "--sql", str(self.sql), "--budget", "1MB", "--folder")
        (self.folder / "real").mkdir()
        (self.folder / "link").symlink_to(self.folder / "real")
        self.assertIn("is a symbolic link", self.call(*words, str(self.folder / "link"), status=1).stderr)
        (self.folder / "real").chmod(0o777)
        self.assertIn("others may write to it", self.call(*words, str(self.folder / "real"), status=1).stderr)
        self.assertIn("is no folder", self.call(*words, str(self.sql), status=1).stderr)
        self.assertEqual([*(self.folder / "real").iterdir()], [])

    def test_since_a_snapshot_only_what_came_after_it_counts(self) -> None:
        self.server.psql("CREATE DATABASE daily")
        script = "CREATE EXTENSION pg_stat_statements; CREATE TABLE t AS SELECT i AS a, i % 700 AS b, i % 90 AS c, repeat('x', 90) AS d FROM generate_series(1, 9000) i; ANALYZE t;"
        self.server.psql(script + ADVISOR.read_text(), "daily")
        self.addCleanup(self.server.psql, "DROP DATABASE daily")
        self.server.psql("SELECT a FROM t WHERE b = 5;" * 9, "daily")
        kept = str(self.folder / "before.json")
        self.database = "daily"
        self.call("snapshot", kept)
        self.assertNotIn("SELECT", Path(kept).read_text())
        self.server.psql(
            "SELECT a FROM t WHERE b = 7; SELECT a FROM t WHERE b = 7; SELECT a FROM t WHERE c = 7", "daily"
        )
        words = ("advise", "--budget", "9MB", "--json", "--table", "t", "--user", "cophy")
        for more, counts in (((), [11, 1]), (("--since", kept), [2, 1])):
            folder = str(self.folder / f"f{len(more)}")
            found = json.loads(self.call(*words, *more, "--folder", folder).stdout)
            listed = {it["sql"]: it["calls"] for it in found["statements"] if it["sql"].startswith("SELECT a")}
            self.assertEqual([listed[f"SELECT a FROM t WHERE {it} = $1"] for it in "bc"], counts)
            times = [it["saves"]["planned"] for it in found["picks"]]
            self.assertEqual(times, sorted(times, reverse=True))
            self.assertRegex((Path(folder) / "summary.txt").read_text(), r"\n +MB +time  index, for\n 1\. ")
            self.assertEqual(json.loads((Path(folder) / "snapshot.json").read_text())["version"], 1)
        once = "statements that ran once have 33.3 % of the workload's cost by our model: --min-calls 2 leaves them out"
        self.assertEqual([once in it for it in found["warnings"]], [True])
        taken = json.loads(Path(kept).read_text())
        self.assertEqual(taken["database"], "daily")
        Path(kept).write_text(json.dumps(taken | {"database": "shop"}))
        ran = self.call(*words, "--since", kept, "--folder", *self.in_folder("f2"), status=1)
        self.assertEqual(ran.stdout, "")
        self.assertIn("the snapshot is of the database 'shop', and this one is 'daily'", ran.stderr)
        older = taken | {"begun": "1700000000.5"}
        Path(kept).write_text(json.dumps(older))
        ran = self.call(*words, "--since", kept, "--folder", *self.in_folder("f3"))
        self.assertIn("began to count anew", ran.stderr)

    @unittest.skipUnless(COPHY.exists(), "the program isn't built")
    def test_what_is_only_read_is_included(self) -> None:
        found = self.advise("--include", COPHY_PROGRAM=str(COPHY))
        self.assertTrue(found["options"]["include"])
        made = {it["table"]: it for it in found["picks"]}["customer"]
        self.assertRegex(made["statements"][0], r'ON "public"\."customer" \("city".*\) INCLUDE \("name"\);\Z')
        self.assertEqual((made["outcome"], made["columns"][0]), ("taken", "city"))
        self.assertLessEqual(found["stored_pages"], found["asked_pages"])
        (step,) = [
            it for it in (self.found / "commands.txt").read_text().splitlines() if it.startswith("cophy-pg ddl ")
        ]
        script = (self.found / "indexes.sql").read_text()
        plain = self.call(*shlex.split(step)[1:]).stdout
        self.assertEqual(without_gains(script), plain)
        self.assertRegex(script, r"(?m)^-- 1\. [\w.]+\(.*\): saves [\d.]+ %, the most of \w+ ")
        self.assertIn(made["statements"][0], script)
        sizes = json.loads(self.call(*shlex.split(step)[1:], "--json").stdout)
        self.assertEqual(sizes["stored_size"], found["stored_pages"])

    @unittest.skipUnless(HAS_RICH, "python3-rich isn't installed")
    def test_a_terminal_is_shown_a_bar_for_each_step(self) -> None:
        words = (str(TOOL), "advise", "--sql", str(self.sql), "--budget", "20MB", "--folder", str(self.found))
        more = {"PGUSER": "cophy_advisor", "COPHY_PROGRAM": str(STAND_IN), "TERM": "xterm", "COLUMNS": "100"}
        ours, its = pty.openpty()
        with subprocess.Popen(
            words, stdout=subprocess.DEVNULL, stderr=its, env=self.server.environment("shop", **more)
        ) as ran:
            os.close(its)
            shown = b""
            with suppress(OSError):
                while part := os.read(ours, 65536):
                    shown += part
            self.assertEqual(ran.wait(LONG), 0)
        os.close(ours)
        text = re.sub(r"\x1b\[[0-9;?]*[A-Za-z]", "", shown.decode(errors="replace")).rsplit("reading the database", 1)[
            1
        ]
        for it in ("searching for the best indexes +\u2501+ 16/16", "asking the server's planner +\u2501+ 10/10"):
            self.assertIsNotNone(re.search(rf"\nround 1 of at most 4, {it} +\d:\d\d:\d\d\r", text), text[-2000:])

    def test_what_an_unproved_program_answers_is_never_called_proved(self) -> None:
        program = shutil.copy(STAND_IN, self.folder / "cophy-unproved")
        (self.folder / "link").symlink_to(program)
        found = self.advise(COPHY_PROGRAM=str(self.folder / "link"))
        told = "not proved, as the program is unproved"
        self.assertTrue(found["proved"].startswith(f"{told}; it says: proved cost "))
        self.assertTrue(any(it.startswith("the program is unproved: no proof") for it in found["warnings"]))
        for name in ("summary.txt", "details.txt", "check.txt", "advice.json", *["report.html"] * HAS_JINJA):
            text = " ".join((self.found / name).read_text().split())
            with self.subTest(name=name):
                self.assertIn(told, text)
                self.assertNotIn("(proved", text)
                self.assertNotIn("certificate checked", text)

    @unittest.skipUnless(COPHY.exists(), "the program isn't built")
    def test_with_the_program_itself(self) -> None:
        found = self.advise(COPHY_PROGRAM=str(COPHY))
        self.assertTrue(found["cost"]["finished"])
        self.assertEqual(
            found["proved"],
            f"proved cost {found['cost']['advice']} bound {found['cost']['bound']} budget {found['budget_pages']}",
        )
        self.assertLessEqual(found["stored_pages"], found["asked_pages"])
        self.assertIn("customer", {it["table"] for it in found["picks"]})
        load, said = str(self.found / "workload.sql"), dict[str, list[bytes]]()
        for it in ("catalogue.toml", "database.toml"):
            for more in (("cost",), ("candidates",), ("advise", "900")):
                words = [str(COPHY), more[0], str(self.found / it), load, *more[1:]]
                said.setdefault(more[0], []).append(subprocess.run(words, capture_output=True, check=True).stdout)
        for name, (few, every) in said.items():
            self.assertEqual(few, every, name)
        step = (self.found / "commands.txt").read_text().splitlines()[6]
        self.assertEqual(
            subprocess.run(shlex.split(step), capture_output=True, check=True).stdout,
            (self.found / "check.txt").read_bytes(),
        )


if __name__ == "__main__":
    unittest.main()
