"""`cophy-pg ddl`, `verify`, `why` and `curve` on stored answers of the program, the first two against a server."""
from __future__ import annotations

import json
import re
import tomllib
import unittest
from pathlib import Path

from cophy_text import answers
from fixtures import ADVISOR, MISSING, NO_PARSER, InFolder, OverShop, called
from private_server import has_extension

ADVICE = """budget 3000
candidates 9 left over 0
pick 1 customer(city) 30 pages
pick 2 Odd_Name(select, _n_code) 2 pages
pick 5 event(kind) 40 pages
pick 7 sales_orders(total) 60 pages
size 132
cost 583783100
bound 580000000
gap 3783100
nodes 20000 of 20000
stopped
"""
# Answers for a workload of two statements: `whatif` looks at the numbers of the configuration, `advise` at the budget.
PROGRAM = """#!/bin/sh
case "$1" in
whatif)
    one=1000 two=5000
    grep -qx 1 "$4" && one=200
    grep -qx 2 "$4" && two=5100
    echo "size 7"; echo "statement 1 weight 10 cost $one"; echo "statement 2 weight 1 cost $two"
    echo "total $((10 * one + two))" ;;
advise)
    [ "$4" -gt 30 ] && size=30 || size="$4"
    echo "budget $4"; echo "candidates 2 left over 0"
    [ "$size" -lt 30 ] || echo "pick 1 customer(city) 30 pages"
    echo "size $size"; echo "cost $((9000 - 100 * size))"; echo "bound $((8000 - 100 * size))"; echo "gap 1000"
    echo "nodes 3 of 20000"; echo finished ;;
*) echo "refused: not toml"; exit 5 ;;
esac
"""
TWO = "budget 9\ncandidates 2 left over 0\npick 1 a(x) 3 pages\npick 2 a(y) 4 pages\nsize 7\ncost 7100\nbound 7100\ngap 0\nnodes 1 of 2\nfinished\n"


class Texts(unittest.TestCase):
    def test_each_answer_is_taken_apart(self) -> None:
        advice = answers.read_advice(ADVICE)
        self.assertEqual(
            (advice.budget, advice.size, advice.cost, advice.bound, advice.gap, advice.is_finished),
            (3000, 132, 583783100, 580000000, 3783100, False),
        )
        self.assertEqual(advice.picks[1], answers.Candidate(2, "Odd_Name", ("select", "_n_code"), 2))
        self.assertEqual(answers.read_advice("tables 2\nstatements 1\nslots 1\n" + TWO).picks[0].shown(), "a(x)")
        self.assertEqual(
            [it.number for it in answers.read_candidates("1 a(x) 3 pages\n2 a(x, y) 4 pages\nleft over 0\n")], [1, 2]
        )
        prices = answers.read_prices("size 3\nstatement 1 weight 2 cost 5\ntotal 10\n")
        self.assertEqual((prices.size, prices.statements[1], prices.total), (3, answers.Price(2, 5), 10))

    def test_another_text_is_no_answer(self) -> None:
        for read in (answers.read_advice, answers.read_candidates, answers.read_prices):
            for text in ("", "refused: not toml\n", "budget 5\n", "pick 1 a(x) b pages\nfinished\n"):
                with self.subTest(read=read.__name__, text=text):
                    self.assertRaises(answers.NoAnswer, read, text)


@unittest.skipUnless(not NO_PARSER and Path("/usr/bin/python3").exists(), "python3-pglast isn't installed")
class Programs(InFolder):
    """`why` and `curve`, over a program that is a script."""

    def setUp(self) -> None:
        super().setUp()
        self.program = self.lay_program(PROGRAM)
        (self.folder / "advice").write_text(TWO)
        (self.folder / "l.sql").write_text("-- weight 10\nSELECT c\n  FROM t;\nUPDATE t SET c = 1;\n")

    def call(self, command: str, *more: str) -> str:
        return self.tool(command, "c.toml", "l.sql", *more, "--program", self.program).stdout

    def test_why_tells_who_gains_and_who_loses(self) -> None:
        text = self.call("why", "advice")
        self.assertIn("without any pick the workload costs 15,000, with all 7,100 (47.3 %)\ncosts are in ", text)
        self.assertIn(
            "pick 1 a(x), 3 pages (0.0 MB)\n  without it the workload costs 15,100, 8,000 more (212.7 %)\n"
            "  statement 1 gains 8,000: SELECT c FROM t\n",
            text,
        )
        self.assertIn(
            "pick 2 a(y), 4 pages (0.0 MB)\n  without it the workload costs 7,000, -100 more (98.6 %)\n"
            "  statement 2 loses 100: UPDATE t SET c = 1\n",
            text,
        )
        found = json.loads(self.call("why", "advice", "--json"))
        self.assertEqual((found["total_without_picks"], found["total"]), (15000, 7100))
        self.assertEqual(found["picks"][0]["changes"], [{"number": 1, "sql": "SELECT c FROM t", "saves": 8000}])

    def test_a_refusal_of_the_program_is_told(self) -> None:
        self.lay_program("#!/bin/sh\necho 'refused: not toml'; exit 5\n")
        ran = self.tool("why", "c.toml", "l.sql", "advice", "--program", self.program, status=1)
        self.assertEqual(ran.stdout, "")
        self.assertIn("cophy whatif answers: refused: not toml", ran.stderr)


@unittest.skipIf(MISSING, MISSING)
class OnServer(OverShop):
    def setUp(self) -> None:
        super().setUp()
        self.files = self.in_folder("catalogue.toml", "workload.sql", "advice")
        (self.folder / "advice").write_text(ADVICE)
        self.call("export", *self.files[:2])

    def test_ddl_runs_on_the_server(self) -> None:
        text = self.call("ddl", self.files[0], self.files[2]).stdout
        self.assertIn("-- budget 3,000 pages (23.4 MB), size 132 pages (1.0 MB)", text)
        stored = r"as PostgreSQL stores it about [\d,]+ pages? \(\d+\.\d MB\)"
        self.assertRegex(text, rf"-- budget .*, {stored}\n")
        self.assertRegex(text, rf"-- pick 1: 30 pages \(0\.2 MB\), {stored}\n")
        self.assertIn(
            "-- cost 583,783,100, bound 580,000,000, gap 3,783,100: these picks cost more than it\n-- costs are in ",
            text,
        )
        self.server.psql(text, "shop")
        made = self.server.value(
            "SELECT string_agg(indexdef, E'\\n' ORDER BY indexname) FROM pg_indexes WHERE indexname ~ '_idx$'"
            " AND tablename !~ '^event_'",
            "shop",
        )
        for name in ("customer_city_idx", "Odd_Name_select__n_code_idx", "event_kind_idx", "sales_orders_total_idx"):
            self.assertIn(name, made)
        for name in (
            "customer_city_idx",
            '"Odd_Name_select__n_code_idx"',
            "event_kind_idx",
            "sales.sales_orders_total_idx",
        ):
            self.server.psql(f"DROP INDEX {name}", "shop")

    def test_ddl_gives_json_for_scripts(self) -> None:
        found = json.loads(self.call("ddl", self.files[0], self.files[2], "--json").stdout)
        self.assertEqual(
            [it["name"] for it in found["picks"]],
            ["customer_city_idx", "Odd_Name_select__n_code_idx", "event_kind_idx", "sales_orders_total_idx"],
        )
        self.assertIn(r'"Odd Name" ("select", U&"\00dcn\00efcode")', found["picks"][1]["statement"])

    @unittest.skipUnless(has_extension("hypopg"), "postgresql-15-hypopg isn't installed")
    def test_verify_names_the_picks_that_plans_take(self) -> None:
        words = ("verify", *self.files, "--program", self.lay_program(PROGRAM))
        text = self.call(*words).stdout
        self.assertRegex(
            text,
            r"pick 1 customer\(city\): taken by \d+ statements?\n"
            r"  30 pages \(0\.2 MB\), as PostgreSQL stores it about \d+ pages \(\d\.\d MB\)\n  statements? [0-9, ]+ \(calls 1\): a call costs",
        )
        self.assertIn("pick 2 Odd_Name(select, _n_code): taken by no statement", text)
        self.assertRegex(text.splitlines()[-1], r"^verdict: of 4 picks 3 taken, 1 not taken, 0 unknown; PostgreSQL's")
        found = json.loads(self.call(*words, "--json").stdout)
        self.assertGreater(len(found["picks"][0]["taken_by"]), 2)
        self.assertGreater(sum(it["after"] is not None for it in found["statements"]), 70)
        self.assertEqual(
            self.server.value("SELECT count(*) FROM pg_indexes WHERE indexname LIKE '%city%'", "shop"), "0"
        )

    def test_odd_names_are_quoted_in_what_is_sent_back(self) -> None:
        self.server.psql("CREATE DATABASE quoted")
        self.server.psql(f"CREATE TABLE keep (a int);{ADVISOR.read_text()}", "quoted")
        self.server.psql(
            'CREATE SCHEMA "s.""x"; CREATE TABLE "s.""x"."t""; DROP TABLE keep; --" ("a"") ; DROP TABLE keep; --" int)',
            "quoted",
        )
        sql = self.folder / "q.sql"
        sql.write_text('SELECT * FROM "s.""x"."t""; DROP TABLE keep; --"')
        ran = called(self.server, "export", *self.files[:2], "--sql", str(sql), database="quoted")
        self.assertEqual(ran.returncode, 0, ran.stderr)
        table = tomllib.loads(Path(self.files[0]).read_text())["table"][-1]
        pick = f"pick 1 {table['name']}({table['column'][0]['name']}) 3 pages\n"
        (self.folder / "advice").write_text(re.sub("pick 1 .*\n", pick, TWO).replace("pick 2 a(y) 4 pages\n", ""))
        text = called(self.server, "ddl", self.files[0], self.files[2], database="quoted")
        self.assertEqual(text.returncode, 0, text.stderr)
        self.server.psql(text.stdout, "quoted")
        self.assertEqual(self.server.value("SELECT count(*) FROM pg_indexes WHERE schemaname = 's.\"x'", "quoted"), "1")
        ran = called(
            self.server,
            "verify",
            *self.files,
            *("--sql", str(sql), "--program", "/bin/false"),
            database="quoted",
            PGUSER="cophy_advisor",
        )
        self.assertEqual(ran.returncode, 0, ran.stderr)
        self.assertEqual(self.server.value("SELECT count(*) FROM pg_tables WHERE tablename = 'keep'", "quoted"), "1")

    def test_verify_without_hypopg_says_so(self) -> None:
        self.server.psql("CREATE DATABASE bare")
        words = ("verify", *self.files, "--sql", str(self.folder / "workload.sql"))
        ran = called(self.server, *words, database="bare", PGUSER="cophy_advisor")
        self.assertEqual(ran.returncode, 1)
        self.assertIn("hypopg isn't there", ran.stderr)

    def test_advice_of_another_catalogue_is_refused(self) -> None:
        (self.folder / "advice").write_text(TWO)
        ran = called(self.server, "ddl", self.files[0], self.files[2])
        self.assertEqual((ran.returncode, ran.stdout), (1, ""))
        self.assertIn("the catalogue has no table a", ran.stderr)


if __name__ == "__main__":
    unittest.main()
