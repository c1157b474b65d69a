"""What `cophy-pg advise` leaves out or puts in: by plans, rules, limits, and the statements that are chosen."""
from __future__ import annotations

import os
import re
import shlex
import subprocess
import unittest

from advised import HAS_JINJA, QUERIES, OverSql
from fixtures import NO_HYPOPG
from test_advise import without_gains


@unittest.skipIf(NO_HYPOPG, NO_HYPOPG)
class Choosing(OverSql):
    def test_what_no_plan_takes_is_left_out(self) -> None:
        self.sql.write_text(QUERIES + "SELECT id FROM product WHERE stock > 0;\n")
        found = self.advise()
        why = {f"{it['table']}({', '.join(it['columns'])})": it["why"] for it in found["left_out"]}
        self.assertEqual(why.get("product(stock)"), "no plan of the server takes it")
        self.assertEqual(found["rules"], ["never product.title"])
        self.assertEqual(found["long_columns"], found["rules"])
        self.assertGreater(found["cost"]["after"], found["cost"]["bound"])
        self.assertNotIn("product(stock)", (self.found / "kept.txt").read_text())
        self.assertIn("product(stock)", (self.found / "advice.txt").read_text())

    def test_what_no_plan_takes_makes_room_for_others(self) -> None:
        self.sql.write_text(
            "-- weight 3\nSELECT id FROM customer WHERE name > 'A';\nSELECT id FROM customer WHERE city = 'City 3';\n"
        )
        found = self.advise(STAND_IN_MOST="1")
        self.assertEqual([it["columns"] for it in found["picks"]], [["city"]])
        self.assertEqual(found["rules"], ["never customer(name)"])
        why = [(it["columns"], it["why"]) for it in found["left_out"]]
        self.assertEqual(why, [(["name"], "no plan of the server takes it")])
        self.assertIn("customer(name)", (self.found / "advice.txt").read_text())
        self.assertNotIn("customer(name)", (self.found / "ruled.txt").read_text())
        self.assertIn(f"budget {found['budget_pages']}", found["proved"])
        steps = [shlex.split(it) for it in (self.found / "commands.txt").read_text().splitlines()[3:]]
        (ruled,) = [it for it in steps if it[1] == "ruled"]
        few = {**os.environ, "STAND_IN_MOST": "1"}
        said = subprocess.run(ruled, capture_output=True, check=True, env=few).stdout
        self.assertEqual(said, (self.found / "ruled.txt").read_bytes())
        summary = (self.found / "details.txt").read_text()
        gap = "most of the gap is customer(name): no plan of the server takes it"
        self.assertIn(f"cost less than the bound; {gap}", summary)
        self.assertEqual(found["gap"], {"index": "customer(name)", "why": "no plan of the server takes it"})

    def test_rules_say_what_has_to_be_and_what_never_may(self) -> None:
        rules = self.folder / "rules"
        rules.write_text("# ours\nnever sales.orders(total)\nmust product(stock)\nnever nowhere\nmust event(kind)\n")
        self.sql.write_text(QUERIES + "SELECT id FROM product WHERE stock > 0;\n")
        found = self.advise("--rules", str(rules))
        self.assertEqual(found["rules"][:2], ["never sales_orders(total)", "must product(stock)"])
        picks = {f"{it['table']}({', '.join(it['columns'])})": it["outcome"] for it in found["picks"]}
        self.assertEqual(picks.get("product(stock)"), "not taken")
        self.assertNotIn("sales_orders(total)", picks)
        summary = (self.found / "details.txt").read_text()
        self.assertIn("a rule asks for it, no plan takes it", summary)
        if HAS_JINJA:
            self.assertIn("A rule asks for it", (self.found / "report.html").read_text())
        # No statement names the table event.
        for number, name in ((4, "nowhere"), (5, "event")):
            warning = f"rules, line {number}: the catalogue has no table {name!r}, or no statement names it"
            self.assertIn(warning, found["warnings"])
        rules.write_text("must product\n")
        words = (
            "advise",
            "--sql",
            str(self.sql),
            "--budget",
            "1MB",
            "--folder",
            str(self.found),
            "--rules",
            str(rules),
        )
        self.assertIn("1 line can't be translated", self.call(*words, status=1).stderr)

    def test_limits_leave_out_what_saves_the_least(self) -> None:
        self.sql.write_text(QUERIES + "-- weight 5\nSELECT id FROM customer WHERE name = 'Name 3';\n")
        found = self.advise("--most-per-table", "1")
        tables = [it["table"] for it in found["picks"]]
        self.assertEqual(len(tables), len({*tables}))
        self.assertEqual([it["columns"] for it in found["picks"] if it["table"] == "customer"], [["name"]])
        found = self.advise("--min-saving", "30")
        self.assertEqual([it["table"] for it in found["picks"]], ["sales_orders"])
        why = {it["why"] for it in found["left_out"] if it["table"] == "customer"}
        told = r"it saves [\d.]+ % by our model, [\d.]+ % by the server's planner; 30 % are asked for\Z"
        self.assertTrue(why and all(re.match(told, it) for it in why), why)
        # Each step alone leaves what was chosen as it is, and asks the program of the call.
        kept, script = ((self.found / it).read_text() for it in ("kept.txt", "indexes.sql"))
        lines = (self.found / "commands.txt").read_text().splitlines()
        steps = {it[1]: it[2:] for it in map(shlex.split, lines) if it[0] == "cophy-pg"}
        self.assertEqual(self.call("ddl", *steps["ddl"]).stdout, without_gains(script))
        for name in ("export", "verify", "why", "curve"):
            ran = self.call(name, *steps[name], COPHY_PROGRAM="/nowhere")
            self.assertEqual((self.found / "kept.txt").read_text(), kept, name)
            self.assertNotIn("estimates are left out", ran.stderr)

    def test_what_saves_less_than_planning_takes_longer_is_left_out(self) -> None:
        found = self.advise("--planning", "1000000", status=3)
        # A statement that names customer can't be explained, so what an index on it saves isn't known.
        self.assertEqual([it["table"] for it in found["picks"]], ["customer"])
        self.assertEqual(found["options"]["planning"], 1e6)
        why = {it["why"] for it in found["left_out"] if it["table"] == "sales_orders"}
        self.assertEqual(why, {"it saves less time than planning and writing take longer for it"})
        found, other = self.advise("--planning", "0"), self.advise()
        self.assertEqual([it["table"] for it in found["picks"]], [it["table"] for it in other["picks"]])
        words = ("advise", "--sql", str(self.sql), "--budget", "1MB", "--planning", "-1")
        self.assertIn("argument --planning: invalid", self.call(*words, status=2).stderr)

    def test_statements_are_chosen_by_calls_tables_and_users(self) -> None:
        found = self.advise("--min-calls", "2")
        self.assertEqual([it["line"] for it in found["statements"]], [3])
        found = self.advise("--table", "line", "--table", "sales.orders")
        self.assertEqual([it["line"] for it in found["statements"]], [3, 4])
        ran = self.call(
            "advise",
            "--budget",
            "1MB",
            "--sql",
            str(self.sql),
            "--user",
            "cophy",
            "--folder",
            str(self.found),
            status=1,
        )
        self.assertIn("it is known who ran it", ran.stderr)
