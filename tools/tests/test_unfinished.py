"""`cophy-pg advise` where it is broken off, and where there is no time for all exchanges."""
from __future__ import annotations

import json
import os
import shlex
import signal
import subprocess
import unittest

from fixtures import NO_HYPOPG, ROOT, STAND_IN, TOOL, OverShop
from patience import LONG, until

HELD = f"""#!/usr/bin/python3 -IB
import os, signal, sys, time
from pathlib import Path
signal.signal(signal.SIGINT, signal.SIG_DFL)
if sys.argv[1:2] == ["whatif"] and Path(sys.argv[2]).with_name("unfinished.txt").exists():
    if "FAULT" in os.environ:
        print("refused")
        sys.exit(2)
    Path(__file__).with_name("held").touch()
    time.sleep({LONG})
os.execv({str(STAND_IN)!r}, [{str(STAND_IN)!r}, *sys.argv[1:]])
"""
"""A program that sleeps while picks are exchanged, or refuses to price them."""
LATE = f"""import functools, itertools, sys
sys.path[:0] = {[str(ROOT / "tools" / it) for it in ("pg", "lint", "common")]!r}
from cophy_pg import advise, main
advise.Searches = functools.partial(advise.Searches, clock=itertools.count(0, 31).__next__)
sys.exit(main.main())
"""
"""The tool with a clock by which half a minute is over whenever it is looked at."""


@unittest.skipIf(NO_HYPOPG, NO_HYPOPG)
class Unfinished(OverShop):
    def setUp(self) -> None:
        super().setUp()
        self.sql, self.found = self.folder / "queries.sql", self.folder / "found"
        self.sql.write_text("SELECT id FROM sales.orders WHERE total = 17.75 ORDER BY id;\n")

    def test_what_is_broken_off_leaves_what_the_last_round_advised(self) -> None:
        program, held = self.lay_program(HELD), self.folder / "held"
        words = [str(TOOL), "advise", "--sql", str(self.sql), "--budget", "20MB", "--folder", str(self.found)]
        ends: list[tuple[int, list[str]]] = [(signal.SIGINT, ["--include"]), (signal.SIGTERM, []), (0, [])]
        for number, more in ends:
            given = {"PGUSER": "cophy_advisor", "COPHY_PROGRAM": program} | ({} if number else {"FAULT": "1"})
            with subprocess.Popen(
                [*words, *more],
                stdout=subprocess.DEVNULL,
                stderr=subprocess.PIPE,
                text=True,
                env=self.server.environment("shop", **given),
                start_new_session=True,
            ) as ran:
                if number:
                    until(held.exists, "picks are exchanged")
                    os.killpg(ran.pid, number)
                said = ran.communicate(timeout=LONG)[1]
            with self.subTest(number=number):
                self.assertEqual(ran.returncode, 128 + number if number else 1)
                left = ["catalogue.toml", "database.toml", "export.txt", "lint.txt", "unfinished.txt", "workload.sql"]
                self.assertEqual(sorted(it.name for it in self.found.iterdir()), left)
                told = f"the server didn't judge, is in {self.found}/unfinished.txt; as a script:\ncophy-pg: "
                self.assertIn(told, said)
                command = shlex.split(said.partition(told)[2].splitlines()[0])
                self.assertEqual((command[:2], "--include" in command), ([str(TOOL), "ddl"], bool(more)))
                self.assertEqual(command[-2:], [">", f"{self.found}/indexes.sql"])
                self.assertIn('ON "sales"."orders" ("total")', self.call(*command[1:-2]).stdout)
                for later in (["effect"], ["report"], ["changes", str(self.found)]):
                    refused = self.call(*later, str(self.found), status=1).stderr
                    anew = f"{self.found}: this advice was broken off, or isn't done yet; anew: cophy-pg advise shop --folder "
                    self.assertIn(anew, refused)
                    again = refused.partition("didn't judge: cophy-pg ")[2]
                    self.assertIn('ON "sales"."orders" ("total")', self.call(*shlex.split(again)).stdout)
            held.unlink(missing_ok=True)
        self.call(*words[1:], COPHY_PROGRAM=str(STAND_IN))
        self.assertFalse((self.found / "unfinished.txt").exists())

    def test_it_is_told_once_where_there_was_no_time_for_all_exchanges(self) -> None:
        words = ["advise", "--sql", str(self.sql), "--budget", "20MB", "--folder", str(self.found), "--json"]
        words += ["--patience", "99999"]
        given = self.server.environment("shop", PGUSER="cophy_advisor", COPHY_PROGRAM=str(STAND_IN))
        ran = subprocess.run(
            ["/usr/bin/python3", "-IB", "-c", LATE, *words], capture_output=True, text=True, env=given, timeout=LONG
        )
        self.assertEqual(ran.returncode, 0, ran.stderr)
        cut = "picks were exchanged for others for a limited time only, so others may cost less in the same space"
        self.assertEqual(json.loads(ran.stdout)["warnings"].count(cut), 1)
        self.assertEqual((self.found / "details.txt").read_text().count(f"warning: {cut}\n"), 1)
        found = self.call(*words, COPHY_PROGRAM=str(STAND_IN)).stdout
        self.assertNotIn(cut, json.loads(found)["warnings"])

    def test_what_refines_ends_with_the_patience_and_what_stands_is_finished(self) -> None:
        self.sql.write_text("SELECT id FROM sales.orders WHERE total = 17.75 ORDER BY id;\nSELECT 1 FROM pg_class;\n")
        words = ["advise", "--sql", str(self.sql), "--budget", "20MB", "--folder", str(self.found)]
        told = "refining the advice was cut after 0 seconds: --patience SECONDS goes on longer"
        texts = list[str]()
        for more in (["--patience", "0"], list[str]()):
            ran = self.call(*words, *more, COPHY_PROGRAM=str(STAND_IN))
            self.assertEqual(ran.returncode, 0, ran.stderr)
            document = json.loads((self.found / "advice.json").read_text())
            self.assertEqual(told in document["warnings"], bool(more))
            self.assertEqual((self.found / "curve.json").exists(), not more)
            self.assertEqual(f"warning: {told}\n" in ran.stdout, bool(more))
            self.assertEqual(f"warning: {told}\n" in (self.found / "details.txt").read_text(), bool(more))
            for it in ("certificate", "check.txt", "verify.json", "indexes.sql", "report.html", "summary.txt"):
                self.assertTrue((self.found / it).exists(), it)
            texts.append((self.found / "indexes.sql").read_text())
        self.assertIn('ON "sales"."orders" ("total"', texts[0])


if __name__ == "__main__":
    unittest.main()
