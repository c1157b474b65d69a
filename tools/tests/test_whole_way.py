"""The whole way with the program itself: export, `advise`, DDL, verify, why and curve, against a server."""
from __future__ import annotations

import json
import subprocess
import tempfile
import unittest
from pathlib import Path

from cophy_text import answers
from fixtures import COPHY, MISSING, called, shop
from patience import LONG
from private_server import PrivateServer, has_extension

QUERIES = """SELECT id, name FROM customer WHERE city = 'City 3';
SELECT id FROM sales.orders WHERE total = 17.75 ORDER BY id;
SELECT p.title FROM line l JOIN product p ON l.product_id = p.id WHERE p.category = 3 AND l.quantity = 4;
UPDATE customer SET city = 'City 9' WHERE id = 12;
"""


@unittest.skipIf(MISSING, MISSING)
@unittest.skipUnless(COPHY.exists(), "the program isn't built")
class WholeWay(unittest.TestCase):
    """Each step takes what the one before it wrote."""

    server: PrivateServer
    folder: Path
    files: list[str]
    advice: answers.Advice

    @classmethod
    def setUpClass(cls) -> None:
        cls.server = shop()
        folder = tempfile.TemporaryDirectory()
        cls.addClassCleanup(folder.cleanup)
        cls.folder = Path(folder.name)
        (cls.folder / "queries.sql").write_text(QUERIES)
        cls.files = [str(cls.folder / it) for it in ("catalogue.toml", "workload.sql", "advice")]
        words = ("export", *cls.files[:2], "--sql", str(cls.folder / "queries.sql"))
        ran = called(cls.server, *words, PGUSER="cophy_advisor")
        assert ran.returncode == 0, ran.stderr
        told = subprocess.run(
            [str(COPHY), "advise", *cls.files[:2], "1000000"], capture_output=True, text=True, check=True, timeout=LONG
        )
        cls.advice = answers.read_advice(told.stdout)
        Path(cls.files[2]).write_text(told.stdout)

    def call(self, *words: str) -> str:
        ran = called(self.server, *words, PGUSER="cophy_advisor")
        self.assertEqual(ran.returncode, 0, ran.stderr)
        return ran.stdout

    def test_advice_is_finished_and_its_cost_is_the_bound(self) -> None:
        self.assertTrue(self.advice.is_finished)
        self.assertEqual((self.advice.cost, self.advice.gap), (self.advice.bound, 0))
        self.assertIn("customer", {it.table for it in self.advice.picks})
        self.assertEqual(self.advice.size, sum(it.pages for it in self.advice.picks))

    def test_its_ddl_makes_an_index_for_each_pick(self) -> None:
        made = json.loads(self.call("ddl", self.files[0], self.files[2], "--json"))["picks"]
        self.assertEqual(len(made), len(self.advice.picks))
        self.server.psql(self.call("ddl", self.files[0], self.files[2]), "shop")
        for pick in made:
            found = self.server.value(
                f"SELECT schemaname || '.' || indexname FROM pg_indexes WHERE indexname = '{pick['name']}'", "shop"
            )
            self.assertTrue(found, pick)
            self.server.psql(f"DROP INDEX {found}", "shop")

    @unittest.skipUnless(has_extension("hypopg"), "postgresql-15-hypopg isn't installed")
    def test_the_server_takes_a_pick(self) -> None:
        words = ("verify", *self.files, "--sql", str(self.folder / "queries.sql"), "--program", str(COPHY), "--json")
        found = json.loads(self.call(*words))
        self.assertEqual(len(found["picks"]), len(self.advice.picks))
        self.assertTrue(any(it["taken_by"] for it in found["picks"]), found["picks"])

    def test_why_adds_up_to_the_cost_of_the_advice(self) -> None:
        found = json.loads(self.call("why", *self.files, "--program", str(COPHY), "--json"))
        self.assertEqual(found["total"], self.advice.cost)
        self.assertGreater(found["total_without_picks"], found["total"])

    def test_more_pages_never_cost_more(self) -> None:
        words = ("curve", *self.files[:2], "--budgets", "0,40,400,4000", "--program", str(COPHY), "--json")
        costs = [it["cost"] for it in json.loads(self.call(*words))]
        self.assertEqual(len(costs), 4)
        self.assertEqual(costs, sorted(costs, reverse=True))
        self.assertEqual(
            costs[0],
            json.loads(self.call("why", *self.files, "--program", str(COPHY), "--json"))["total_without_picks"],
        )


if __name__ == "__main__":
    unittest.main()
