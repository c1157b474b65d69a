"""The scripts of bench/field over a toy database: each advisor's indexes are made, measured and told within the budget."""
from __future__ import annotations

import json
import os
import subprocess
import sys
import tempfile
import unittest
from pathlib import Path
from typing import Any

from fixtures import COPHY, NO_HYPOPG, ROOT, STAND_IN
from patience import LONG

FIELD = ROOT / "bench" / "field"
sys.path[:0] = [str(FIELD)]

from ours import made_of, picks_of  # noqa: E402
from prices import Prices  # noqa: E402
from selections import SELECTIONS  # noqa: E402
from statements import HALVES, statements_of  # noqa: E402
from tables import load, row, slower, text_of  # noqa: E402

# By number: the pages of a candidate, and what it saves of which of two statements that cost 100 each.
KNAPSACK = {1: (6, (60, 0)), 2: (5, (0, 48)), 3: (5, (47, 0)), 4: (9, (80, 0))}


class Knapsack:
    """Prices of two statements, of which each takes its best index."""

    candidates = {
        it: type("Candidate", (), {"number": it, "table": "t", "columns": (f"c{it}",), "pages": size})()
        for it, (size, _) in KNAPSACK.items()
    }
    weights = [1, 1]

    def pages(self, chosen: frozenset[int]) -> int:
        return sum(KNAPSACK[it][0] for it in chosen)

    def statement_costs(self, chosen: frozenset[int]) -> list[int]:
        return [100 - max((KNAPSACK[it][1][at] for it in chosen), default=0) for at in (0, 1)]

    def cost(self, chosen: frozenset[int]) -> int:
        return sum(self.statement_costs(chosen))

    def costs(self, _: frozenset[int], sets: list[frozenset[int]]) -> list[int]:
        return [self.cost(it) for it in sets]

    def taken(self, number: int) -> frozenset[int]:
        return frozenset((4,) if number == 1 else (2,))


class Parts(unittest.TestCase):
    def test_both_halves_of_each_database_have_statements(self) -> None:
        for database in ("tpch", "bank", "orders", "forum"):
            found = statements_of(database)
            self.assertEqual(len({it.name for it in found}), len(found))
            counts = [sum(it.half == half for it in found) for half in HALVES]
            self.assertLessEqual(abs(counts[0] - counts[1]), 1, database)
            for it in found:
                self.assertNotIn("{", it.drawn(0, 0.1))
                self.assertEqual(it.drawn(7, 0.1), it.drawn(7, 0.1))

    def test_selections_fit_and_are_those_of_the_rules(self) -> None:
        # 1 saves most for a page; the plans take 4 and 2 alone, which the others choose from.
        chosen = {name: [sorted(rule(Knapsack(), it)) for it in (4, 9, 11, 14)] for name, rule in SELECTIONS.items()}
        self.assertEqual(chosen["Extend"], [[], [1], [1, 2], [1, 2]])
        self.assertEqual(chosen["DB2 Advisor"], [[], [4], [4], [2, 4]])
        self.assertEqual(chosen["AutoAdmin"], [[], [4], [4], [2, 4]])

    def test_what_no_round_has_timed_has_costs_and_pages_alone(self) -> None:
        with tempfile.TemporaryDirectory() as name:
            folder = Path(name, "table", "toy")
            folder.mkdir(parents=True)

            def write(file: str, cost: float, rounds: list[float], pages: dict[str, int]) -> None:
                found = {"costs": {"q": cost}, "times": {"q": rounds}, "processor": {"q": rounds}, "calls_of": {"q": 2}}
                more = {"heap": 100, "budget": 50, "taken": [*pages], "calls": 0, "seconds_to_advise": 0}
                Path(folder, file).write_text(json.dumps({**found, **more, "pages": pages}))

            def told() -> list[str]:
                none, ours = load(folder), load(folder, 50, "cophy", "real")
                assert none is not None and ours is not None
                self.assertEqual(slower(ours, none), [])
                cells: list[str] = row(ours, none)[:5]
                return cells

            write("none.json", 10, [], {})
            write("cophy-real-50.json", 4, [], {"t(a)": 20})
            write("greedy-real-50.json", 5, [], {"t(b)": 20})
            self.assertEqual(told(), ["40.0", "", "", "1", "40"])
            text = text_of(folder.parent, ["toy"], (50,))
            self.assertIn("greedy, cost: at or below at 1 of 1", text)
            self.assertNotIn("greedy, time", text)
            write("none.json", 10, [3, 2, 7], {})
            write("cophy-real-50.json", 4, [1, 1, 2], {"t(a)": 20})
            self.assertEqual(told(), ["40.0", "33.3", "33.3", "1", "40"])

    def test_the_script_makes_what_has_no_caveat(self) -> None:
        picks = [
            {"statements": [f"CREATE INDEX {it} ON public.t ({it});"], "caveat": why}
            for it, why in (("a", None), ("b", "why"))
        ]
        document = {"picks": picks, "hints": []}
        self.assertEqual([*map(str, picks_of(document))], ["t(a)", "t(b)"])
        self.assertEqual([*map(str, made_of(document))], ["t(a)"])

    @unittest.skipUnless(COPHY.exists(), "the program isn't built")
    def test_costs_that_share_calls_are_those_of_calls_alone(self) -> None:
        sys.path[:0] = [str(FIELD.parent)]
        from generator import texts

        with tempfile.TemporaryDirectory() as folder:
            files = [str(Path(folder, it)) for it in ("c.toml", "w.sql")]
            for file, text in zip(files, texts(3, 4, 8)):
                Path(file).write_text(text)
            together = Prices(str(COPHY), *files)
            base = frozenset((1, 3))
            sets = [base ^ {it} for it in together.candidates]
            before = together.calls
            found = together.costs(base, sets)
            self.assertLess(together.calls - before, len(sets))
            for it, cost in list(zip(sets, found))[:: max(1, len(sets) // 6)]:
                self.assertEqual(Prices(str(COPHY), *files).cost(it), cost)


@unittest.skipIf(NO_HYPOPG, NO_HYPOPG)
class Toy(unittest.TestCase):
    results: dict[str, Any]
    text: str

    @classmethod
    def setUpClass(cls) -> None:
        folder = tempfile.TemporaryDirectory()
        cls.addClassCleanup(folder.cleanup)
        os.chmod(folder.name, 0o755)
        words = [
            "--databases",
            "orders",
            "--scale",
            "0.01",
            "--budgets",
            "50",
            "--runs",
            "1",
            "--program",
            str(STAND_IN),
        ]
        ran = subprocess.run(
            [str(FIELD / "field.py"), folder.name, *words], capture_output=True, text=True, check=False, timeout=LONG
        )
        assert ran.returncode == 0, ran.stderr
        cls.text = ran.stdout
        found = Path(folder.name, "table", "orders").glob("*.json")
        cls.results = {it.stem: json.loads(it.read_text()) for it in found}

    def test_each_advisor_is_measured_and_told(self) -> None:
        rivals = ("Dexter-hypopg-50", "Dexter-real-50", "foreign_keys-real-50", "greedy-hypopg-50", "greedy-real-50")
        self.assertEqual(sorted(self.results), sorted((*rivals, "cophy-real-50", "cophy_made-real-50", "none")))
        self.assertEqual(self.text.count("| 50 % |"), 7)

    def test_all_statements_have_costs_and_times(self) -> None:
        names = {it.name for it in statements_of("orders") if it.half == "table"}
        for result in self.results.values():
            self.assertEqual(set(result["costs"]), names)
            self.assertEqual(set(result["times"]), names)
            self.assertGreater(min(min(it) for it in result["times"].values()), 0)

    def test_rivals_keep_the_budget_in_real_pages(self) -> None:
        for name, result in self.results.items():
            if name.endswith("real-50") and not name.startswith("cophy"):
                self.assertLessEqual(sum(result["pages"].values()), result["budget"], name)
                self.assertTrue(result["pages"], name)

    def test_what_saves_nothing_is_no_pick_of_greedy(self) -> None:
        none, greedy = self.results["none"], self.results["greedy-real-50"]
        reads = [it.name for it in statements_of("orders") if it.half == "table" and it.reads()]
        self.assertLess(sum(greedy["costs"][it] for it in reads), 0.5 * sum(none["costs"][it] for it in reads))
        self.assertGreater(greedy["calls"], 100)
        self.assertEqual(self.results["foreign_keys-real-50"]["calls"], 0)


if __name__ == "__main__":
    unittest.main()
