"""`cophy-fleet share`: choices against trying all, bounds against what they say, and the command over kept results."""
from __future__ import annotations

import importlib.util
import itertools
import json
import random
import subprocess
import time
import unittest
import zlib

from cophy_text.answers import Advice
from fixtures import ROOT, InFolder
from patience import LONG

MISSING = "" if importlib.util.find_spec("scipy") else "python3-scipy isn't installed"
if not MISSING:
    from cophy_fleet.outcomes import Point
    from cophy_fleet.share import Sweep, curve, shares
    from cophy_fleet.store import Answer, opened

TOOL = ROOT / "tools" / "fleet" / "cophy-fleet"


def sweep(name: str, draws: random.Random, points: int, greatest: int) -> Sweep:
    """A made sweep, whose least costs lie between its bounds and its costs."""
    most, cost = draws.randrange(points, 5000), draws.randrange(greatest // 2, greatest + 1)
    found: list[Advice] = []
    for it in range(points):
        budget = most * it // points if it < points - 1 else 10**12
        if found and found[-1].budget >= budget:
            continue
        # With less than that it would undercut the bound before it.
        size = draws.randrange(found[-1].budget + 1 if found else 0, min(budget, most) + 1)
        found.append(Advice(budget, [], size, cost, cost - draws.choice((0, 0, cost // 50))))
        cost -= draws.randrange(cost // 3 + 1)
    return Sweep(name, draws.randrange(1, 4), tuple(found))


def fleet(seed: int, databases: int, points: int, greatest: int) -> tuple[Sweep, ...]:
    draws = random.Random(seed)
    return tuple(sweep(f"db{it}", draws, points, greatest) for it in range(databases))


@unittest.skipIf(MISSING, MISSING)
class Share(unittest.TestCase):
    def test_choices_are_those_of_trying_all(self) -> None:
        for seed in range(120):
            draws = random.Random(seed)
            made = fleet(
                seed, draws.randrange(1, 6), draws.randrange(2, 6), draws.choice((60, 10**6, 10**15, 10**36))
            )
            budget = draws.randrange(sum(it.points[-1].size for it in made) + 10)
            all_choices = itertools.product(*(it.points for it in made))
            fit = [it for it in all_choices if sum(point.size for point in it) <= budget]
            costs = [sum(of.weight * point.cost for of, point in zip(made, it, strict=True)) for it in fit]
            if not fit:
                continue
            with self.subTest(seed=seed):
                found = shares(made, budget)
                self.assertLessEqual(found.size, budget)
                self.assertEqual(found.cost, min(costs))

    def test_the_bound_is_below_every_fleet_within_the_points(self) -> None:
        """Whatever the least cost between two budgets is, it is no less than the bound at the next budget."""
        for seed in range(40):
            made = fleet(seed, 3, 4, 10**6)
            budget = random.Random(seed).randrange(5000)
            found = shares(made, budget)
            costs = []
            for steps in itertools.product(*(range(len(it.points)) for it in made)):
                pages = sum(of.points[at - 1].budget + 1 if at else 0 for of, at in zip(made, steps, strict=True))
                if pages <= budget:
                    costs.append(sum(of.weight * of.points[at].bound for of, at in zip(made, steps, strict=True)))
            self.assertLessEqual(found.bound, min(costs))

    def test_the_bound_is_below_the_cost_by_no_more_than_gaps_and_steps(self) -> None:
        """The gap and one step of each database; one of all may count with several steps."""
        for seed in range(200):
            draws = random.Random(seed)
            made = fleet(seed, draws.randrange(1, 13), draws.randrange(2, 10), 10**9)
            found = shares(made, draws.randrange(30000))
            most, more = 0, [0]
            for it in made:
                costs = [point.cost for point in it.points]
                step = max(before - after for before, after in itertools.pairwise(costs))
                most += it.weight * (step + max(point.cost - point.bound for point in it.points))
                more.append(it.weight * (costs[0] - costs[-1] - step))
            with self.subTest(seed=seed):
                self.assertLessEqual(found.bound, found.cost)
                self.assertLessEqual(found.cost - found.bound, most + max(more))

    def test_a_fleet_of_a_thousand_takes_less_than_ten_seconds(self) -> None:
        made = fleet(7, 1000, 9, 10**12)
        began = time.process_time()
        found = shares(made, sum(it.points[-1].size for it in made) // 3)
        self.assertLess(time.process_time() - began, 10)
        self.assertLess(found.cost - found.bound, found.cost // 10)

    def test_the_curve_falls_and_stays_above_its_bound(self) -> None:
        points = curve(fleet(3, 50, 9, 10**9))
        for before, after in itertools.pairwise(points):
            self.assertLess(before[0], after[0])
            self.assertGreater(before[1], after[1])
        for _, cost, bound in points:
            self.assertLessEqual(bound, cost)


@unittest.skipIf(MISSING, MISSING)
class Command(InFolder):
    """The command, over results that are laid in the place of a run's."""

    def setUp(self) -> None:
        super().setUp()
        entries = "".join(
            f'[[database]]\nname = "{it}"\nservice = "x"\nweight = {at}\n' for at, it in enumerate("abc", 1)
        )
        (self.folder / "fleet.toml").write_text("version = 1\n" + entries)
        with opened(str(self.folder / "fleet.sqlite"), is_new=True) as store:
            for name, cost in (("a", 900), ("b", 700)):
                points = (self.point(0, 0, cost), self.point(10**12, 40, cost - 500))
                store.keep(Answer(name, "digest", "", "one", "two", 1.0, 1.0, points))
            store.fail("b", "nothing listens there")
            store.fail("c", "nothing listens there")

    @staticmethod
    def point(budget: int, size: int, cost: int) -> Point:
        pick = f"pick 1 t(c) {size} pages\n" if size else ""
        text = f"budget {budget}\ncandidates 1 left over 0\n{pick}size {size}\ncost {cost}\nbound {cost}\ngap 0\n"
        return Point(budget, text + "nodes 1 of 20000\nfinished\n", zlib.compress(b"cophy certificate 1\n"))

    def call(self, *words: str, status: int = 0) -> tuple[str, str]:
        ran = subprocess.run(
            [str(TOOL), "share", words[0], str(self.folder / "fleet.toml"), *words[1:]],
            capture_output=True,
            text=True,
            check=False,
            timeout=LONG,
        )
        self.assertEqual(ran.returncode, status, ran.stderr)
        return ran.stdout, ran.stderr

    def test_text(self) -> None:
        text, said = self.call("50")
        self.assertEqual(
            text,
            "budget 50\ndatabase a size 0 cost 900 weight 1\ndatabase b size 40 cost 200 weight 2\n"
            "size 40\ncost 1300\nbound 800\ngap 500\n",
        )
        self.assertIn("c gets nothing, since it has no answer", said)
        self.assertIn("b: its answer is of an earlier run, and the last one failed: nothing listens there", said)

    def test_json_and_the_advice_of_each(self) -> None:
        told = json.loads(self.call("90", "--json", "--advice", str(self.folder / "advice"))[0])
        self.assertEqual((told["size"], told["cost"], told["bound"]), (80, 800, 800))
        self.assertEqual(told["databases"][1]["picks"], ["t(c)"])
        self.assertIn("pick 1 t(c) 40 pages\n", (self.folder / "advice" / "a.txt").read_text())
        self.assertEqual((self.folder / "advice" / "b.cert").read_bytes(), b"cophy certificate 1\n")
        self.assertEqual({it.stat().st_mode & 0o777 for it in (self.folder / "advice").iterdir()}, {0o600})

    @unittest.skipIf(importlib.util.find_spec("matplotlib") is None, "python3-matplotlib isn't installed")
    def test_picture(self) -> None:
        self.call("50", "--png", str(self.folder / "curve.png"))
        self.assertTrue((self.folder / "curve.png").read_bytes().startswith(b"\x89PNG"))

    def test_nothing_is_written_through_a_link(self) -> None:
        (self.folder / "advice").mkdir()
        others = self.folder / "others"
        others.write_text("as it was")
        for name in ("advice/a.cert", "curve.png", "linked.sqlite"):
            (self.folder / name).symlink_to(others)
        self.assertIn("symbolic link", self.call("50", "--advice", str(self.folder / "advice"), status=2)[1])
        self.assertIn("symbolic link", self.call("50", "--png", str(self.folder / "curve.png"), status=2)[1])
        for name, why in (("linked.sqlite", "symbolic link"), ("fleet.toml", "it is the same file")):
            words = ["run", str(self.folder / "fleet.toml"), "--results", str(self.folder / name)]
            ran = subprocess.run([str(TOOL), *words], capture_output=True, text=True, check=False, timeout=LONG)
            self.assertEqual(ran.returncode, 2)
            self.assertIn(why, ran.stderr)
        self.assertEqual(others.read_text(), "as it was")

    def test_faults(self) -> None:
        self.assertIn("is no amount of space", self.call("5PB", status=2)[1])
        self.assertIn("is no amount of space", self.call("x", status=2)[1])
        self.assertEqual(self.call("400kB")[0], self.call("50")[0])
        self.assertIn("there are no results", self.call("5", "--results", str(self.folder / "none"), status=2)[1])


if __name__ == "__main__":
    unittest.main()
