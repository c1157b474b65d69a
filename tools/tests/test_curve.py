"""`cophy-pg curve`: its budgets, its lines, and its picture."""
from __future__ import annotations

import importlib.util
import json
import random
import unittest
from pathlib import Path

from cophy_text.answers import Advice, Candidate
from fixtures import NO_PARSER, STAND_IN, InFolder

HAS_MATPLOTLIB = importlib.util.find_spec("matplotlib") is not None
if not NO_PARSER:
    from cophy_pg.curve import Search, _database, between
    from cophy_pg.curves import Point, bound_steps, cost_steps
    from cophy_pg.drawing import _lines, _scales
    from cophy_pg.program import NoCommand, Program

# Indexes of 3, 40 and 300 pages that save 5000, 2000 and 1000 of 9000; the bound is 100 below the cost.
SIZES = ((3, 5000), (40, 2000), (300, 1000))
PROGRAM = """#!/bin/sh
[ "$1" = advise ] || { printf "size 0\\nstatement 1 weight 1 cost 9000\\ntotal 9000\\n"; exit 0; }
size=0 cost=9000 picks=""
for it in 3:5000 40:2000 300:1000; do
    if [ "$4" -ge $((size + ${it%:*})) ]; then
        size=$((size + ${it%:*})) cost=$((cost - ${it#*:}))
        picks="${picks}pick ${it%:*} t(c${it%:*}) ${it%:*} pages\\n"
    fi
done
printf "budget $4\\ncandidates 3 left over 0\\n$picks"
printf "size $size\\ncost $cost\\nbound $((cost - 100))\\ngap 100\\nnodes 3 of 9\\nstopped\\n"
"""


def best(budget: int) -> int:
    """What the workload costs at best within a budget: the indexes of SIZES, taken in turn."""
    cost, size = 9000, 0
    for pages, saved in SIZES:
        if budget >= size + pages:
            cost, size = cost - saved, size + pages
    return cost


@unittest.skipIf(NO_PARSER, NO_PARSER)
class Lines(unittest.TestCase):
    """What the lines say is true between the points too."""

    def test_no_indexes_cost_more_than_the_one_line_or_less_than_the_other(self) -> None:
        chance = random.Random(7)
        for _ in range(100):
            points = []
            for budget in {chance.randrange(400) for _ in range(6)}:
                # Advice that isn't the best, and a bound that isn't reached.
                taken = chance.randrange(budget + 1)
                worse, lower = chance.choice((0, 0, 300)), chance.choice((0, 0, 500))
                points.append(Point(budget, taken, best(taken) + worse, best(budget) - lower, 1))
            costs, bounds = cost_steps(points), bound_steps(points)
            self.assertEqual([it.cost for it in costs], sorted({it.cost for it in costs}, reverse=True))
            self.assertEqual([it.cost for it in bounds], sorted({it.cost for it in bounds}, reverse=True))
            for budget in range(400):
                for cost in (it.cost for it in costs if it.pages <= budget):
                    self.assertGreaterEqual(cost, best(budget))
                for bound in (it.cost for it in bounds if it.pages >= budget):
                    self.assertLessEqual(bound, best(budget))

    def test_most_budgets_lie_where_the_curve_is_steep(self) -> None:
        class Falling(Program):
            def advise(self, budget: int, nodes: int | None = None) -> Advice:
                size = min(budget, 10000)
                return Advice(budget, [Candidate(1, "t", ("c",), size)], size, 10**9 // (100 + size), 0)

        found = [it.budget for it in Search(Falling("", "", ""), None).along(16)]
        self.assertEqual((len(found), found[0], found[-1]), (17, 0, 10000))
        self.assertGreater(sum(it < 2500 for it in found), 10)

    def test_even_budgets_are_one_sweep(self) -> None:
        class Swept(Program):
            has_sweep, called = True, list[tuple[str, ...]]()

            def text(self, command: str, *more: str) -> str:
                self.called.append((command, *more))
                if command == "candidates":
                    return (
                        "".join(f"{at} t(c{at}) {size} pages\n" for at, (size, _) in enumerate(SIZES, 1))
                        + "left over 0\n"
                    )
                if command == "advise":
                    return f"budget {more[0]}\nsize 343\ncost 1000\nbound 1000\ngap 0\nnodes 1 of 9\nfinished\n"
                if not self.has_sweep:
                    raise NoCommand("cophy sweep answers: usage: unknown command at word 1")
                first, step, count = map(int, more[:3])
                lines = []
                for at in range(count):
                    budget, picks = first + at * step, ""
                    for number, (pages, _) in enumerate(SIZES, 1):
                        picks += f" {number}" * (budget >= sum(size for size, _ in SIZES[:number]))
                    cost = best(budget)
                    Path(f"{more[-1]}{at + 1}").write_text(f"cophy certificate 1\nbudget {budget}\nconfig{picks}\n")
                    size = sum(SIZES[int(it) - 1][0] for it in picks.split())
                    lines.append(f"point {at + 1} budget {budget} size {size} cost {cost} bound {cost - 100} ")
                    lines[-1] += f"best {cost} low {cost - 100} nodes 3"
                return "\n".join([*lines, "stopped", ""])

        program = Swept("", "", "")
        found = Search(program, 7).evenly(15)
        self.assertEqual([it[0] for it in program.called], ["advise", "sweep", "candidates"])
        self.assertEqual(program.called[1][1:7], ("0", "23", "16", "--nodes", "7", "--cert"))
        self.assertEqual([it.budget for it in found], list(range(0, 346, 23)))
        self.assertEqual([it.cost for it in found], [best(it.budget) for it in found])
        self.assertEqual({len(it.picks) for it in found}, {0, 1, 2, 3})
        self.assertEqual([it.shown() for it in found[-1].picks], ["t(c1)", "t(c2)", "t(c3)"])
        self.assertTrue(all(it.size == sum(pick.pages for pick in it.picks) and it.gap == 100 for it in found))
        # More points than a sweep has, and a program that is older.
        program.called.clear()
        self.assertEqual(len(Search(program, None).evenly(16)), 17)
        program.has_sweep = False
        self.assertEqual([it.budget for it in Search(program, None).evenly(2)], [0, 172, 344])
        self.assertEqual({it[0] for it in program.called[:18]}, {"advise"})
        self.assertEqual([it[0] for it in program.called[18:]], ["advise", "sweep", "advise", "advise", "advise"])

    def test_the_next_budget_lies_where_the_most_is_unknown(self) -> None:
        def advice(budget: int, size: int, cost: int) -> Advice:
            return Advice(budget, [Candidate(1, "t", ("c",), size)], size, cost)

        self.assertEqual(between([advice(0, 0, 900), advice(100, 100, 100), advice(900, 900, 50)]), 50)
        self.assertEqual(between([advice(0, 0, 900), advice(100, 20, 100), advice(900, 900, 50)]), 500)
        # Of an advice that takes less than its budget nothing is unknown from its size on.
        self.assertEqual(between([advice(0, 0, 900), advice(100, 20, 100)]), 10)
        self.assertIsNone(between([advice(0, 0, 900), advice(100, 1, 100), advice(300, 1, 100)]))


@unittest.skipUnless(not NO_PARSER and Path("/usr/bin/python3").exists(), "python3-pglast isn't installed")
class Command(InFolder):
    def setUp(self) -> None:
        super().setUp()
        self.program = self.lay_program(PROGRAM)
        (self.folder / "c.toml").write_text("# The database 'sh$o_p', exported by cophy-pg.\nversion = 2\n")
        (self.folder / "l.sql").write_text("SELECT c FROM t;\n")

    def call(self, *more: str) -> str:
        return self.tool("curve", "c.toml", "l.sql", *more, "--program", self.program).stdout

    def test_it_has_a_line_for_each_budget(self) -> None:
        lines = self.call("--budgets", "0,2,400kB,343").splitlines()
        self.assertEqual([it.split()[0] for it in lines[1:-1]], ["0", "2", "50", "343"])
        self.assertTrue(lines[-1].startswith("costs are in thousandths of a sequential page read"))
        shown = ["50", "0.4", "MB", "43", "2", "2,000", "77.8", "%", "1,900", "5.00", "%"]
        self.assertEqual(lines[3].split(), shown)
        found = json.loads(self.call("--budgets", "0,5", "--json"))
        self.assertEqual(
            [(it["budget"], it["saved"], it["picks"]) for it in found], [(0, 0.0, []), (5, 55.5556, ["t(c3)"])]
        )

    def test_budgets_lie_where_the_curve_bends(self) -> None:
        found = json.loads(self.call("--steps", "4", "--json"))
        self.assertEqual([it["budget"] for it in found], [0, 21, 171, 257, 343])
        self.assertEqual({it["size"] for it in found}, {0, 3, 43, 343})

    def test_it_ends_where_nothing_is_unknown(self) -> None:
        found = Search(Program(self.program, "c", "w"), None).along(1000)
        self.assertLess(len(found), 40)
        self.assertEqual([it.budget for it in found], sorted({it.budget for it in found}))
        known = {(it.size, it.cost) for it in found}
        self.assertEqual(known, {(0, 9000), (3, 4000), (43, 2000), (343, 1000)})

    def test_even_budgets_by_one_sweep_are_those_of_one_advice_after_the_other(self) -> None:
        columns = "".join(f'[[table.column]]\nname = "{it}"\nkind = "int"\nwidth = 4\n' for it in "ab")
        tables = "".join(f'[[table]]\nname = "t{it}"\nrows = 9\npages = {40 * it}\n{columns}' for it in (1, 2, 3))
        (self.folder / "c.toml").write_text(f"version = 1\n{tables}")
        texts = (f"-- weight {it}\nselect a from t{it}\nwhere b = 5;\n" for it in (1, 2, 3))
        (self.folder / "l.sql").write_text("".join(texts))
        found = []
        for without in ("none", "sweep"):
            lines = (
                "#!/bin/sh",
                f'echo "$1" >>{self.folder}/{without}',
                f'[ "$1" != {without} ] || {{ echo "usage: unknown command at word 1"; exit 2; }}',
                f'exec {STAND_IN} "$@"',
            )
            self.lay_program("\n".join(lines) + "\n")
            found.append(json.loads(self.call("--even", "--steps", "5", "--json")))
        self.assertEqual(found[0], found[1])
        self.assertEqual([it["budget"] for it in found[0]], [0, 14, 28, 42, 56, 70])
        self.assertEqual((self.folder / "none").read_text().split(), ["advise", "sweep", "candidates"])
        self.assertEqual((self.folder / "sweep").read_text().split(), ["advise", "sweep", *6 * ["advise"]])
        # Budgets that are named are no sweep, be they even or not.
        self.call("--budgets", "0,10,20")
        self.assertEqual((self.folder / "sweep").read_text().split()[8:], 3 * ["advise"])

    def test_the_title_has_the_database_or_the_file(self) -> None:
        (self.folder / "plain.toml").write_text("version = 2\n")
        for file, title in (("c.toml", "sh$o_p"), ("plain.toml", "plain.toml")):
            self.assertEqual(_database(str(self.folder / file)), title)

    @unittest.skipUnless(HAS_MATPLOTLIB, "python3-matplotlib isn't installed")
    def test_axes_of_the_picture(self) -> None:
        from matplotlib import pyplot

        points = [Point(0, 0, 9000000, 8000000, 0), Point(10**6, 10**6, 1000, -5000, 17)]
        axes = pyplot.figure().add_subplot()
        _lines(axes, points, 8192 / 2**20, 10**6)
        _scales(axes, 9000000, 8192 / 2**20, "MB")
        axes.figure.canvas.draw()
        texts = [it.get_text() for it in axes.texts]
        self.assertEqual(texts, ["0", "17"])
        self.assertLess(axes.texts[-1].get_window_extent().x1, axes.get_window_extent().x1)
        shown = [axes.xaxis, axes.yaxis, *(it for child in axes.child_axes for it in (child.xaxis, child.yaxis))]
        self.assertEqual({it.get_offset_text().get_text() for it in shown}, {""})
        labels = {it.get_label_text() for it in shown}
        self.assertLessEqual({"budget (MB)", "pages of 8192 bytes", "saved by our model"}, labels)
        pyplot.close("all")

    @unittest.skipUnless(HAS_MATPLOTLIB, "python3-matplotlib isn't installed")
    def test_it_draws_a_png(self) -> None:
        for budgets in (("--budgets", "0"), ("--budgets", "40,9000000"), ("--steps", "3")):
            with self.subTest(budgets=budgets):
                self.call(*budgets, "--png", "curve.png")
                self.assertEqual((self.folder / "curve.png").read_bytes()[:4], b"\x89PNG")


if __name__ == "__main__":
    unittest.main()
