"""`sweep` of the program itself: beside `advise` and `check`, and where the tools call it."""
from __future__ import annotations

import functools
import itertools
import json
import re
import subprocess
import unittest
from pathlib import Path

from cophy_text.answers import read_advice, read_points
from fixtures import COPHY, ROOT, TOOL, InFolder
from patience import LONG

CATALOGUE, WORKLOAD = (str(ROOT / "examples" / it) for it in ("shop.toml", "shop.sql"))
POINT = re.compile(r"point (\d+) budget (\d+) size \d+ cost (\d+) bound (\d+) best (\d+) low (\d+) nodes \d+")


def called(*words: str) -> tuple[int, str]:
    """The status and the text of the program."""
    ran = subprocess.run([str(COPHY), *words], stdout=subprocess.PIPE, text=True, check=False, timeout=LONG)
    return ran.returncode, ran.stdout


@functools.cache
def missing() -> str:
    """Why there is nothing to be tested."""
    if not COPHY.exists():
        return "the program isn't built"
    is_older = called("sweep", CATALOGUE, WORKLOAD)[1].startswith("usage: unknown command")
    return "the program is older than sweep" if is_older else ""


class Sweep(InFolder):
    def setUp(self) -> None:
        if missing():
            self.skipTest(missing())
        super().setUp()

    def test_points_are_advice_and_their_certificates_prove_them(self) -> None:
        for first, step, count, nodes in (
            (0, 400, 16, 20000),
            (50, 1000, 4, 20000),
            (253, 1, 2, 20000),
            (0, 300, 16, 3),
        ):
            with self.subTest(first=first, step=step, count=count, nodes=nodes):
                more = ("--nodes", str(nodes))
                prefix = str(self.folder / f"from-{first}-by-{step}-")
                words = (CATALOGUE, WORKLOAD, *map(str, (first, step, count)))
                status, text = called("sweep", *words, *more, "--cert", prefix)
                rows = [[*map(int, it)] for it in POINT.findall(text)]
                self.assertEqual([it[:2] for it in rows], [[at + 1, first + at * step] for at in range(count)])
                costs, bounds = ([it[at] for it in rows] for at in (2, 3))
                self.assertEqual([it[4] for it in rows], [*itertools.accumulate(costs, min)])
                self.assertEqual([it[5] for it in rows], [*itertools.accumulate(bounds[::-1], max)][::-1])
                is_finished = all(it[4] == it[5] for it in rows)
                self.assertEqual((status, text.splitlines()[-1]), (0, "finished") if is_finished else (1, "stopped"))
                for at, it in enumerate(read_points(text), 1):
                    alone = read_advice(called("advise", CATALOGUE, WORKLOAD, str(it.budget), *more)[1])
                    self.assertGreaterEqual(it.cost, alone.bound)
                    self.assertLessEqual(it.bound, alone.cost)
                    said = f"proved cost {it.cost} bound {it.bound} budget {it.budget}\n"
                    self.assertEqual(called("check", CATALOGUE, WORKLOAD, f"{prefix}{at}"), (0, said))
                self.assertFalse(Path(f"{prefix}{count + 1}").exists())
                self.assertEqual(called("sweep", *words, *more), (status, text))

    def test_faulty_words(self) -> None:
        most = str(10**12)
        for numbers, told in (
            (("0", "1", "0"), "usage: bad number at word 6"),
            (("0", "1", "17"), "usage: bad number at word 6"),
            (("0", "0", "1"), "usage: bad number at word 5"),
            (("x", "1", "1"), "usage: bad number at word 4"),
            (("1", most, "2"), "usage: bad number at word 6"),
            (("0", "1"), "usage: missing word 6"),
        ):
            with self.subTest(numbers=numbers):
                self.assertEqual(called("sweep", "c", "l", *numbers), (2, told + "\n"))

    def test_the_curve_of_even_budgets(self) -> None:
        words = [str(TOOL), "curve", CATALOGUE, WORKLOAD, "--json", "--program", str(COPHY)]
        ran = subprocess.run([*words, "--even", "--steps", "15"], capture_output=True, check=True, timeout=LONG)
        found = json.loads(ran.stdout)
        budgets = ",".join(str(it["budget"]) for it in found)
        ran = subprocess.run([*words, "--budgets", budgets], capture_output=True, check=True, timeout=LONG)
        keys = ("budget", "cost", "bound", "is_finished")
        self.assertEqual(len(found), 16)
        for one, other in zip(found, json.loads(ran.stdout), strict=True):
            self.assertEqual([one[it] for it in keys], [other[it] for it in keys])


if __name__ == "__main__":
    unittest.main()
