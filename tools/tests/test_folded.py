"""`cophy fold` over the examples and made workloads: what it writes has the candidates of the whole, its advice and its total under
drawn configurations, and is folded already."""
from __future__ import annotations

import os
import random
import unittest
from pathlib import Path
from tempfile import TemporaryDirectory

from fixtures import COPHY
from test_ruled import CATALOGUE, answer, workloads

BUDGETS = (0, 40, 2000)
FORMS = (
    "SELECT c FROM t WHERE a = {}",
    "SELECT c FROM t WHERE a = {} ORDER BY b",
    "SELECT b FROM t WHERE c = {} AND a > 5 -- of a report",
    "SELECT d FROM u WHERE a IN ({}, 7)",
    "SELECT t.b FROM t, u WHERE t.a = u.a AND u.d = {}",
    "SELECT x.b FROM t x JOIN u AS y ON x.a = y.a WHERE y.d = {}",
    "UPDATE t SET b = {} WHERE a = 3",
    "UPDATE t SET c = {} WHERE a = 3",
    "DELETE FROM u WHERE d = {}",
    "INSERT INTO u VALUES ({}, 1)",
    "INSERT INTO u VALUES ({}, 1), (2, 3)",
)


def made(draw: random.Random) -> str:
    """A workload of drawn statements with drawn weights, some of which can't be together with others of their form."""
    lines = []
    for _ in range(draw.randrange(1, 60)):
        weight = draw.choice(
            ("", f"-- weight {draw.randrange(1, 9)}\n", f"/* seldom */ --weight {draw.randrange(400_000, 1_000_001)}\n")
        )
        lines.append(f"{weight}{draw.choice(FORMS).format(draw.randrange(9))}\n;\n")
    return "".join(lines)


@unittest.skipUnless(os.access(COPHY, os.X_OK), "the program isn't built")
class Folded(unittest.TestCase):
    def compare(self, catalogue: Path, workload: Path, folder: Path, draw: random.Random) -> None:
        """The folded workload speaks of the whole."""
        out, again = folder / "folded.sql", folder / "again.sql"
        status, text = answer("fold", catalogue, workload, out)
        self.assertEqual(status, 0, text)
        words = text.split()
        self.assertEqual(words[::2], ["statements", "folded", "total"])
        count, groups, total = map(int, words[1::2])
        self.assertLessEqual(groups, count)
        self.assertEqual(
            answer("fold", catalogue, out, again), (0, f"statements {groups} folded {groups} total {total}\n")
        )
        self.assertEqual(again.read_bytes(), out.read_bytes())
        listed = answer("candidates", catalogue, workload)
        self.assertEqual(answer("candidates", catalogue, out), listed)
        for budget in BUDGETS:
            self.assertEqual(*(self.advised(catalogue, load, budget) for load in (workload, out)))
        for _ in range(10):
            self.compare_prices(
                catalogue, workload, out, [it for it in range(1, listed[1].count("\n")) if draw.random() < 0.4]
            )

    def advised(self, catalogue: Path, load: Path, budget: int) -> tuple[int, list[str]]:
        """The status of advice, and its lines but those of the picks, of which other may be as good, and of the nodes."""
        status, text = answer("advise", catalogue, load, budget)
        return status, [it for it in text.splitlines() if it.split()[0] not in {"pick", "size", "nodes"}]

    def compare_prices(self, catalogue: Path, workload: Path, out: Path, numbers: list[int]) -> None:
        """Both workloads have one total under a configuration."""
        chosen = out.with_name("chosen.conf")
        chosen.write_text("".join(f"{it}\n" for it in numbers))
        one, other = (answer("whatif", catalogue, load, chosen) for load in (workload, out))
        self.assertEqual((one[0], one[1].splitlines()[-1]), (other[0], other[1].splitlines()[-1]))

    def test_the_examples(self) -> None:
        for catalogue, workload in workloads():
            with self.subTest(catalogue=catalogue), TemporaryDirectory() as folder:
                self.compare(catalogue, workload, Path(folder), random.Random(1))

    def test_a_folding_that_is_too_long(self) -> None:
        with TemporaryDirectory() as name:
            folder = Path(name)
            catalogue, workload, out = folder / "catalogue.toml", folder / "workload.sql", folder / "folded.sql"
            catalogue.write_text(CATALOGUE)
            values = 5_000_000
            workload.write_text(f"SELECT c FROM t WHERE a IN ({','.join(['1'] * values)})")
            words = len("SELECT c FROM t WHERE a IN ( ) ;\n") + 4 * values - 2
            told = answer("fold", catalogue, workload, out)
            self.assertEqual(told, (5, f"refused: folded workload too long {len('-- weight 1') + 1 + words}\n"))
            self.assertFalse(out.exists())

    def test_made_workloads(self) -> None:
        for seed in range(20):
            with self.subTest(seed=seed), TemporaryDirectory() as name:
                folder, draw = Path(name), random.Random(seed)
                catalogue, workload = folder / "catalogue.toml", folder / "workload.sql"
                catalogue.write_text(CATALOGUE)
                workload.write_text(made(draw))
                self.compare(catalogue, workload, folder, draw)


if __name__ == "__main__":
    unittest.main()
