"""`cophy ruled` and `check-ruled`: without a rule they are `advise` and `check` over every example; under rules they agree with
a plain program that prices each set of candidates, tests it against the rules, and takes the least."""
from __future__ import annotations

import os
import random
import re
import subprocess
import unittest
from dataclasses import dataclass
from itertools import combinations
from pathlib import Path
from tempfile import TemporaryDirectory

from fixtures import COPHY, ROOT
from patience import LONG

EXAMPLES = ROOT / "examples"
PICK = re.compile(r"^pick (\d+) ", re.MULTILINE)
CANDIDATE = re.compile(r"^(\d+) (\w+)\(([\w, ]+)\) (\d+) pages$", re.MULTILINE)

CATALOGUE = """version = 1

[[table]]
name = "t"
rows = 1000
pages = 60
[[table.column]]
name = "a"
kind = "int"
width = 4
distinct = 1000
[[table.column]]
name = "b"
kind = "int"
width = 4
distinct = 20
[[table.column]]
name = "c"
kind = "int"
width = 8
distinct = 200

[[table]]
name = "u"
rows = 4000
pages = 90
[[table.column]]
name = "a"
kind = "int"
width = 4
distinct = 1000
[[table.column]]
name = "d"
kind = "int"
width = 8
distinct = 50
"""
WORKLOAD = """-- weight 20
SELECT c FROM t WHERE a = 1;
-- weight 3
SELECT b FROM t WHERE c = 5 ORDER BY b;
-- weight 7
SELECT d FROM u WHERE a = 2;
-- weight 2
SELECT t.b FROM t, u WHERE t.a = u.a AND u.d = 3;
-- weight 5
UPDATE t SET b = 2 WHERE a = 3;
"""


def workloads() -> list[tuple[Path, Path]]:
    """Each catalogue of the examples with its workload."""
    pairs = [(it, it.with_suffix(".sql")) for it in sorted(EXAMPLES.glob("*.toml"))]
    pairs += [(it, it.with_name("workload.sql")) for it in sorted(EXAMPLES.glob("*/catalogue.toml"))]
    return [(catalogue, workload) for catalogue, workload in pairs if workload.exists()]


def answer(*words: object) -> tuple[int, str]:
    """The status and the text of a call."""
    ran = subprocess.run([COPHY, *map(str, words)], capture_output=True, text=True, check=False, timeout=LONG)
    return ran.returncode, ran.stdout


@dataclass(frozen=True)
class Candidate:
    """A candidate by its number, with its table, keys and pages."""

    number: int
    table: str
    keys: tuple[str, ...]
    pages: int

    def named(self) -> str:
        return f"{self.table}({', '.join(self.keys)})"


@dataclass(frozen=True)
class Rules:
    """Lines of rules, and what they make of each candidate: what is in, and what is out."""

    lines: tuple[str, ...]
    must: frozenset[int]
    never: frozenset[int]

    def broken(self, chosen: frozenset[int]) -> int | None:
        """The least candidate at which a set goes against the rules."""
        return min((self.must - chosen) | (self.never & chosen), default=None)


class Trial:
    """A catalogue and a workload in a folder, with what each set of candidates costs by `whatif`."""

    def __init__(self, folder: Path) -> None:
        self.folder = folder
        self.catalogue, self.workload = folder / "catalogue.toml", folder / "workload.sql"
        self.catalogue.write_text(CATALOGUE)
        self.workload.write_text(WORKLOAD)
        found = CANDIDATE.findall(answer("candidates", self.catalogue, self.workload)[1])
        self.candidates = [
            Candidate(int(n), table, tuple(keys.split(", ")), int(pages)) for n, table, keys, pages in found
        ]
        numbers = [it.number for it in self.candidates]
        every = (frozenset(it) for count in range(len(numbers) + 1) for it in combinations(numbers, count))
        self.costs = {chosen: self.cost(chosen) for chosen in every}

    def cost(self, chosen: frozenset[int]) -> int:
        given = self.folder / "chosen.conf"
        given.write_text("".join(f"{number}\n" for number in sorted(chosen)))
        text = answer("whatif", self.catalogue, self.workload, given)[1]
        return int(text.split()[-1])

    def pages(self, chosen: frozenset[int]) -> int:
        return sum(it.pages for it in self.candidates if it.number in chosen)

    def rules(self, draw: random.Random) -> Rules:
        """Drawn rules that don't contradict each other."""
        lines: list[str] = []
        must: set[int] = set()
        never: set[int] = set()
        for _ in range(draw.randrange(4)):
            one = draw.choice(self.candidates)
            kind = draw.randrange(4)
            if kind == 0:
                line, met, into = f"must {one.named()}", {one.number}, must
            elif kind == 1:
                line, met, into = f"never {one.named()}", {one.number}, never
            elif kind == 2:
                column = draw.choice(one.keys)
                met = {it.number for it in self.candidates if it.table == one.table and column in it.keys}
                line, into = f"never {one.table}.{column}", never
            else:
                line, met, into = (
                    f"never {one.table}",
                    {it.number for it in self.candidates if it.table == one.table},
                    never,
                )
            if not met & (never if into is must else must):
                lines.append(line)
                into |= met
        return Rules(tuple(lines), frozenset(must), frozenset(never))

    def put(self, rules: Rules) -> Path:
        given = self.folder / "given.rules"
        given.write_text("".join(f"{line}\n" for line in rules.lines))
        return given

    def least(self, rules: Rules, budget: int) -> int | None:
        """The least cost of the sets that fit and keep the rules."""
        kept = (
            cost for chosen, cost in self.costs.items() if self.pages(chosen) <= budget and rules.broken(chosen) is None
        )
        return min(kept, default=None)


@unittest.skipUnless(os.access(COPHY, os.X_OK), "the program isn't built")
class Ruled(unittest.TestCase):
    def test_without_a_rule_it_is_advice(self) -> None:
        self.assertGreater(len(workloads()), 5)
        for catalogue, workload in workloads():
            for budget in (0, 40, 2000):
                with self.subTest(catalogue=catalogue, budget=budget), TemporaryDirectory() as folder:
                    kept = Path(folder) / "certificate"
                    status, text = answer("advise", catalogue, workload, budget)
                    ruled = answer("ruled", catalogue, workload, budget, os.devnull, "--cert", kept)
                    self.assertEqual(ruled, (status, "must 0 never 0\n" + text))
                    checked = answer("check", catalogue, workload, kept)
                    self.assertEqual(checked[0], 0)
                    self.assertEqual(answer("check-ruled", catalogue, workload, os.devnull, kept), checked)

    def test_the_rules_of_the_shop_are_kept(self) -> None:
        shop = (EXAMPLES / "shop.toml", EXAMPLES / "shop.sql")
        with TemporaryDirectory() as folder:
            kept = Path(folder) / "certificate"
            status, text = answer("ruled", *shop, 500, EXAMPLES / "shop.rules", "--cert", kept)
            self.assertLessEqual(status, 1, text)
            self.assertTrue(text.startswith("must 1 never 6\n"), text)
            picks = {int(it) for it in PICK.findall(text)}
            self.assertIn(4, picks)
            self.assertFalse(picks & {1, 2, 5, 6, 7, 8})
            status, told = answer("check-ruled", *shop, EXAMPLES / "shop.rules", kept)
            cost, bound = (re.search(rf"^{name} (\d+)$", text, re.MULTILINE) for name in ("cost", "bound"))
            assert cost and bound
            self.assertEqual((status, told), (0, f"proved cost {cost[1]} bound {bound[1]} budget 500\n"))

    def test_it_agrees_with_all_sets(self) -> None:
        draw = random.Random(20)
        with TemporaryDirectory() as folder:
            trial = Trial(Path(folder))
            self.assertEqual(len(trial.candidates), 10)
            whole = trial.pages(frozenset(it.number for it in trial.candidates))
            for turn in range(60):
                rules, budget = trial.rules(draw), draw.randrange(whole + 2)
                with self.subTest(turn=turn, rules=rules.lines, budget=budget):
                    self.compare(trial, rules, budget, trial.rules(draw))

    def compare(self, trial: Trial, rules: Rules, budget: int, others: Rules) -> None:
        """Advice under rules is the least of all sets; its certificate is accepted under them, and others judge its set."""
        files = (trial.catalogue, trial.workload)
        kept = trial.folder / "certificate"
        status, text = answer("ruled", *files, budget, trial.put(rules), "--cert", kept)
        size = trial.pages(rules.must)
        if size > budget:
            self.assertEqual((status, text), (5, f"refused: rules need {size} over {budget}\n"))
            return
        least = trial.least(rules, budget)
        self.assertEqual(status, 0, text)
        self.assertTrue(text.startswith(f"must {len(rules.must)} never {len(rules.never)}\n"), text)
        self.assertIn(f"\ncost {least}\nbound {least}\n", text)
        chosen = frozenset(int(it) for it in PICK.findall(text))
        self.assertIsNone(rules.broken(chosen))
        self.assertEqual(trial.costs[chosen], least)
        accepted = (0, f"proved cost {least} bound {least} budget {budget}\n")
        self.assertEqual(answer("check-ruled", *files, trial.put(rules), kept), accepted)
        told = answer("check-ruled", *files, trial.put(others), kept)
        broken = others.broken(chosen)
        if broken is not None:
            self.assertEqual(told, (6, f"not proved: candidate {broken} breaks a rule\n"))
        elif told[0] == 0:
            self.assertEqual((told, trial.least(others, budget)), (accepted, least))
        else:
            self.assertEqual(told[0], 6, told)


if __name__ == "__main__":
    unittest.main()
