"""What the picks leave: the index that explains a gap, the budget from which on more helps little, and space that is free."""
from __future__ import annotations

import unittest
from collections.abc import Iterable
from typing import cast

from cophy_text.answers import Advice, Candidate, Prices
from cophy_pg.choice import Choice
from cophy_pg.program import Program
from cophy_pg.remainder import freed, gap_of, knee_of
from cophy_pg.searches import Rules

PICKS = [Candidate(at, "t", (it, "x"), 128) for at, it in enumerate("abcd", 1)]
SAVES = {1: 500, 2: 200, 3: 60, 4: 10}


class Priced:
    """Stands for the program: each pick saves its own."""

    def whatif(self, numbers: Iterable[int]) -> Prices:
        return Prices({}, 1000 - sum(SAVES[it] for it in {*numbers}))


class Remainder(unittest.TestCase):
    def gap(self, left_out: list[tuple[Candidate, str]], rules: Rules, own: list[str], bound: int) -> object:
        kept = Choice(Advice(9, PICKS[:1]), left_out)
        return gap_of(cast(Program, Priced()), Advice(9, [*PICKS], bound=bound), kept, rules, own)

    def test_the_index_that_explains_most_of_a_gap_is_named_with_its_reason(self) -> None:
        never = Rules(["never t(c, x)", "never t.b"])
        why = {"index": "t(b, x)", "why": "no plan takes it"}
        self.assertEqual(self.gap([(PICKS[1], "no plan takes it")], Rules(), [], 240), why)
        why["why"] = "a long value in it would fail"
        self.assertEqual(self.gap([], never, ["never t.b"], 240), why)
        why = {"index": "t(c, x)", "why": "a rule forbids it"}
        self.assertEqual(self.gap([], Rules(never.given[:1]), [], 440), why)
        # Less than half of the gap explains little, and what only other picks took the space of isn't named.
        self.assertIsNone(self.gap([], Rules(never.given[:1]), [], 240))
        self.assertIsNone(self.gap([], Rules(), [], 240))

    def test_more_space_helps_little_from_where_nine_tenths_are_saved(self) -> None:
        points = [Advice(at, [], at, cost) for at, cost in ((0, 1000), (128, 600), (1280, 290), (12800, 200))]
        text = "by our model 10.0 MB save nine tenths of what any indexes can"
        self.assertEqual(knee_of(points, 1000), text.replace("10.0", "100.0"))
        points[2].cost = 280
        self.assertEqual(knee_of(points, 1000), text)
        self.assertIsNone(knee_of(points[:2], 1000))
        self.assertIsNone(knee_of(points[:1] * 3, 1000))

    def test_space_that_is_left_behind_the_search_is_told(self) -> None:
        text = (
            "5.0 MB stay free: 2 picks of the search were left out; forbid them in a file for --rules to let others in"
        )
        self.assertEqual(freed(1280, 640, 2), text)
        self.assertIsNone(freed(1280, 640, 0))
        self.assertIsNone(freed(1280, 1270, 2))


if __name__ == "__main__":
    unittest.main()
