"""Candidates that the server's planner takes in the space that is left."""
from __future__ import annotations

import unittest

from cophy_text.answers import Advice, Candidate
from fixtures import NO_PARSER

if not NO_PARSER:
    from test_exchange import Made

    from cophy_pg.beside import Beside, shares
    from cophy_pg.choice import Choice
    from cophy_pg.exchange import Exchange
    from cophy_pg.inputs import Input
    from cophy_pg.outcomes import Verdict


@unittest.skipIf(NO_PARSER, NO_PARSER)
class Steps(unittest.TestCase):
    """Candidates 1 to 6, of which our model knows nothing but that 6 costs much where rows are written."""

    def setUp(self) -> None:
        self.sizes = {1: 40, 2: 30, 3: 10, 4: 20, 5: 25, 6: 5}
        upkeep = dict.fromkeys(range(1, 7), 0) | {6: 90000}
        self.prices = Made([{}], upkeep)

    def verdict(self, number: int, before: float, after: float, *taken: int) -> Verdict:
        it = Verdict(number, Input(f"SELECT {number}", calls=10), {number: 1.0})
        it.before, it.after, it.taken = before, after, [*taken]
        return it

    def beside(self, room: int, picks: tuple[int, ...], verdicts: list[Verdict], *out: int) -> Beside:
        candidates = {it: Candidate(it, "t", (f"c{it}",), 1) for it in self.sizes}
        choice = Choice(Advice(9, picks=[candidates[it] for it in picks]), [(candidates[it], "") for it in out])
        return Beside(choice, verdicts, Exchange(self.prices, self.sizes, room, frozenset((2,))))

    def test_what_is_taken_shares_what_is_saved(self) -> None:
        listed = [self.verdict(1, 100, 40, 1, 3), self.verdict(2, 50, 20, 3), self.verdict(3, 9, 9)]
        self.assertEqual(shares(listed, {1: 100, 2: 50, 3: 9}, {1, 3}), {1: 300, 3: 600})
        self.assertEqual(shares(listed, {1: 100, 2: None, 3: 9}, {3}), {3: 600})

    def test_space_is_filled_by_what_saves_the_most_a_page(self) -> None:
        now = [self.verdict(1, 100, 40, 1), self.verdict(2, 90, 90), self.verdict(3, 80, 80), self.verdict(4, 8, 8)]
        beside = self.beside(75, (1,), now, 3)
        asked = beside.asked_about()
        assert asked is not None
        self.assertEqual([it.number for it in asked.picks], [1, 4, 5, 6])
        then = [self.verdict(1, 100, 40, 1), self.verdict(2, 90, 30, 5), self.verdict(3, 80, 60, 4)]
        self.assertEqual(beside.better(then), {1, 5})
        # What costs more where rows are written than it saves isn't taken.
        self.assertEqual(beside.better([self.verdict(4, 8, 2, 6)]), {1})
        self.assertEqual(beside.better([self.verdict(4, 8, 7.999, 4)]), {1})
        self.prices.upkeep[6] = 25000
        self.assertEqual(beside.better([self.verdict(4, 8, 3.5, 6)]), {1})
        self.assertEqual(beside.better([self.verdict(4, 8, 2.5, 6)]), {1, 6})
        self.assertIsNone(self.beside(40, (1,), now).asked_about())

    def test_weak_picks_make_way_for_what_saves_more(self) -> None:
        now = [self.verdict(1, 1000, 40, 1), self.verdict(2, 90, 89, 3), self.verdict(3, 80, 80)]
        beside = self.beside(62, (1, 3), now)
        asked = beside.asked_about()
        assert asked is not None
        self.assertEqual([it.number for it in asked.picks], [1, 3, 4, 6])
        self.assertEqual(beside.better([self.verdict(3, 80, 75, 4)]), {1, 4})
        self.assertEqual(beside.better([self.verdict(3, 80, 79.5, 4)]), {1, 3})

    def test_a_pick_of_which_the_first_column_would_do_makes_room(self) -> None:
        now = [self.verdict(1, 100, 10, 1), self.verdict(2, 90, 90), self.verdict(3, 80, 80)]
        beside = self.beside(50, (1,), now)
        known = beside.exchange.pricing.candidates
        known[1], known[3] = Candidate(1, "t", ("a", "b"), 1), Candidate(3, "t", ("a",), 1)
        (trade,) = beside.narrower()
        self.assertEqual((trade.pick, trade.other, beside.users(trade)), (1, 3, now[:1]))
        self.assertEqual([it.number for it in beside.with_trade(trade).picks], [3])
        trade = beside.priced(trade, [self.verdict(1, 100, 15, 3)])
        self.assertEqual(trade.loss, 50)
        asked = beside.asked_about([trade])
        assert asked is not None
        self.assertEqual([it.number for it in asked.picks], [1, 3, 4, 5, 6])
        then = [self.verdict(2, 90, 80, 5), self.verdict(3, 80, 70, 4)]
        self.assertEqual(beside.better(then), {1})
        self.assertEqual(beside.better(then, [trade]), {3, 4})
        # The trade loses more than what would come saves.
        self.assertEqual(beside.better([self.verdict(2, 90, 86, 5)], [trade]), {1})

    def test_what_is_too_large_hides_nothing(self) -> None:
        now = [self.verdict(1, 100, 10, 1), self.verdict(2, 90, 90), self.verdict(3, 80, 80)]
        beside, asked = self.beside(50, (1,), now), list[list[int]]()
        known = beside.exchange.pricing.candidates
        known[1], known[3] = Candidate(1, "t", ("a", "b"), 1), Candidate(3, "t", ("a",), 1)
        (trade,) = [beside.priced(it, [self.verdict(1, 100, 50, 3)]) for it in beside.narrower()]
        # Each takes the place of the next one; 5 and 4 fit behind the trade alone, which loses more than they save.
        saved = {5: 60, 4: 65, 6: 70, 3: 75}
        self.prices.upkeep[6] = 0

        def ask(picks: Advice) -> list[Verdict]:
            asked.append([it.number for it in picks.picks])
            best = next((it for it in saved if it in asked[-1]), 0)
            return [self.verdict(3, 80, saved.get(best, 80), *([best] if best else []))]

        self.assertEqual(beside.filled(ask, [trade]), {1, 6})
        self.assertEqual(asked, [[1, 3, 4, 5, 6], [1, 3, 4, 6], [1, 3, 6]])
        # What costs more where rows are written than it saves hides nothing either. After so many questions it is over.
        self.prices.upkeep[6] = 90000
        asked.clear()
        self.assertEqual(beside.filled(ask), {1, 3})
        self.assertEqual(asked, [[1, 3, 6], [1, 3]])
        asked.clear()
        self.assertEqual(beside.filled(ask, [trade]), {1})
        self.assertEqual(len(asked), 3)
        asked.clear()
        self.assertEqual((beside.filled(lambda _: []), self.beside(40, (1,), now).filled(ask), asked), ({1}, {1}, []))


if __name__ == "__main__":
    unittest.main()
