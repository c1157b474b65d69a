"""Picks that save less time than planning takes longer for them."""
from __future__ import annotations

import unittest

from cophy_text.answers import Candidate
from fixtures import NO_PARSER

if not NO_PARSER:
    from cophy_pg.explain import statement_of
    from cophy_pg.inputs import Input
    from cophy_pg.outcomes import Verdict
    from cophy_pg.planning import UNIT, Losses, Planning, costly_picks
    from cophy_pg.plans import Plan
    from cophy_pg.schema import Column, Schema, Table

# By the number of a statement what each index saves of 100, beside the others: the best one is taken.
SAVED = {1: {1: 60, 2: 58}, 2: {2: 3, 4: 2}, 3: {3: 40}}


@unittest.skipIf(NO_PARSER, NO_PARSER)
class Picks(unittest.TestCase):
    def setUp(self) -> None:
        self.asked = list[tuple[int, ...]]()
        self.picks = {it: Candidate(it, "t", (f"c{it}",), 1) for it in range(1, 5)}
        self.found = {at: self.verdict(at, f"SELECT {at} FROM t") for at in SAVED}

    def verdict(self, number: int, text: str, seconds: float | None = None) -> Verdict:
        it = Verdict(number, Input(text, calls=10, seconds=seconds), {number: 1.0}, statement_of(text))
        it.before = 100.0
        assert it.statement is not None
        it.statement.numbers = {(None, "t"): 7, (None, "u"): 8}
        return it

    def plan(self, at: int, picks: dict[int, Candidate]) -> Plan:
        best = max((it for it in SAVED[at] if it in picks), key=lambda it: SAVED[at][it], default=0)
        return Plan(100.0 - SAVED[at].get(best, 0), frozenset((best,)) - {0})

    def losses(self) -> Losses:
        def ask(picks: list[Candidate], listed: list[Verdict]) -> dict[int, Plan]:
            self.asked.append(tuple(it.number for it in listed))
            return {it.number: self.plan(it.number, {one.number: one for one in picks}) for it in listed}

        plans = {at: self.plan(at, self.picks) for at in self.found}
        return Losses({**self.picks}, self.found, plans, ask)

    def test_the_one_by_which_the_most_is_lost_goes_first(self) -> None:
        # Beside each other 1 saves 20 and 2 saves 10; what is left of both saves more.
        for prices, costly in (({1: 25.0, 2: 16.0, 3: 25.0}, 2), ({1: 27.0, 2: 16.0, 3: 25.0}, 1), ({3: 401.0}, 3)):
            with self.subTest(prices=prices):
                losses = self.losses()
                self.assertEqual(losses.costly(prices), [self.picks[costly]])
                self.assertEqual([*losses.picks], [it for it in self.picks if it != costly])
        self.assertEqual(self.losses().costly({1: 20.0, 2: 10.0, 3: 400.0}), [])
        losses = self.losses()
        self.assertEqual(losses.costly({2: 50.0, 4: 15.0}), [self.picks[2]])
        self.assertEqual(losses.plans[2], Plan(98.0, frozenset((4,))))

    def test_only_plans_that_had_what_was_left_out_are_asked_for_again(self) -> None:
        self.losses().costly({1: 25.0, 2: 16.0, 3: 25.0})
        self.assertEqual(self.asked, [(1,), (2,), (3,), (1,)])

    def test_where_a_plan_isnt_known_a_pick_stays(self) -> None:
        losses = self.losses()
        losses.ask = lambda _, listed: {}
        self.assertEqual(losses.costly({1: 1e9}), [])

    def test_what_names_the_table_is_planned_longer(self) -> None:
        column = Column("c1", "c1")
        schema = Schema([Table("public", "t", "t", columns={"c1": column}, oid=7)])
        listed = [
            self.verdict(1, "SELECT 1 FROM t"),
            self.verdict(2, "UPDATE t SET c1 = 1"),
            self.verdict(3, "SELECT 1 FROM u"),
        ]
        self.assertEqual(Planning(schema, listed, 9.0).longer(self.picks[1]), 20 * 9.0 / UNIT)

    def test_what_is_asked_for_or_not_known_stays(self) -> None:
        columns = {it: Column(it, it) for it in ("c1", "c2", "c3")}
        schema = Schema([Table("public", "t", "t", columns=columns, oid=7)])
        listed = [*self.found.values()]
        for it in listed:
            it.after, it.taken = 50.0, [it.number]

        def ask(picks: list[Candidate], users: list[Verdict]) -> dict[int, Plan]:
            # Each saves 10 in all.
            return {it.number: Plan(51.0, frozenset()) for it in users}

        def costly(asked: int = 0, upkeep: float = 0.0) -> list[int]:
            picks = [self.picks[it] for it in (1, 2, 3)]
            planning = Planning(schema, listed, UNIT / 5)
            found = costly_picks(picks, planning, lambda _: upkeep, lambda it: it.number == asked, ask)
            return [it.number for it in found]

        # Planning takes 6 longer.
        self.assertEqual(costly(), [])
        self.assertEqual(costly(upkeep=5.0), [1, 2, 3])
        self.assertEqual(costly(asked=2, upkeep=5.0), [1, 3])
        listed[0].fault = "42883"
        self.assertEqual(costly(upkeep=5.0), [])


if __name__ == "__main__":
    unittest.main()
