"""What a pick is worth by our model, by the server and of the measured time: which of the three keeps it, and which is shown first."""
from __future__ import annotations

import unittest
from collections.abc import Iterable
from typing import Any, cast

from cophy_text.answers import Advice, Candidate, Price, Prices
from cophy_pg.choice import Choice, Limits, drop_by_limits
from cophy_pg.inputs import Input
from cophy_pg.outcomes import Verdict
from cophy_pg.program import Program
from cophy_pg.progress import Progress
from cophy_pg.why import Reason
from cophy_pg.worth import Worth, worth_of

PICKS = [Candidate(at, f"t{at}", ("a",), 9) for at in (1, 2)]


class Priced:
    """Stands for the program: pick 1 saves 5 of 1000, pick 2 saves 500."""

    def whatif(self, numbers: Iterable[int]) -> Prices:
        first, second = (500 - 5 * (1 in {*numbers})), 500 * (2 not in {*numbers})
        return Prices({1: Price(1, first), 2: Price(1, second)}, first + second)


class Worths(unittest.TestCase):
    def test_what_is_saved_of_the_measured_time_is_that_of_the_cost(self) -> None:
        found = [
            Verdict(1, Input("x", 10, 8.0), {1: 1.0}, before=100.0, after=60.0, taken=[PICKS[0].number]),
            Verdict(2, Input("y", 1, 2.0), {2: 1.0}, before=1000.0, after=1000.0),
        ]
        none, kept = Prices({1: Price(10, 90), 2: Price(1, 100)}, 1000), Prices(
            {1: Price(10, 80), 2: Price(1, 100)}, 900
        )
        reason = Reason(PICKS[0], 910, {1: 10})
        worth = worth_of(reason, (none, kept), found, {1: 85.0}, [8.0, 2.0, 10.0])
        self.assertEqual((worth.ours, worth.server, worth.measured, worth.planned), (1.0, 12.5, 10.0, 10.0))
        self.assertEqual(worth.most(), 12.5)
        text = "1.0 % by our model, 12.5 % by the server's planner, 10.0 % of the measured time"
        self.assertEqual(worth.shown(), text)
        unknown = worth_of(reason, (none, kept), found, {}, [8.0, None])
        self.assertEqual((unknown.server, unknown.measured, unknown.planned), (0.0, None, None))
        # By our model a ninetieth of the first one's cost, which has 8 of 10 seconds; the server's planner sees nothing.
        ours = worth_of(reason, (none, kept), found, {}, [8.0, 2.0])
        self.assertEqual(ours.planned, 0.0)
        self.assertAlmostEqual(ours.measured or 0.0, 100 * 8 / 10 * 10 / 900)
        self.assertNotIn("measured", unknown.shown())
        # Where its plan passes the pick over, nothing is saved; where it isn't known, what we say is.
        found[0].taken = []
        self.assertEqual(worth_of(reason, (none, kept), found, {}, [8.0, 2.0]).measured, 0.0)
        found[0].after = None
        self.assertEqual(worth_of(reason, (none, kept), found, {}, [8.0, 2.0]).measured, ours.measured)

    def test_a_pick_stays_where_one_of_the_three_reaches_the_limit(self) -> None:
        for worth, left in (
            (Worth(0.5, 0.9, 1.9), [1, 2]),
            (Worth(0.5, 1.0, None), [1, 2]),
            (Worth(0.5, 0.9, 0.2), [2]),
        ):
            with self.subTest(worth=worth):
                asked = list[int]()

                def of(reason: Reason, _: tuple[Prices, Prices]) -> Worth:
                    asked.append(reason.pick.number)
                    return worth

                choice = Choice(Advice(9, [*PICKS]))
                program = cast(Program, Priced())
                is_less = drop_by_limits(choice, program, Limits(1.0), Progress(), lambda _: False, of)
                self.assertEqual([it.number for it in choice.advice.picks], left)
                self.assertEqual((asked, is_less), ([1], len(left) < 2))
                self.assertEqual([why.endswith("; 1 % are asked for") for _, why in choice.left_out], [True] * is_less)

    def test_the_server_says_which_pick_is_the_first_and_which_isnt_worth_its_space(self) -> None:
        from cophy_pg.guesses import doubt_of
        from cophy_pg.result import place_of

        def pick(ours: float, server: float, **more: Any) -> dict[str, Any]:
            saves = {"saves": {"ours": ours, "server": server}, "number": 1, "stored_pages": 4224}
            return saves | {"outcome": "taken", "clustered": False} | more

        listed = [pick(27.0, 3.3), pick(1.0, 30.0), pick(20.0, 0.0, clustered=True), pick(5.0, 0.0, outcome="unknown")]
        places = sorted(range(4), key=lambda at: place_of(listed[at]))
        self.assertEqual(places, [1, 2, 3, 0])
        # Where time is known, it is what counts: that by the server, and the most of one that the server doesn't judge.
        for it, (measured, planned) in zip(listed, ((40.0, 15.3), (1.9, 1.6), (2.0, 0.0), (9.0, 0.0)), strict=True):
            it["saves"] |= {"measured": measured, "planned": planned}
        self.assertEqual(sorted(range(4), key=lambda at: place_of(listed[at])), [0, 3, 2, 1])
        listed = [pick(27.0, 0.7), pick(1.0, 30.0), pick(20.0, 0.0, clustered=True), pick(5.0, 0.0, outcome="unknown")]
        doubts = [doubt_of(it) for it in listed]
        self.assertEqual(doubts, ["the server saves 0.7 %: probably not worth 33.0 MB", "", "", ""])
        for ours, server, planned, why in (
            (4.4, 0.9, 7.7, ""),
            (27.0, 0.7, 1.0, ""),
            (3.0, 0.7, 0.8, ""),
            (39.2, 2.4, 1.7, ""),
            (27.0, 0.7, 0.8, "it saves 0.8 % of the measured time: probably not worth 33.0 MB"),
            (27.0, 0.7, 0.2, "the server saves 0.7 %: probably not worth 33.0 MB"),
        ):
            it = pick(ours, server)
            it["saves"]["planned"] = planned
            self.assertEqual(doubt_of(it), why)

    def test_what_saves_by_counted_rows_isnt_doubted_for_what_the_planner_guesses(self) -> None:
        from cophy_pg.guesses import doubt_of, is_counted

        for text, changes, columns, is_so in (
            ("SELECT a FROM t WHERE b <= -998254", ["rows of a call"], ("B",), True),
            (
                "SELECT a FROM t WHERE b BETWEEN DATE '2024-01-01' AND DATE '2024-01-08'",
                ["rows of a call"],
                ("b",),
                True,
            ),
            ("SELECT a FROM t WHERE t.b > 4 AND c = ?", ["cast", "rows of a call"], ("c", "a", "b"), True),
            ("SELECT a FROM t WHERE b <= -998254", ["parameter range"], ("b",), False),
            ("SELECT a FROM t WHERE b <= -998254", ["rows of a call"], ("a",), False),
            ("SELECT a FROM t WHERE b >= ? AND a <> 5", ["rows of a call"], ("a", "b"), False),
            ("SELECT a FROM t WHERE a IN (?, ?)", ["rows of a call"], ("a", "b"), False),
        ):
            with self.subTest(text=text, changes=changes):
                self.assertEqual(is_counted(text, changes, columns), is_so)
        saves: dict[str, Any] = {"ours": 27.0, "server": 0.9, "measured": 20.0, "planned": 0.3}
        doubt = "the server saves 0.9 %: probably not worth 33.0 MB"
        for ours, is_so, why in ((26.5, True, ""), (5.0, True, ""), (4.9, True, doubt), (26.5, False, doubt)):
            found: list[dict[str, Any]] = [
                {"ours": ours, "counted": is_so},
                {"ours": -0.2, "counted": False},
                {"ours": 9.0},
            ]
            pick = {"saves": saves, "outcome": "taken", "clustered": False, "stored_pages": 4224, "changes": found}
            self.assertEqual(doubt_of(pick), why)

    def test_the_statement_that_saves_the_most_time_is_the_first_of_a_pick(self) -> None:
        from cophy_pg.plans import Plans
        from cophy_pg.result import Result
        from cophy_pg.rewrite.rewriter import Rewritten
        from cophy_pg.verify import Judged
        from cophy_pg.workload import Record, Workload

        # Half of the cost of each is saved: of much cost in little time, and of little cost in much time.
        def numbers_of(*times: float | None) -> list[list[int]]:
            given = [Input(f"SELECT {at}", 1, seconds) for at, seconds in enumerate(times, 1)]
            costs = (1000.0, 10.0)
            found = [
                Verdict(at, it, {at: 1.0}, before=cost, after=cost / 2)
                for at, (it, cost) in enumerate(zip(given, costs), 1)
            ]
            plans = Plans(
                after={it.number: {"Total Cost": it.after} for it in found},
                without={1: {it.number: it.before or 0.0 for it in found}},
            )
            records = [Record(it, Rewritten(), [at]) for at, it in enumerate(given, 1)]
            workload, none = Workload(records, [(it.text, 1) for it in given]), Prices({}, 1000)
            parts = (cast(Any, None), workload, Advice(9, []), cast(Any, None), Judged(found, [], []), plans)
            result = Result(*parts, (none, none, none), [], "", {}, {})
            return [it["numbers"] for it in result._changes(Reason(PICKS[0], 1000, {}))]

        self.assertEqual(numbers_of(0.1, 9.0), [[2], [1]])
        self.assertEqual(numbers_of(9.0, 0.1), [[1], [2]])
        self.assertEqual(numbers_of(None, 9.0), [[1], [2]])


if __name__ == "__main__":
    unittest.main()
