"""Picks that a plan only walks along in the order of a LIMIT, and what is made of the saving that the planner guesses."""
from __future__ import annotations

import unittest
from typing import Any

from fixtures import NO_PARSER


@unittest.skipIf(NO_PARSER, NO_PARSER)
class Walked(unittest.TestCase):
    def test_a_walk_ends_at_a_limit_and_passes_a_filter_over_a_function_of_a_column(self) -> None:
        from cophy_pg.walks import walked_in

        scan = {"Node Type": "Index Scan", "Index Name": "i", "Parent Relationship": "Outer"}
        scan |= {"Filter": "((lower((a)::text) = 'x'::text) AND (b = 3))"}

        def plan(scan: dict[str, Any], *kinds: str) -> dict[str, Any]:
            """A plan of these nodes above a scan."""
            for kind in reversed(kinds):
                scan = {"Node Type": kind, "Parent Relationship": "Outer", "Plans": [scan]}
            return scan

        cases: tuple[tuple[tuple[str, ...], dict[str, str], set[str]], ...] = (
            (("Limit",), {}, {"i"}),
            (("Result", "Limit", "Incremental Sort"), {}, {"i"}),
            (("Limit", "Sort"), {}, set()),
            (("Sort",), {}, set()),
            (("Limit", "Nested Loop"), {"Parent Relationship": "Inner"}, set()),
            (("Limit",), {"Index Cond": "(a = 'x'::text)"}, set()),
            (("Limit",), {"Filter": "(a = lower($1))"}, set()),
            (("Limit",), {"Filter": "(lower(a) ~~ 'x%'::text)"}, set()),
        )
        for kinds, more, wanted in cases:
            with self.subTest(kinds=kinds, more=more):
                self.assertEqual(walked_in(plan(scan | more, *kinds)), wanted)

    def test_what_such_a_plan_is_said_to_save_is_taken_back(self) -> None:
        from cophy_pg.inputs import Input
        from cophy_pg.outcomes import Verdict
        from cophy_pg.plans import Plans
        from cophy_pg.walks import take_back, walks_told

        scan = {
            "Node Type": "Index Scan",
            "Index Name": "i",
            "Parent Relationship": "Outer",
            "Filter": "(lower(a) = $1)",
        }
        walk = {"Node Type": "Limit", "Plans": [scan]}
        listed = [Verdict(at, Input("SELECT", 3), {at: 1.0}, None, 90.0, 10.0, [7, 8]) for at in (1, 2)]
        plans = Plans(after={1: walk, 2: scan}, without={7: {1: 80.0, 2: 70.0}}, made={"i": 7})
        take_back(plans, listed)
        self.assertEqual([(it.after, it.taken) for it in listed], [(80.0, [8]), (10.0, [7, 8])])
        self.assertEqual((plans.without, plans.walked, plans.doubted), ({7: {2: 70.0}}, {7: {1}}, {7: 210.0}))
        self.assertTrue(
            walks_told([1, 4]).startswith("statements 1, 4 would walk along it in the order of LIMIT, until ")
        )


if __name__ == "__main__":
    unittest.main()
