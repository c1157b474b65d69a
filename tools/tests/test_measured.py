"""What was counted of the statements of a folder since its advice, beside what a call took before."""
from __future__ import annotations

import unittest
from dataclasses import replace
from typing import Any

from fixtures import NO_PARSER

if not NO_PARSER:
    from cophy_pg.inputs import Input
    from cophy_pg.measured import Measured, a_call, called_since, load_of, told_of, writes_of
    from cophy_pg.paths import Paths
    from cophy_pg.snapshots import Count, Snapshot, digest


@unittest.skipIf(NO_PARSER, NO_PARSER)
class Times(unittest.TestCase):
    """What was counted since, of statements with 10 calls and 1 ms each before."""

    def setUp(self) -> None:
        self.paths = Paths({"app": "sales"}, "public", "me", "public")
        self.statements = [
            {"numbers": [at], "sql": f"SELECT {at}", "role": "app", "calls": 10, "seconds": 0.01, "picks": picks}
            for at, picks in enumerate(([1], [2], [], [], []), 1)
        ]
        gain = {"numbers": [3], "ours": 0.0, "server": 5.0}
        hint = {"place": 3, "why_not": None, "saves": {"planned": 1.0}, "changes": [gain]}
        self.document: dict[str, Any] = {"statements": self.statements, "picks": [], "hints": [hint]}
        self.then = Snapshot("7", {digest(self.input(at, 10, 0.01)): Count(10, 0.01, 0.0) for at in range(1, 6)}, "d")

    def input(self, at: int, calls: int, seconds: float) -> Input:
        return Input(f"SELECT {at}", calls, seconds, 0.0, role="app", path=("sales",))

    def pick(self, place: int, servers: dict[int, float]) -> dict[str, Any]:
        """A pick with what it saves of statements by the server."""
        changes = [{"numbers": [at], "ours": 0.0, "server": it} for at, it in servers.items()]
        return {"place": place, "saves": {"planned": 1.0}, "changes": changes}

    def measured(self, *counts: tuple[int, float], there: tuple[int, ...] = (1, 3)) -> list[tuple[int, bool, int]]:
        """The numbers of the statements, whether an index helps them, and their calls since."""
        now = [self.input(at, calls, seconds) for at, (calls, seconds) in enumerate(counts, 1)]
        every = called_since(Snapshot("7", {}, "d"), now, self.then, self.document, self.paths, there)
        found = told_of(every)
        self.times = a_call(found)
        return [(it.numbers[0], it.is_helped, it.calls) for it in found]

    def test_those_that_indexes_help_are_told_and_the_most_saved_first(self) -> None:
        # The second one's index isn't there, and the third one has a hint.
        counts = (20, 0.015), (20, 0.015), (110, 0.02), (20, 0.0205), (10, 0.01)
        self.assertEqual(self.measured(*counts), [(3, True, 100), (1, True, 10)])
        self.assertAlmostEqual(self.times[0], 1.0)
        self.assertAlmostEqual(self.times[1], 15 / 110)
        self.assertEqual([it[0] for it in self.measured(*counts, there=(2,))], [2])

    def test_each_has_the_numbers_of_what_helps_it_and_of_what_it_gains_the_most_by(self) -> None:
        self.document["picks"] = [self.pick(1, {2: -1.0, 4: 9.0, 1: 3.0}), self.pick(2, {1: 4.0})]
        now = [self.input(at, 20, 0.015) for at in range(1, 6)]
        for there, wanted in (
            ((1, 3), {1: ((1,), ()), 2: ((), ()), 3: ((3,), (3,)), 4: ((1,), (1,)), 5: ((), ())}),
            ((1, 2), {1: ((1, 2), (2,)), 2: ((2,), ()), 3: ((), ()), 4: ((1,), (1,)), 5: ((), ())}),
        ):
            found = called_since(Snapshot("7", {}, "d"), now, self.then, self.document, self.paths, there)
            self.assertEqual({it.numbers[0]: (it.indexes, it.main) for it in found}, wanted)
            self.assertEqual([it.is_helped for it in found], [bool(it.indexes) for it in found])

    def test_what_got_much_slower_is_told_too(self) -> None:
        counts = (20, 0.011), (10, 0.01), (10, 0.01), (20, 0.03), (20, 0.021)
        self.assertEqual(self.measured(*counts), [(1, True, 10), (4, False, 10)])
        # Not by a few calls.
        counts = (20, 0.011), (10, 0.01), (10, 0.01), (14, 0.026), (20, 0.021)
        self.assertEqual(self.measured(*counts), [(1, True, 10)])
        # A loss that nobody feels isn't.
        counts = (1010, 1.01), (10, 0.01), (10, 0.01), (20, 0.0225), (10, 0.01)
        self.assertEqual(self.measured(*counts), [(1, True, 1000)])

    def test_those_that_write_are_told_apart(self) -> None:
        texts = ("INSERT INTO t", " update t", "SELECT 1", "WITH a AS (SELECT 2) DELETE FROM t", "DELETE FROM t")
        found = [Measured([], it, False, 1, 1.0, 1.0) for it in texts]
        self.assertEqual([it.sql for it in writes_of(found)], [texts[0], texts[1], texts[4]])

    def test_how_busy_the_server_was_is_seen_by_what_no_index_touches(self) -> None:
        others = [Measured([at], "SELECT 1", False, 100, 1.0, 0.29, is_other=True) for at in range(5)]
        helped = Measured([6], "SELECT 2", True, 100, 288.7, 38.6)
        table: list[tuple[list[Measured], tuple[str, float] | None]] = [
            ([*others, helped], ("busier before", 0.29)),
            # Fewer are enough where they took a part of the time.
            ([*others[:4], helped], None),
            ([*others[:4], Measured([6], "SELECT 2", True, 100, 70.0, 38.6)], ("busier before", 0.29)),
            ([others[0]], None),
            ([helped], None),
            ([], None),
            # By a few calls before or since it isn't known.
            ([replace(it, calls=4) for it in others], None),
            ([replace(it, earlier=4) for it in others], None),
            ([replace(it, since=1.2) for it in others], ("alike", 1.2)),
            ([replace(it, since=0.81) for it in others], ("alike", 0.81)),
            ([replace(it, since=1.3) for it in others], ("busier since", 1.3)),
            # One that takes long for another reason says nothing of the server.
            (
                [*(replace(it, since=1.0) for it in others), Measured([7], "", False, 100, 9.0, 90.0, is_other=True)],
                None,
            ),
        ]
        for found, told in table:
            load = load_of(found)
            self.assertEqual((load.name, round(load.ratio, 4)) if load else None, told)

    def test_what_an_index_touches_by_the_advice_says_nothing_of_the_server(self) -> None:
        def others(there: tuple[int, ...]) -> list[int]:
            now = [self.input(at, 20, 0.02) for at in range(1, 6)]
            found = called_since(Snapshot("7", {}, "d"), now, self.then, self.document, self.paths, there)
            return sorted(it.numbers[0] for it in found if it.is_other)

        self.document["picks"] = [self.pick(1, {4: -1.0})]
        self.assertEqual(others((1, 3)), [2, 5])
        self.assertEqual(others((3,)), [1, 2, 4, 5])
        # What the advice left out isn't known.
        self.statements[4]["numbers"] = []
        self.assertEqual(others((1, 3)), [2])
        self.statements[1]["sql"] = "SELECT 2 FOR UPDATE"
        now = [replace(self.input(2, 20, 0.02), text="SELECT 2 FOR UPDATE")]
        found = called_since(Snapshot("7", {}, "d"), now, self.then, self.document, self.paths, ())
        self.assertEqual([it.is_other for it in found], [False])

    def test_where_all_take_longer_none_is_called_slower_for_that(self) -> None:
        others = [Measured([at], "SELECT 1", False, 100, 1.0, 3.0, is_other=True) for at in range(5)]
        self.assertEqual(told_of(others), [])
        slower = Measured([6], "INSERT INTO t", False, 100, 1.0, 5.0)
        self.assertEqual(told_of([*others, slower]), [slower])
        # Where the server was busier before, what takes longer does.
        before = [replace(it, since=0.3) for it in others]
        self.assertEqual(told_of([*before, replace(slower, since=1.4)]), [])
        self.assertEqual(told_of([*before, replace(slower, since=1.6)]), [replace(slower, since=1.6)])

    def test_what_wasnt_called_or_has_another_path_isnt(self) -> None:
        same = [(10, 0.01)] * 5
        self.assertEqual(self.measured(*same), [])
        self.paths.by_role["app"] = "other"
        self.assertEqual(self.measured((20, 0.011)), [])
        self.assertEqual(a_call([]), (0.0, 0.0))


if __name__ == "__main__":
    unittest.main()
