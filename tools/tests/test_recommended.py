"""Which picks are recommended: not those that save little, that writes pay for, or under which an INSERT may fail; and which
indexes are superfluous beside them."""
from __future__ import annotations

import os
import unittest
from typing import Any
from unittest import mock

from private_server import PrivateServer, has_extension, missing
from test_page import MISSING, change, document, plans

NO_SERVER = missing() or ("" if has_extension("hypopg") else "postgresql-15-hypopg isn't installed")
INDEXES = """CREATE SCHEMA hypopg; CREATE EXTENSION hypopg SCHEMA hypopg; CREATE TABLE t (a int, b int, c text);
CREATE INDEX same ON t (a, b); CREATE INDEX first ON t (a); CREATE INDEX down ON t (a DESC); CREATE INDEX more ON t (a) INCLUDE (b);
CREATE UNIQUE INDEX single ON t (a); CREATE INDEX part ON t (a) WHERE b = 1; CREATE INDEX pattern ON t (c text_pattern_ops, a);
CREATE INDEX askew ON t (b, a DESC); CREATE INDEX wide ON t (b, a) INCLUDE (c)"""


def pick(number: int, ours: float, server: float, **more: Any) -> dict[str, Any]:
    """A pick that plans take."""
    saves = {"saves": {"ours": ours, "server": server, "measured": None, "cost_without": 9}, "number": number}
    plain = {
        "stored_pages": 128,
        "outcome": "taken",
        "clustered": False,
        "begins": None,
        "long_likely": [],
        "changes": [change(1, "SELECT 1", ours, server)],
    }
    return saves | plain | more


@unittest.skipIf(MISSING, MISSING)
class Recommended(unittest.TestCase):
    def test_each_caveat_has_its_words(self) -> None:
        from cophy_pg.recommended import caveat_of

        charged = [change(1, "SELECT 1", 30.0, 20.0), change(2, "UPDATE t", -16.0, 0.0)]
        little = [change(1, "SELECT 1", 0.01, 20.0), change(2, "UPDATE t", -0.01, 0.0)]
        # By our model it saves little cost, but of statements that have much of the time.
        timed = {"ours": 0.2, "server": 0.0, "measured": 3.0, "cost_without": 9}
        costly = {"ours": -0.01, "measured": None, "cost_without": 8}
        less = "by our model the workload costs less without it, and "
        for given, why in (
            (pick(1, 20.0, 10.0), ""),
            (
                pick(1, 0, 0, saves=timed | {"planned": 0.1}),
                "it saves 0.1 % of the measured time: probably not worth 1.0 MB",
            ),
            (pick(1, 0, 0, saves=timed | {"planned": 0.9}), ""),
            (pick(1, 0.4, 0.9), "it saves 0.9 % at most, by any measure"),
            (pick(1, 27.0, 0.7), "the server saves 0.7 %: probably not worth 1.0 MB"),
            (pick(1, 14.0, 20.0, changes=charged), "writes take 53.3 % of what it saves"),
            (pick(1, 0.0, 20.0, changes=little), ""),
            (pick(1, 20.0, 0.0, outcome="unknown"), "whether plans take it isn't known"),
            (pick(1, 20.0, 0.0, outcome="unknown", clustered=True), ""),
            (pick(1, 0, 0, saves=costly | {"server": 1.9}), f"{less}the server saves 1.9 %"),
            (pick(1, 0, 0, saves=costly | {"server": 1, "planned": 1.5}), f"{less}it saves 1.5 % of the measured time"),
            (pick(1, 0, 0, saves=costly | {"server": 2.0}), ""),
            (pick(1, 0, 0, saves=costly | {"server": 1.0, "planned": 2.0}), ""),
            (pick(1, 0, 0, saves=costly | {"server": 1.9, "cost_without": 9}), ""),
            (pick(1, 1.5, 1.9, not_hot=["a"]), "UPDATEs of a can't be HOT with it, and the server saves 1.9 %"),
            (pick(1, 1.5, 2.0, not_hot=["a"]), ""),
            (pick(1, 20.0, 10.0, long_likely=["a"]), "an INSERT of more than 2,704 bytes in a would fail"),
        ):
            with self.subTest(why=why):
                self.assertEqual(caveat_of(given, {"statements": [{"seconds": 3.0}], "cost": {"after": 9}}), why)

    def test_one_that_another_begins_with_has_to_save_more(self) -> None:
        from cophy_text.answers import Candidate
        from cophy_pg.recommended import served

        texts = ("t a", "t ab", "t abc", "s ax", "t ba", "t c")
        every = [Candidate(at, it[0], tuple(it[2:]), 9) for at, it in enumerate(texts)]

        def why(given: dict[str, Any], at: int = 0, searched: set[str] | None = None) -> str:
            return served(given, every[at], every, searched)

        little, there = pick(0, 9.0, 4.9), pick(0, 0.0, 1.0, begins="'public'.'more'")
        self.assertEqual(why(little), "t(a, b, c) serves it too")
        self.assertEqual(why(little, 1), "t(a, b, c) serves it too")
        for at in (2, 3, 4, 5):
            self.assertEqual(why(little, at), "")
        self.assertEqual(why(there), "'public'.'more' serves it too")
        # What saves more by the server, or by its planner of the measured time, stays, and what it can't judge.
        saves = {"ours": 0.0, "server": 1.0, "planned": 5.0}
        for more in (pick(0, 0.0, 5.0), pick(0, 0, 0, saves=saves), pick(0, 0.0, 1.0, clustered=True)):
            self.assertEqual(why(more | {"begins": "'public'.'more'", "key": "'public'.'t_pkey'"}), "")
        # A row that its key finds is read at once, whatever else stands behind the key.
        key = {"key": "'public'.'t_pkey'"}
        self.assertEqual(why(pick(0, 9.0, 1.9) | key, 4), "'public'.'t_pkey' finds the row of each b")
        self.assertEqual(why(pick(0, 9.0, 2.0) | key, 4), "")
        # Where all but a are only read, all have the same key.
        self.assertEqual(why(little, searched={"a"}), "")
        self.assertEqual(why(little, 1, {"a", "c"}), "t(a, b, c) serves it too")

    def test_only_one_that_is_recommended_serves_too(self) -> None:
        from cophy_text.answers import Candidate
        from cophy_pg.result import Result

        def caveats(*asked: int, longest: float = 4.0) -> dict[int, str]:
            """Of a, ab and abc; the last one saves so much."""
            ranked = [pick(0, 4.0, 4.0), pick(1, 4.0, 4.0), pick(2, longest, longest)]
            picks = [Candidate(at, "t", tuple("abc"[: at + 1]), 9) for at in range(3)]
            given = mock.Mock(ranked=ranked, reasons=[mock.Mock(pick=it) for it in picks])
            given.workload.records, given.schema.searched, given.prices = [], None, (None, mock.Mock(total=9))
            return Result.caveats(given, {*asked})

        self.assertEqual(caveats(), dict.fromkeys((0, 1), "t(a, b, c) serves it too"))
        self.assertEqual(caveats(1), {0: "t(a, b, c) serves it too"})
        little = {2: "it saves 0.5 % at most, by any measure"}
        self.assertEqual(caveats(longest=0.5), little | {0: "t(a, b) serves it too"})
        self.assertEqual(caveats(2, longest=0.5), dict.fromkeys((0, 1), "t(a, b, c) serves it too"))

    def test_one_that_stands_for_another_stays(self) -> None:
        from cophy_pg.recommended import without_caveats

        picks = [pick(1, 50.0, 50.0), pick(2, 0.2, 0.1), pick(3, 0.1, 0.0), pick(4, 9.0, 9.0, long_likely=["a"])]
        asked = list[list[int]]()

        def costs_of(kept: list[int]) -> tuple[int, float]:
            """Without 1 half is lost; 2 and 3 stand for each other, and without both a fifth is."""
            asked.append(sorted(kept))
            cost = 300 + 500 * (1 not in kept) + 200 * (not {2, 3} & {*kept}) + 90 * (4 not in kept)
            return cost, float(cost)

        caveats = {2: "it saves 0.2 %", 3: "it saves 0.1 %", 4: "it would fail"}
        found = without_caveats(picks, caveats, (300, 300.0), (1000, 1000.0), costs_of)
        self.assertEqual([*found.why_not], [3, 4])
        self.assertEqual(found.costs, (390, 390.0))
        self.assertEqual(asked, [[1, 2, 3], [1], [1, 2], [1]])
        found = without_caveats(picks, {2: "it saves 0.2 %"}, (300, 300.0), (1000, 1000.0), costs_of)
        self.assertEqual((found.why_not, found.costs), ({2: "it saves 0.2 %"}, (300, 300.0)))

    def test_what_isnt_recommended_stands_apart_with_its_reason_once(self) -> None:
        from cophy_pg.page import page_text

        given = document("/advice")
        self.assertNotIn("ot recommended", page_text(given, plans(), None))
        pick = given["picks"][0] | {"clustered": False, "outcome": "taken", "notes": []}
        saves = {"saves": {"ours": 27.0, "server": 0.7, "measured": None, "cost_without": 4500000}}
        why = "the server saves 0.7 %: probably not worth 0.2 MB"
        given["picks"] = [pick | saves | {"columns": ["c"], "caveat": why}, pick]
        given |= {"recommended": {"picks": 1, "stored_pages": 640, "cost": 4500000, "server_cost": 2700.0}}
        text = page_text(given, plans(), None).replace("\N{NO-BREAK SPACE}", " ")
        made, _, others = text.partition('<h2 id="unadvised">Not recommended</h2>')
        for part in (
            "1 index to make for shop",
            "<b>50.0 %</b>of the cost before: 9,000, then 4,500",
            "<b>70.0 %</b>of the cost before: 9,000, then 2,700",
            "<b>5.0 MB</b>of 2,048.0 MB",
            "<h3>1. t(b)</h3>",
            "costs 9,000 by our model, with it 1,800, both with all others, those not recommended too.",
        ):
            self.assertIn(part, made)
        # What isn't recommended has the last numbers, wherever it stands in the document.
        self.assertNotIn("<h3>2.", made)
        self.assertIn("<h3>2. t(c)</h3>", others)
        self.assertNotIn("<h3>1.", others)
        self.assertEqual(others.count("he server saves 0.7 %"), 1)
        with_all = "costs 1,800 by our model and 1,000 by the server's planner, and the indexes take 0.2 MB"
        self.assertIn(with_all, others)

    def test_a_pick_that_costs_by_the_server_is_told_to(self) -> None:
        from cophy_pg.page import page_text

        given = document("/advice")
        lost = "By the server's planner some statements lose more by it than others gain."
        for server, count in ((88.9, 0), (0.0, 0), (-0.04, 0), (-0.2, 1)):
            given["picks"][0]["saves"]["server"] = server
            text = page_text(given, plans(), None)
            self.assertEqual(text.count(lost), count)
            self.assertNotIn("not recommended too", text)


@unittest.skipIf(MISSING or NO_SERVER, MISSING or NO_SERVER)
class Superfluous(unittest.TestCase):
    def test_it_is_what_a_new_index_begins_with_or_what_begins_with_it(self) -> None:
        from cophy_text.answers import Advice, Candidate
        from cophy_pg.picks import make
        from cophy_pg.schema import Column, Schema, Table
        from cophy_pg.server import connected, reading

        server = PrivateServer()
        self.addCleanup(server.stop)
        server.psql(INDEXES)
        schema = Schema([Table("public", "t", "t", columns={it: Column(it, it) for it in "abc"})])
        picks = [Candidate(at, "t", tuple(it), 9) for at, it in enumerate(("abc", "cb", "ab", "b", "c"), 1)]
        with mock.patch.dict(os.environ, server.environment()), connected() as session, reading(session):
            made = make(session, schema, Advice(9, picks))[0]
        found = [['"public"."first"', '"public"."same"'], [], ['"public"."first"'], [], []]
        self.assertEqual([it.superfluous for it in made], found)
        self.assertEqual([it.begins for it in made], ["", "", "", "'public'.'wide'", ""])
        single = "'public'.'single'"
        self.assertEqual([it.key for it in made], [single, "", "", "", ""])


if __name__ == "__main__":
    unittest.main()
