"""The plans that a report shows as those after: with what `make` makes unless it is told otherwise."""
from __future__ import annotations

import json
import unittest
from html import unescape
from types import SimpleNamespace
from typing import Any, cast
from unittest import mock

from advised import HAS_JINJA, SCHEMA
from cophy_text.answers import Advice, Candidate
from fixtures import NO_HYPOPG, NO_PARSER, STAND_IN, OverOwn
from schema_check import faults

if not NO_PARSER:
    from cophy_pg.advise import Run
    from cophy_pg.by_default import differing, plans_by_default
    from cophy_pg.explain import statement_of
    from cophy_pg.expression_hints import ExpressionIndex
    from cophy_pg.inputs import Input
    from cophy_pg.outcomes import Verdict
    from cophy_pg.picks import index_names
    from cophy_pg.plans import Plans, Shown
    from cophy_pg.progress import Progress
    from cophy_pg.recommended import Recommended
    from cophy_pg.schema import Column, Schema, Table
    from cophy_pg.server import ServerFault, connected
    from cophy_pg.trust import NotTrusted

ROWS = 30000
TABLES = f"""CREATE TABLE sale (id int, city int, kind text, filler text);
INSERT INTO sale SELECT i, i % 3000, 'Kind ' || i, repeat('x', 99) FROM generate_series(1, {ROWS}) i;
CREATE TABLE seldom AS SELECT * FROM sale;
ANALYZE;
"""
OFTEN = "-- weight 1000\nSELECT * FROM sale WHERE city = 7;\n"
SELDOM = "SELECT * FROM seldom WHERE city = 7;\n"
LOWER = "SELECT * FROM sale WHERE lower(kind) = 'kind 7'"
WALK = "SELECT * FROM sale WHERE lower(kind) = $1 ORDER BY id LIMIT 5;\n"
HINT = "sale(lower(kind))"


def verdict(number: int, text: str, taken: list[int] | None = None, **tables: int) -> Verdict:
    """A statement that costs 90 before and 10 after."""
    found = Verdict(number, Input(text, 3), {number: 1.0}, statement_of(text), 90.0, 10.0, taken or [])
    assert found.statement is not None
    found.statement.numbers = {(None, name): oid for name, oid in tables.items()}
    return found


@unittest.skipIf(NO_PARSER, NO_PARSER)
class Differing(unittest.TestCase):
    def setUp(self) -> None:
        columns = {"a": Column("a", "a", type="text")}
        self.hint = ExpressionIndex(Table("public", "u", "u", columns=columns, oid=1), "lower", "a")

    def test_what_takes_another_pick_or_may_take_a_hint_is_asked_about(self) -> None:
        scans = {at: {"Node Type": "Index Scan", "Index Name": name} for at, name in ((1, "i"), (2, "j"), (3, "i"))}
        plans = Plans(after=scans, made={"i": 7, "j": 8})
        found = [
            verdict(1, "SELECT a FROM u WHERE b = 1", [7], u=1),
            verdict(2, "SELECT a FROM u WHERE c = 1", [8], u=1),
            # It walks along a pick, so that it isn't said to take it.
            verdict(3, "SELECT a FROM u ORDER BY b LIMIT 1", u=1),
            verdict(4, "SELECT c FROM u WHERE lower(a) > 'x'", u=1),
            verdict(5, "SELECT a FROM v WHERE lower(a) = 'x'", v=2),
            verdict(6, "SELECT a FROM u WHERE upper(a) = 'x'", u=1),
            verdict(7, "INSERT INTO u VALUES (lower('x'))", [7], u=1),
            verdict(8, "SELECT a FROM u WHERE lower(a) = 'x'", [7], u=1),
        ]
        found[7].after = None
        self.assertEqual([it.number for it in differing(plans, found, {7: "why not"}, [self.hint])], [1, 3, 4])
        self.assertEqual([it.number for it in differing(plans, found, {7: "why not"}, [])], [1, 3])
        self.assertEqual(differing(plans, found, {}, []), [])

    def test_what_isnt_asked_about_costs_what_it_does_with_all(self) -> None:
        first, second = (verdict(at, "SELECT a FROM u", u=1) for at in (1, 2))
        plans = Plans()
        self.assertIsNone(plans.cost_by_default(first))
        plans.by_default = {2: Shown({"Total Cost": 30.0}, {})}
        self.assertEqual([plans.cost_by_default(it) for it in (first, second)], [10.0, 30.0])

    def test_the_server_is_left_alone_where_all_picks_are_made_or_none(self) -> None:
        asked = verdict(1, "SELECT a FROM u WHERE b = 1", [7], u=1)
        picks = [Candidate(7, "u", ("b",), 9), Candidate(8, "u", ("c",), 9)]

        def ask(why_not: dict[int, str], **how: Any) -> tuple[Any, int]:
            """What is known then, and how often the server was asked."""
            choice = SimpleNamespace(advice=Advice(9, picks))
            parts = {"plans": Plans(), "judged": SimpleNamespace(verdicts=[asked]), "schema": None, "hints": []}
            more = {"recommended": Recommended(why_not), "choice": choice, "made_hints": list}
            result = cast(Any, SimpleNamespace(**parts, **more))
            run = cast(Any, SimpleNamespace(words=mock.MagicMock(), steps=mock.MagicMock()))
            with mock.patch("cophy_pg.advise.connected") as server:
                with mock.patch("cophy_pg.advise.plans_by_default", **how) as by_default:
                    Run._ask_by_default(run, result)
            self.assertEqual(server.call_count, by_default.call_count)
            if by_default.called:
                self.assertEqual([it.number for it in by_default.call_args[0][2].picks], [8])
            return result.plans.by_default, by_default.call_count

        self.assertEqual(ask({}), ({}, 0))
        self.assertEqual(ask({7: "little", 8: "little"}), (None, 0))
        self.assertEqual(ask({8: "little"}), ({}, 0))
        self.assertEqual(ask({7: "little"}, return_value={1: "a plan"}), ({1: "a plan"}, 1))
        with mock.patch("cophy_pg.advise.say") as said:
            self.assertEqual(ask({7: "little"}, side_effect=ServerFault("the connection was lost")), (None, 1))
        text = "the plans with what is made by default aren't known: the connection was lost"
        said.assert_called_once_with(text)


@unittest.skipIf(NO_HYPOPG, NO_HYPOPG)
class Asked(OverOwn):
    database, content, given = "bydefault", TABLES, {"COPHY_PROGRAM": str(STAND_IN)}

    def advise(
        self, text: str, *more: str, budget: str = "20MB", status: int = 0, **environment: str
    ) -> dict[str, Any]:
        """The document over statements."""
        (self.folder / "q.sql").write_text(text)
        words = ("--sql", str(self.folder / "q.sql"), "--folder", str(self.folder / "found"), "--no-curve")
        self.call("advise", "--budget", budget, *words, *more, status=status, **environment)
        found: dict[str, Any] = json.loads(self.told("advice.json"))
        self.assertEqual([*faults(found, SCHEMA, SCHEMA)], [])
        return found

    def told(self, name: str) -> str:
        return (self.folder / "found" / name).read_text()

    def plans(self) -> list[dict[str, Any]]:
        found: list[dict[str, Any]] = json.loads(self.told("plans.json"))["statements"]
        return found

    def cost_of_scan(self, operators: int) -> float:
        """What PostgreSQL says that reading all rows of a table and so many operators on each cost."""
        pages = int(self.server.value("SELECT relpages FROM pg_class WHERE relname = 'sale'", self.database))
        return pages + ROWS * (0.01 + operators * 0.0025)

    def cost_with(self, columns: str, query: str) -> float:
        """What a query costs by EXPLAIN with one hypothetical index."""
        schema = "(SELECT extnamespace::regnamespace FROM pg_extension WHERE extname = 'hypopg')"
        home = self.server.value(f"SELECT {schema}", self.database)
        make = f"SELECT FROM {home}.hypopg_create_index('CREATE INDEX ON sale ({columns})');"
        plan = self.server.psql(f"{make} EXPLAIN (FORMAT JSON) {query}", self.database).stdout
        return float(json.loads(plan)[0]["Plan"]["Total Cost"])

    def test_a_pick_that_isnt_recommended_is_no_part_of_it_and_a_hint_that_is_made_is(self) -> None:
        found = self.advise(f"{OFTEN}{SELDOM}-- weight 1000\n{LOWER};\n")
        caveats = {it["table"]: it["caveat"] for it in found["picks"]}
        self.assertEqual((caveats["sale"], caveats["seldom"][:8]), (None, "it saves"))
        (hint,) = found["hints"]
        self.assertIsNone(hint["why_not"])
        often, seldom, lower = (it["server_cost"] for it in found["statements"])
        # Without its pick a statement reads all rows and compares one column.
        self.assertEqual((seldom["before"], seldom["made"]), (self.cost_of_scan(1), self.cost_of_scan(1)))
        self.assertLess(seldom["after"], seldom["made"] / 2)
        self.assertEqual((often["made"], often["made"] < often["before"] / 2), (often["after"], True))
        self.assertEqual((lower["before"], lower["after"]), (self.cost_of_scan(2), self.cost_of_scan(2)))
        self.assertEqual(lower["made"], self.cost_with("lower(kind)", LOWER))
        whole, cost = found["server_cost"]["before"], found["recommended"]["server_cost"]
        self.assertAlmostEqual(hint["saves"]["server"], 100 * 1000 * (lower["before"] - lower["made"]) / whole, 3)
        every = 1000 * often["made"] + seldom["made"] + 1000 * lower["made"]
        # What a hint saves is rounded to a millionth.
        self.assertAlmostEqual(every, cost - hint["saves"]["server"] / 100 * whole, delta=whole / 10**6)
        self._holds_plans()

    def _holds_plans(self) -> None:
        """What the folder and its page have of these three statements."""
        often, seldom, lower = self.plans()
        self.assertNotIn("made", often)
        self.assertEqual((seldom["made"], seldom["made_shown"]), (seldom["before"], {}))
        self.assertEqual([*lower["made_shown"].values()], [HINT])
        self.assertIn("made", json.loads(self.told("advice.json"))["seconds"])
        if not HAS_JINJA:
            return
        text = unescape(self.told("report.html")).replace("\N{NO-BREAK SPACE}", " ")
        statements = text.partition('<h2 id="statements">')[2]
        self.assertIn(
            "What is after is with the indexes to make alone; our model knows none over functions.", statements
        )
        self.assertIn(f"using the new index {HINT}", statements)
        self.assertIn("using the new index sale(city)", statements)
        self.assertNotIn("new index seldom(city)", statements)
        self.assertIn('<h3>Plan after</h3><p class="soft">The same.</p>', statements)
        self.assertIn("over 3 statements, without what indexes over functions save</div>", text)

    def test_without_hints_statements_cost_together_what_the_workload_does(self) -> None:
        found = self.advise(OFTEN + SELDOM)
        every = sum(it["calls"] * it["server_cost"]["made"] for it in found["statements"])
        self.assertAlmostEqual(every, found["recommended"]["server_cost"], 3)
        self.assertGreater(every, found["server_cost"]["after"])

    def test_nothing_is_asked_twice_where_all_picks_are_made(self) -> None:
        found = self.advise(OFTEN)
        self.assertEqual([it["caveat"] for it in found["picks"]], [None])
        self.assertNotIn("made", found["seconds"])
        cost = found["statements"][0]["server_cost"]
        self.assertEqual(cost["made"], cost["after"])
        self.assertEqual([{*it} for it in self.plans()], [{"numbers", "before", "after"}])
        if HAS_JINJA:
            self.assertNotIn("What is after", self.told("report.html"))

    def test_where_nothing_is_made_by_default_all_picks_are_shown(self) -> None:
        found = self.advise(WALK, budget="0.7MB", status=3)
        (pick,), (hint,) = found["picks"], found["hints"]
        self.assertEqual((pick["columns"], pick["caveat"][:22]), (["id"], "the server saves 0.0 %"))
        self.assertIn("more than the budget leaves", hint["why_not"])
        self.assertEqual([{*it["server_cost"]} for it in found["statements"]], [{"before", "after"}])
        self.assertEqual([{*it} for it in self.plans()], [{"numbers", "before", "after"}])
        if HAS_JINJA:
            said = "What is after is with all indexes, those not recommended too."
            self.assertIn(said, self.told("report.html"))

    def test_a_pick_that_a_plan_only_walks_along_is_taken_for_not_there(self) -> None:
        rules, query = self.folder / "own.rules", WALK.replace("$1", "'kind 7'").rstrip(";\n")
        rules.write_text("must sale(id)\n")
        for more, is_asked in ((("--rules", str(rules)), True), ((), False)):
            found = self.advise(f"{query};\n", *more)
            with self.subTest(more=more):
                (pick,), (hint,) = found["picks"], found["hints"]
                self.assertEqual((pick["columns"], pick["caveat"] is None), (["id"], is_asked))
                self.assertIsNone(hint["why_not"])
                cost, (plan,) = found["statements"][0]["server_cost"], self.plans()
                # With all picks it would walk, which isn't counted.
                self.assertEqual([*index_names(plan["after"])], [*json.loads(self.told("plans.json"))["shown"]])
                self.assertEqual(cost["after"], cost["before"])
                self.assertEqual([*plan["made_shown"].values()], [HINT])
                self.assertEqual(
                    (cost["made"], plan["made"]["Total Cost"]), (self.cost_with("lower(kind)", query),) * 2
                )
                saved = 100 * (cost["before"] - cost["made"]) / cost["before"]
                self.assertAlmostEqual(hint["saves"]["server"], saved, 3)

    def test_roles_with_power_are_refused_unless_statements_are_trusted(self) -> None:
        columns = {it: Column(it, it) for it in ("id", "city")}
        oid = int(self.server.value("SELECT 'sale'::regclass::oid", self.database))
        schema = Schema([Table("public", "sale", "sale", 9, 9, columns, oid=oid)])
        advice = Advice(9, [Candidate(1, "sale", ("city",), 9)])
        listed = [verdict(1, "SELECT * FROM sale WHERE city = 7", sale=oid)]
        lost = [verdict(2, "SELECT * FROM nowhere WHERE city = 7")]
        with connected(f"host={self.server.folder} user=cophy dbname={self.database}") as server:
            with self.assertRaises(NotTrusted):
                plans_by_default(server, schema, advice, [], listed, False, Progress())
            found = plans_by_default(server, schema, advice, [], listed, True, Progress())
            with self.assertRaisesRegex(ServerFault, "statement 2 isn't explained any more"):
                plans_by_default(server, schema, advice, [], lost, True, Progress())
        self.assertEqual([*found[1].names.values()], ["sale(city)"])
        cost = self.cost_with("city", "SELECT * FROM sale WHERE city = 7")
        self.assertEqual(found[1].plan["Total Cost"], cost)


if __name__ == "__main__":
    unittest.main()
