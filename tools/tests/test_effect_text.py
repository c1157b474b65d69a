"""What `cophy-pg effect` prints for people."""
from __future__ import annotations

import json
import unittest
from typing import Any

from fixtures import NO_PARSER, ROOT
from schema_check import faults

if not NO_PARSER:
    from cophy_pg.effect_text import lines_of

SCHEMA = json.loads((ROOT / "tools" / "pg" / "cophy_pg" / "effect.schema.json").read_text())


@unittest.skipIf(NO_PARSER, NO_PARSER)
class Text(unittest.TestCase):
    def found(self, count: int, statements: int, **more: Any) -> dict[str, Any]:
        """A document of so many indexes, each tenth of which is INVALID, and so many statements."""
        indexes = [
            {
                "place": at,
                "index": f"t{at}({'a' * (90 if at == 1 else 3)})",
                "name": "i",
                "recommended": True,
                "state": "INVALID" if at % 10 == 0 else "there",
                "scans": at - 1,
            }
            for at in range(1, count + 1)
        ]
        listed = [
            {"numbers": [at], "sql": "S" * 60, "helped": True, "slower": False, "calls": 9, "before": 3000.0}
            | {"indexes": [], "main": []}
            | {"since": 40.0 * at}
            for at in range(1, statements + 1)
        ]
        every: dict[str, Any] = {"calls": 9, "before": 3.14, "since": 0.4}
        counted = {"begin": "indexes", **every, "writes": every | {"calls": 0}, "all": every, "statements": listed}
        counted |= {"not_called": []}
        cost = {"statements": 9, "of": 9, "before": 200.0, "now": 20.0, "advised": 9.0, "time": None}
        document = {"version": 1, "database": "d", "made": "", "source": "pg_stat_statements", "indexes": indexes}
        document |= {"make": ["psql"] * (count >= 10), "server_cost": cost, "counted": counted} | more
        self.assertEqual([*faults(document, SCHEMA, SCHEMA)], [])
        return document

    def test_it_has_few_lines_that_are_narrow(self) -> None:
        lines = lines_of(self.found(2, 2))
        self.assertEqual(lines[0], "All 2 indexes are there, 1 of them in use, not used yet: 1.")
        self.assertEqual(lines[1], "Since all indexes stood these 2 statements took 0.40 ms a call, 3.1 before.")
        saved = "By the server's planner the statements cost 90.0 % less; the advice said 91.0 %."
        self.assertEqual(lines[2:4], ["All 9 calls took 0.0036 s, at the times before 0.0283: 87 % less.", saved])
        self.assertRegex(lines[6], r"^ 1\. +0  t1\(a+\.\.\.$")
        self.assertEqual(lines[7], " 2.             1  t2(aaa)")
        self.assertEqual(lines[10], f"{'3,000.0':>9} {'40.0':>9} {'9':>11}        {'S' * 60}")
        for count, statements in ((21, 0), (10, 10), (3, 90), (90, 90)):
            lines = lines_of(self.found(count, statements))
            self.assertLessEqual(len(lines), 26 if count <= 12 else 21)
            self.assertLessEqual(max(map(len, lines)), 100)
            # Those that aren't there are told while there is room.
            self.assertEqual(sum("INVALID" in it for it in lines), min(3, count // 10))
        self.assertIn("and 87 more, of which 81 are there, 80 of them in use", lines)
        # Of a dozen indexes each has its scans.
        lines = lines_of(self.found(12, 90))
        self.assertEqual([it.split()[0] for it in lines if it[2:3] == "."], [f"{at}." for at in range(1, 13)])

    def rows(self, found: dict[str, Any]) -> list[str]:
        """The lines behind the names of the columns."""
        lines = lines_of(found)
        return lines[next(at for at, it in enumerate(lines) if it.endswith("  statement")) + 1 :]

    def test_those_that_got_slower_are_the_last_of_ten(self) -> None:
        found = self.found(1, 90)
        for it in found["counted"]["statements"]:
            it["slower"] = it["since"] > 3500
        rows = self.rows(found)
        self.assertEqual(len(rows), 11)
        self.assertEqual([it.split()[1] for it in rows[6:10]], ["280.0", "3,600.0", "3,560.0", "3,520.0"])
        # Ten of the 90 have rows.
        self.assertEqual(rows[-1], "and 80 more")

    def test_those_that_gained_or_lost_the_most_in_all_are_the_first_and_noise_isnt_shown(self) -> None:
        table = [(5000, 0.81, 0.88), (90, 150.0, 0.04), (3, 150.0, 0.04), (80, 151.0, 0.05), (70, 0.04, 150.0)]
        table += [(100, 100.0, 91.0), (10, 0.02, 0.09), (900000, 0.05, 0.01)]
        found = self.found(1, len(table))
        for it, (calls, before, since) in zip(found["counted"]["statements"], table, strict=True):
            it |= {"calls": calls, "before": before, "since": since, "slower": since > 1.5 * before}
        rows = self.rows(found)
        self.assertEqual([it.split()[2] for it in rows[:-1]], ["900,000", "90", "80", "70", "3", "10"])
        self.assertEqual(rows[-1], "and 2 more")

    def test_what_each_index_was_made_for_has_the_first_rows(self) -> None:
        found = self.found(3, 20)
        last = found["counted"]["statements"][-1]
        last |= {"indexes": [1, 3], "main": [3], "before": 2.0, "since": 2.0, "sql": "SELECT 1"}
        found["counted"]["not_called"] = [2]
        rows = self.rows(found)
        self.assertEqual(rows[0], "      2.0       2.0           9   1,3  SELECT 1")
        self.assertTrue(rows[1].startswith("  3,000.0      40.0           9        SSS"), rows[1])
        self.assertEqual(rows[-2:], ["not called since: those of 2", "no faster with them: the statements of 3"])
        # A tenth less is faster, and few calls say nothing.
        for calls, since, is_told in ((9, 1.81, True), (9, 1.79, False), (4, 2.0, False)):
            last |= {"calls": calls, "since": since}
            self.assertEqual(any(it.startswith("no faster") for it in self.rows(found)), is_told, (calls, since))

    def busy(self, others: dict[str, Any] | None = None) -> list[str]:
        """What is printed of 7 indexes, two of which weren't made, and 7 statements that they help."""
        every = {"calls": 23744, "before": 8.179, "since": 1.8868}
        counted: dict[str, Any] = {"begin": "advice", "calls": 900, "before": 288.7, "since": 38.6, "all": every}
        counted |= {"writes": {"calls": 700, "before": 1.7, "since": 0.39}}
        if others:
            rest = {"statements": 9, "calls": 7000, "before": 7.0, "since": 2.03}
            counted["others"] = rest | {"against": {"statements": 0.461, "writes": 0.791, "all": 0.7955}} | others
        found = self.found(7, 7)
        cost = found["server_cost"] | {"time": {"saved": 19.0, "advised": 23.0}}
        for it in found["indexes"]:
            it |= {"state": "there", "scans": 5} if it["place"] < 6 else {"state": "not made", "scans": 0}
        more = {"indexes": found["indexes"], "server_cost": cost, "make": ["psql"]}
        return lines_of(self.found(7, 7, counted=found["counted"] | counted, **more))

    def test_where_the_server_was_busier_all_is_told_against_that(self) -> None:
        planner = "By the server's planner the statements would take 19 % less of the time measured for queries; "
        planner += "the advice said 23 % with all."
        begin = "Since the advice statements without new indexes took 29 % of their time before: "
        before = "Calls from before they were made may be in it; a later call of effect leaves those out."
        there = "5 of 7 indexes are there, 5 of them in use."
        against = "Against them these 7 statements took 46 % of theirs, all 23,744 calls 80 %, writes 79 %."
        found = self.busy({"ratio": 0.29, "load": "busier before"})
        self.assertEqual(found[:6], [there, planner, begin + "the server was busier then.", against, before, ""])
        found = self.busy({"ratio": 2.4, "load": "busier since"})
        self.assertEqual(found[2], begin.replace("29", "240") + "the server was busier since.")
        none = {"against": {"statements": 0.461, "writes": None, "all": 0.7955}}
        found = self.busy({"ratio": 0.29, "load": "busier before"} | none)
        self.assertEqual(found[3], against.replace(", writes 79 %", ""))

    def test_where_the_load_was_alike_or_isnt_known_times_are_told(self) -> None:
        took = "Since the advice these 7 statements took 38.6 ms a call, 288.7 before"
        self.assertEqual(self.busy()[1], took + ".")
        found = self.busy({"ratio": 0.97, "load": "alike"})
        self.assertEqual(found[1], took + "; others about the same.")
        every = "All 23,744 calls took 44.8 s, at the times before 194.2: 77 % less; writes 0.39 ms a call, 1.7 before, 0.917 s less in all."
        self.assertEqual(found[2], every)
        self.assertTrue(found[4].startswith("By the server's planner "), found)

    def test_what_isnt_known_is_left_out(self) -> None:
        again = "No statement that they help was called since; calls are counted from now on: call this again later."
        self.assertEqual(lines_of(self.found(1, 0))[0], "The index is there, not used yet.")
        self.assertEqual(lines_of(self.found(1, 0))[1], again)
        lines = lines_of(self.found(1, 0, counted=None, server_cost=None, source="sql"))
        self.assertEqual(lines[1:3], ["The statements came from a file, so no times are compared.", ""])
        self.assertEqual(
            lines_of(self.found(0, 0, counted=None, server_cost=None)), ["The folder has no index to make."]
        )
        some = self.found(1, 0)["server_cost"] | {"statements": 3}
        told = "By the server's planner 3 of 9 statements cost 90.0 % less; the advice said 91.0 %."
        self.assertEqual(lines_of(self.found(1, 0, server_cost=some))[2], told)

    def test_what_the_planner_says_is_named_as_the_summary_names_it(self) -> None:
        begin, of_time = "By the server's planner the statements ", " of the time measured for queries; the advice said"
        for more, told in (
            ({"time": {"saved": 50.4, "advised": 51.2}}, f"would take 50 % less{of_time} 51 %."),
            ({"time": {"saved": 0.43, "advised": 51.2}}, f"would take 0.4 % less{of_time} 51 %."),
            ({"time": {"saved": -4.4, "advised": 51.2}}, f"would take 4 % more{of_time} 51 % less."),
            ({"now": 208.8}, "cost 4.4 % more; the advice said 91.0 % less."),
            ({"now": 200.01}, "cost 0.0 % less; the advice said 91.0 %."),
        ):
            cost = self.found(1, 0)["server_cost"] | more
            self.assertEqual(lines_of(self.found(1, 0, server_cost=cost))[2], begin + told)

    def test_statements_that_became_slower_are_told(self) -> None:
        found = self.found(2, 2)
        one = found["counted"]["statements"][0]
        self.assertNotIn("slower", "\n".join(lines_of(found)))
        one |= {"before": 2.0, "since": 3.1, "slower": True}
        lines = lines_of(found)
        self.assertEqual(
            lines[3], "1 statement is slower by more than half: look at EXPLAIN ANALYZE of what is marked with a !."
        )
        self.assertEqual(sum("!S" in it for it in lines), 1)

    def test_all_calls_and_those_that_write_are_told(self) -> None:
        every = {"calls": 9000, "before": 5.0, "since": 1.25}
        more = {"all": every, "writes": {"calls": 40, "before": 0.1, "since": 0.125}}
        lines = lines_of(self.found(2, 2, counted=self.found(2, 2)["counted"] | more))
        told = "All 9,000 calls took 11.2 s, at the times before 45.0: 75 % less; writes 0.12 ms a call, 0.10 before, 0.001 s more in all."
        self.assertEqual(lines[2], told)

    def test_calls_from_before_the_indexes_stood_are_told(self) -> None:
        counted = self.found(2, 1)["counted"] | {"begin": "advice"}
        lines = lines_of(self.found(2, 1, counted=counted))
        self.assertTrue(lines[1].startswith("Since the advice this statement took "))
        later = "Calls from before they were made may be in it; a later call of effect leaves those out."
        self.assertEqual(lines[3], later)
        lines = lines_of(self.found(2, 1, counted=counted, make=["psql -X"]))
        self.assertEqual(lines[-2:], ["to make the others:", "psql -X"])
        lines = lines_of(self.found(10, 1))
        self.assertTrue(lines[1].startswith("Since these indexes stood this statement took "), lines[1])


if __name__ == "__main__":
    unittest.main()
