"""The summary of `advise`: three lines, the indexes, and what else there is to know, all of it short."""
from __future__ import annotations

import unittest

from summaries import OverDocument
from test_page import MISSING, change


@unittest.skipIf(MISSING, MISSING)
class Verdict(OverDocument):
    def test_the_verdict_on_five_picks_is_short_and_says_what_to_do(self) -> None:
        self.five()
        self.document["statements"][1]["seconds"] = 0.1
        for it in self.document["picks"]:
            it["saves"]["planned"] = 16.6
        lines = self.verdict()
        self.assertLessEqual(len(" ".join(lines).split()), 180)
        # Of 1.6 s a statement has 1.5, and costs 100 of 900; the other one costs what it did.
        first = [
            "Make these 5 indexes: 20.0 MB of the budget of 2,048.0 MB.",
            "They save about 83 % of the 1.6 s measured for queries, if time falls like the planner's cost.",
            "2,028.0 MB left: nothing fitting saves more by our model (proved).",
        ]
        self.assertEqual(lines[: lines.index("")], first)
        at = next(at for at, it in enumerate(lines) if it.startswith(" 1."))
        self.assertEqual(lines[at - 1], "        MB     time  index, for")
        self.assertRegex(lines[at], r" 1\.    0\.2   16\.6 %  t0\(a\) +FROM t WHERE b = '<script>alert\.\.\.")
        end = [
            "all else: /home/you/advice/details.txt",
            "make them (about 37 seconds, reads and writes go on); it asks first, and --undo takes them back:",
            "cophy-pg make /home/you/advice",
            "whether it helped: cophy-pg effect /home/you/advice",
        ]
        self.assertEqual(lines[-4:], end)
        self.assertEqual([it for it in lines if "MB" in it], [lines[0], lines[2], lines[at - 1]])
        self.document["asked_pages"] = 2660
        self.assertEqual(self.verdict()[2], "No indexes within the budget save more by our model (proved).")
        self.document["asked_pages"] = 128 * 2048
        # Of 9000 thousand, 7200 are saved, and 7204 at the most; a bound isn't rounded down.
        self.document["cost"]["bound"] = 1796000
        others = "By our model they save 80.0 % of the cost, no others of 2,048.0 MB over 80.1 % (proved)."
        self.assertEqual(self.verdict()[2], others)
        self.document["recommended"]["picks"], self.document["picks"] = 1, self.document["picks"][:1]
        self.assertEqual(self.verdict()[0], "Make this index: 20.0 MB of the budget of 2,048.0 MB.")
        self.assertTrue(self.verdict()[1].startswith("It saves about 83 % of the 1.6 s measured for queries"))

    def test_an_index_that_takes_much_space_for_little_is_told_and_rows_that_dont_sum(self) -> None:
        self.five()
        self.document["statements"][1]["seconds"] = 0.1
        self.document["recommended"]["stored_pages"] = 128 * 94
        # All save 83 %; the shared row of those under 1 % has its own words.
        for shares, size, wanted in (
            ((40.0, 20.0, 16.0, 2.0, 2.9), 61, ["4 takes 61.0 MB for 2.0 %: make --without 4 leaves it out"]),
            ((40.0, 20.0, 16.0, 2.0, 2.9), 23, []),
            ((40.0, 20.0, 16.0, 3.0, 2.9), 61, []),
            ((40.0, 20.0, 22.0, 0.9, 0.9), 61, []),
            ((30.0, 20.0, 6.0, 5.0, 5.0), 61, ["rows sum to 66 %, not 83: others stand in for one that is missing"]),
            ((60.0, 20.0, 6.0, 5.0, 5.0), 61, ["rows sum to 96 %, not 83: some save only together"]),
        ):
            for it, planned in zip(self.document["picks"], shares, strict=True):
                it["saves"] |= {"planned": planned}
            self.document["picks"][3]["stored_pages"] = 128 * size
            lines = self.verdict()
            found = [it for it in lines if " MB for " in it or it.startswith("rows")]
            self.assertEqual(found, wanted, shares)

    def test_which_values_cant_be_written_any_more_is_told(self) -> None:
        self.five()
        picks = self.document["picks"]
        picks[0]["caveat"] = "an INSERT would fail"
        for at, names in ((0, ["z"]), (1, ["a"]), (3, ["b", "a"])):
            picks[at]["long"] = names
        wanted = "INSERTs of over 2,704 bytes in t1.a, t3.a .. will fail (index 1, 3)"
        self.assertIn(wanted, self.verdict())
        picks[3]["long"] = []
        self.assertIn("INSERTs of over 2,704 bytes in t1.a will fail (index 1)", self.verdict())
        # Where all values that are known are far shorter, only the details say so.
        picks[1]["long_far"] = ["a"]
        self.assertFalse([it for it in self.verdict() if it.startswith("INSERTs")])
        picks[1]["long"] = []
        self.assertFalse([it for it in self.verdict() if "bytes" in it])

    def test_what_others_could_save_much_more_by_is_named_by_its_first_columns(self) -> None:
        self.five()
        self.document["cost"]["bound"] = 900000
        for columns, shown in (("a, b, c", "a, b, c"), ("a, b, c, d", "a, b, c, ..")):
            self.document["gap"] = {"index": f"t({columns})", "why": "so it is"}
            self.assertIn(f"most of what others could save more is t({shown}): so it is", self.verdict())

    def test_indexes_that_save_little_share_a_row(self) -> None:
        self.five()
        self.document["statements"][0]["sql"] = "SELECT a, b FROM t0, t1 WHERE t1.b > 5 AND t0.a = 3"
        for it, planned in zip(self.document["picks"], (10.0, 1.0, 0.9, 0.04, 0.06), strict=True):
            it["saves"] = {"ours": 9.0, "server": 2.0, "measured": planned, "planned": planned}
        lines = self.verdict()
        at = next(at for at, it in enumerate(lines) if it.startswith(" 1."))
        wanted = [
            " 1.    0.2   10.0 %  t0(a)     WHERE a = 3",
            " 2.    0.2    1.0 %  t1(a, b)  WHERE b > 5",
            "3-5.   0.5    1.0 %  3 indexes that save less than 1 % each: make --without 3,4,5 leaves them out",
            "",
        ]
        self.assertEqual(lines[at : at + 4], wanted)
        # One alone has a row of its own.
        del self.document["picks"][3:]
        self.assertTrue(self.verdict()[at + 2].startswith(" 3.    0.2    0.9 %  t2(a, b, c)  FROM t0"))

    def test_an_index_that_the_server_alone_has_judged_is_a_row_behind_the_picks_and_before_the_others(self) -> None:
        from cophy_pg.closing import commands_of
        from cophy_pg.overview import gain_of, lines_of

        self.five()
        self.document["statements"][1]["seconds"] = 0.1
        self.document["picks"][2]["caveat"] = "it saves 0.4 %"
        self.document["recommended"] |= {"picks": 4, "stored_pages": 2048}
        hint = {"table": "t9", "columns": ["lower(a)"], "stored_pages": 640, "why_not": None, "missing_pages": 0}
        hint |= {"saves": {"server": 9.0, "planned": 12.0}, "statements": ["CREATE INDEX;", "ANALYZE;"], "notes": []}
        hint |= {"changes": [change(9, "SELECT x FROM t9 WHERE lower(t9.a) = 'a'", 0.0, 9.0)], "build_seconds": 3.0}
        self.document |= {"hints": [hint | {"owner": "app", "long": []}], "asked_pages": 3072}
        lines = self.verdict()
        # 16 MB of picks and 5 of the hint; a pick that saves 10 % is taken off, and the hint saves 12 %.
        self.assertEqual(lines[0], "Make these 5 indexes: 21.0 MB of the budget of 24.0 MB.")
        self.assertTrue(
            lines[1].startswith("They save about 85 % of the 1.6 s measured for queries, if time"), lines[1]
        )
        at = next(at for at, it in enumerate(lines) if it.startswith(" 5."))
        self.assertEqual(lines[at], " 5.    5.0 * 12.0 %  t9(lower(a))       WHERE lower(a) = 'a'")
        self.assertTrue(lines[at + 1].startswith("* judged by the server's planner alone: outside our model, "))
        over = "1 more isn't recommended (4.0 MB, with which all are 1.0 MB over the budget; make --all takes it too)"
        self.assertIn(over, lines)
        self.assertIn(
            "make them (about 33 seconds, reads and writes go on); it asks first, and --undo takes them back:", lines
        )
        details = lines_of(self.document)
        self.assertTrue(details[0].startswith("5 indexes to make, 21.0 MB of 24.0 MB, and 1 not recommended, 4.0 MB: "))
        at = details.index("5. CREATE INDEX;")
        self.assertEqual(details[at + 1], "   ANALYZE;")
        self.assertEqual(details[at + 2].split()[:5], ["5.0", "MB", "-", "9.0", "12.0"])
        self.assertEqual([it[:2] for it in details if it[:2] in ("4.", "5.", "6.")], ["4.", "5.", "6."])
        said = gain_of(self.document["hints"][0])
        self.assertTrue(said.startswith("saves 12.0 % of the time by the server's planner alone, the most of SELECT x"))
        self.document["owners"] = ["app", "boss"]
        for it in self.document["picks"]:
            it["owner"] = "boss"
        self.assertIn(" -v without=1,2,3,4,6 ", commands_of(self.document, "x")[0])
        # Where the server was asked about what is made alone, that is what counts: 1.5 s that cost 900 cost 300 then.
        self.document["statements"][0]["server_cost"]["made"] = 300.0
        self.assertTrue(self.verdict()[1].startswith("They save about 62 % of the 1.6 s measured"), self.verdict()[1])
        del self.document["statements"][0]["server_cost"]["made"]
        # Where there is no pick, it is made alone.
        self.document["picks"], self.document["recommended"]["stored_pages"] = [], 0
        self.assertEqual(self.verdict()[0], "Make this index: 5.0 MB of the budget of 24.0 MB.")

    def test_where_some_time_isnt_known_the_verdict_is_of_the_servers_cost(self) -> None:
        self.five()
        self.document["statements"][1]["seconds"] = None
        for it in self.document["picks"]:
            it["saves"] |= {"measured": None, "planned": None}
        lines = self.verdict()
        at = lines.index("")
        self.assertEqual((at, lines[1]), (3, "They save 88.9 % of the cost by the server's planner."))
        self.assertFalse([it for it in lines if it.startswith("judged by")])
        self.assertEqual(lines[at + 1], "        MB    saves  index, for")
        self.assertRegex(lines[at + 2], r" 1\.    0\.2   88\.9 %  t0\(a\) ")

    def test_the_pick_that_saves_the_most_time_is_the_first_though_it_saves_little_cost(self) -> None:
        from cophy_pg.overview import gain_of
        from cophy_pg.result import place_of

        self.five()
        picks = self.document["picks"][:3]
        shares = ((12.4, 1.9, 1.6), (1.7, 20.0, 15.3), (0.0, 3.0, 0.0))
        for it, (server, measured, planned) in zip(picks, shares, strict=True):
            it["saves"] |= {"ours": 5.5, "server": server, "measured": measured, "planned": planned}
        # Of this one the server doesn't judge.
        picks[2]["outcome"] = "unknown"
        self.document["picks"] = sorted(picks, key=place_of)
        lines = self.verdict()
        at = lines.index("        MB     time  index, for")
        rows = [" ".join(it.split()[2:5]) for it in lines[at + 1 : at + 4]]
        self.assertEqual(rows, ["15.3 % t1(a,", "~ 3.0 %", "1.6 % t0(a)"])
        self.assertTrue(gain_of(self.document["picks"][0]).startswith("saves 15.3 % of the time, the most of SELECT "))
        # A statement with next to no cost may have much of the time.
        self.document["picks"][0]["changes"] = [change(7, "SELECT 7", 0.0, 0.03), change(8, "SELECT 8", 0.9, 0.9)]
        self.assertTrue(self.verdict()[at + 1].endswith("  SELECT 7"))

    def test_how_many_were_judged_is_told_where_much_of_the_time_wasnt(self) -> None:
        self.five()
        skipped = self.document["statements"][0] | {"numbers": [], "server_cost": None, "skipped": "SHOW"}
        for seconds, is_told in ((0.33, False), (0.34, True)):
            self.document["statements"][2:] = [skipped | {"seconds": seconds}]
            lines = self.verdict()
            self.assertEqual(
                "judged by 2 of 3 statements with 89.8 % of the 3.3 s measured for queries" in lines, is_told, lines
            )

    def test_what_isnt_recommended_is_counted_and_its_time_is_taken_off(self) -> None:
        self.five()
        picks = self.document["picks"]
        picks[1]["caveat"], picks[3]["caveat"] = "it saves 0.4 %", "it would fail"
        picks[0]["superfluous"], picks[1]["superfluous"] = ['"public"."old"'], ['"public"."needed"']
        self.document["warnings"] = [
            "statements that ran once have 33.3 % of the cost: --min-calls 2 leaves them out",
            "x",
        ]
        self.document["recommended"] |= {"picks": 3, "cost": 2700000, "stored_pages": 1280, "server_cost": 4500.0}
        lines = self.verdict()
        text = " ".join(lines)
        # 44.4 % but for two that save 10 % each.
        self.assertEqual(lines[0], "Make these 3 indexes: 10.0 MB of the budget of 2,048.0 MB.")
        self.assertTrue(lines[1].startswith("They save about 24 % of the 3.0 s measured for queries, if"), lines[1])
        # They cost 2,700 of 9,000 by our model, and no others less than 1,800.
        bound = "By our model they save 70.0 % of the cost, no others of 2,048.0 MB over 80.0 % (proved)."
        self.assertEqual(lines[2], bound)
        at = lines.index("2 more aren't recommended (10.0 MB; make --all takes them too)")
        rows = [(it[:3], it.split()[4][:2]) for it in lines[at - 4 : at - 1]]
        self.assertEqual((rows, lines[at - 1]), ([(" 1.", "t0"), (" 2.", "t2"), (" 3.", "t4")], ""))
        self.assertNotIn("it saves 0.4 %", text)
        for line in (
            'may be dropped once these are in use: "public"."old" beside 1',
            "warning: statements that ran once have 33.3 % of the cost: --min-calls 2 leaves them out",
            "warning: x",
            "all else: /home/you/advice/details.txt",
        ):
            self.assertIn(line, lines)
        self.document["warnings"] *= 2
        lines = self.verdict()
        self.assertNotIn("warning: x", lines)
        self.assertIn("2 more warnings, all else: /home/you/advice/details.txt", lines)

    def test_that_none_is_recommended_is_said(self) -> None:
        self.five()
        picks = [it | {"caveat": "it saves 0.4 %"} for it in self.document["picks"]]
        self.document["picks"] = [*picks, *picks]
        self.document["recommended"] |= {"picks": 0, "stored_pages": 0}
        lines = self.verdict()
        self.assertTrue(lines[0].startswith("No index is plainly worth making for 'shop & <b>', judged by"), lines)
        self.assertIn("10 aren't recommended (20.0 MB; make --all takes them)", lines)
        self.assertEqual(self.verdict()[-2], "cophy-pg make /home/you/advice --all")
        self.document["picks"] = []
        self.assertTrue(self.verdict()[0].startswith("No index is worth making for"))

    def test_the_time_of_statements_that_no_index_helps_is_told_with_the_one_that_has_the_most(self) -> None:
        self.five()
        sql, statement = "SELECT a\nFROM t WHERE lower(b) LIKE 'x%'", self.document["statements"][0]

        def told(*shares: tuple[float, float]) -> list[str]:
            """The line where statements have so many seconds and so much of their cost after, the last one that text."""
            self.document["statements"] = [
                statement
                | {"seconds": seconds, "sql": sql if at == len(shares) else f"SELECT {at}"}
                | {"server_cost": {"before": 100.0, "after": after}}
                for at, (seconds, after) in enumerate(shares, 1)
            ]
            return [it for it in self.verdict() if it.startswith("no advised index")]

        line = "no advised index helps statements with {} of the time, the most of them: SELECT a FROM t WHERE"
        line += " lower(b) LIKE 'x%'"
        # One that has less than a thousandth of the time isn't seen.
        self.assertEqual(told((4.9, 50.0), (1.0, 91.0), *[(0.009, 99.0)] * 6, (4.1, 99.5)), [line.format("50.7 %")])
        self.assertEqual(told((9.0, 90.0), (0.4, 99.0), (0.6, 99.5)), [line.format("10.0 %")])
        self.assertEqual(told((9.1, 90.0), (0.4, 99.0), (0.5, 99.5)), [])
        self.document["statements"][0]["server_cost"] = None
        self.assertEqual([it for it in self.verdict() if it.startswith("no advised index")], [])

    def test_that_the_time_for_exchanges_was_up_is_for_the_details_alone(self) -> None:
        from cophy_pg.overview import lines_of
        from cophy_pg.searches import CUT

        self.five()
        end = "all else: /home/you/advice/details.txt"
        for warnings, shown, line in (
            ([CUT], [], end),
            (["x", CUT, "y"], ["warning: x", "warning: y"], end),
            (["x", "y", CUT, "z"], [], f"4 warnings, {end}"),
        ):
            self.document["warnings"] = warnings
            lines = self.verdict()
            self.assertEqual([it for it in lines if it.startswith("warning: ")], shown)
            self.assertIn(line, lines)
            self.assertIn(f"warning: {CUT}", lines_of(self.document))

    def test_a_doubt_of_who_has_all_power_there_is_for_the_details_alone(self) -> None:
        self.five()
        names = ("'app'", "'boss' and 'app'", "'other'", "'app' and 'other'")
        doubts = [f"the advice stands unless you distrust {it}, who may replace it; {it}" for it in names]
        self.document |= {"owners": ["app"], "database_owner": "boss"}
        for doubt, is_told in zip(doubts, (False, False, True, True)):
            self.document["doubts"] = [doubt]
            self.assertEqual(f"warning: {doubt.partition(';')[0]}" in self.verdict(), is_told, doubt)
        # Who owns some tables only could fake what is advised for others.
        self.document |= {"owners": ["app", "other"], "doubts": doubts[:1]}
        self.assertIn(f"warning: {doubts[0].partition(';')[0]}", self.verdict())

    def test_each_owner_has_a_line_that_passes_over_the_tables_of_others(self) -> None:
        from cophy_pg.closing import commands_of

        self.five()
        for at, it in enumerate(self.document["picks"]):
            it["owner"] = "app" if at % 2 else "root"
        self.document["picks"][0]["caveat"] = "it saves 0.4 %"
        self.document |= {"owners": ["root", "app", "none"], "host": "localhost", "port": 5432}
        place = "-p 5432 -d 'shop & <b>'"
        wanted = [
            f"sudo -u root psql -X {place} -v without=1,3,5 < /home/you/advice/indexes.sql",
            f"psql -X -h localhost {place} -U app -v without=2,4,5 -f /home/you/advice/indexes.sql",
        ]
        self.assertEqual(commands_of(self.document, "/home/you/advice/indexes.sql"), wanted)

    def test_what_an_unproved_program_answers_is_never_called_proved(self) -> None:
        from cophy_pg.overview import lines_of

        self.five()
        self.document["proved"] = f"not proved, as the program is unproved; it says: {self.document['proved']}"
        for bound in (1800000, 1700000):
            self.document["cost"]["bound"] = bound
            text = " ".join(self.verdict())
            self.assertIn("not proved, as the program is unproved)", text)
            self.assertNotRegex(text, r"\(proved")
            details = lines_of(self.document)
            self.assertTrue(any(it.endswith("; not proved, as the program is unproved") for it in details), details)
            self.assertNotIn("checked", " ".join(details))


if __name__ == "__main__":
    unittest.main()
