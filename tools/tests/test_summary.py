"""What `advise` prints of a document: all details with measured times and warnings, and who makes the indexes."""
from __future__ import annotations

import unittest

from summaries import OverDocument
from test_page import MISSING, change


@unittest.skipIf(MISSING, MISSING)
class Summary(OverDocument):
    def test_the_summary_counts_what_saves_little(self) -> None:
        from cophy_pg.overview import lines_of

        pick = self.document["picks"][0] | {"saves": {"ours": 0.4, "server": 0.0}}
        self.document["options"]["min_saving"] = 0
        texts = ("1 saves less than 1 % and takes 0.2 MB", "1 and 2 save less than 1 % and take 0.3 MB")
        for count, text in enumerate(texts, 1):
            self.document["picks"] = [pick] * count
            self.assertIn(f"{text}: --min-saving 1 leaves such out", lines_of(self.document))
        self.document["picks"] = [pick | {"saves": {"ours": 0.4, "server": 0.0, "measured": 1.9}}]
        self.assertFalse([it for it in lines_of(self.document) if "--min-saving" in it])

    def test_the_summary_says_which_picks_another_serves_and_which_are_wide(self) -> None:
        from cophy_pg.overview import lines_of

        pick = self.document["picks"][0]
        columns = (["b"], ["b", "c", "d", "e", "f"], ["c"])
        self.document["picks"] = [pick | {"columns": it} for it in columns]
        lines, hint = lines_of(self.document), "2 has 5 columns or more: --include"
        self.assertEqual([it for it in lines if "begins with its" in it], ["   2 begins with its columns"])
        self.assertTrue(any(it.startswith(hint) for it in lines), lines)
        self.document["options"]["include"] = True
        self.assertFalse(any(it.startswith(hint) for it in lines_of(self.document)))

    def test_the_summary_counts_what_is_left_out_and_names_what_was_skipped(self) -> None:
        from cophy_pg.overview import lines_of

        left_out = self.document["left_out"][0]
        asked = left_out | {"why": "it saves 0.1 % by our model, and 1 % are asked for"}
        self.document["left_out"] = [left_out, asked, asked, left_out | {"why": "it is there already"}]
        text = "1 taken by no plan, 2 beyond limits, 1 for other reasons"
        lines = lines_of(self.document)
        self.assertIn(f"left out, see the report: {text}", lines)
        self.assertIn("  33.3 %: SHOW: SHOW x", lines)
        self.document["statements"][2]["seconds"] = 0.1
        self.assertFalse([it for it in lines_of(self.document) if it.startswith("skipped")])

    def test_the_summary_has_the_measured_time_and_warns_of_guesses(self) -> None:
        from cophy_pg.guesses import is_guessed
        from cophy_pg.overview import lines_of

        for text, found in (
            ("SELECT a FROM t\nWHERE x.b >= ? AND c = ?", True),
            ("SELECT a FROM t WHERE b BETWEEN ? AND ?", True),
            ("SELECT a FROM t WHERE b > 7 AND c < ?", False),
            ("SELECT a FROM t WHERE b <> ? AND a = ?", False),
        ):
            self.assertEqual(is_guessed(text, ["a", "B"]), found, text)
        changes = self.document["picks"][0]["changes"]
        changes[0] |= {"guess": True, "seconds": 0.02}
        changes.insert(1, changes[0] | {"numbers": [7], "guess": False, "seconds": 0.01})
        lines, warned = lines_of(self.document), "   rests on a guess, a range whose end isn't known, and on 0.67 % of"
        head = "2 of 3 statements with 66.7 % of the 4.5 s measured for queries; advised in 1.2 s"
        self.assertIn(head, lines[0])
        row = r"80\.0 +88\.9 +30\.0  statement 1, 0\.02 s: WHERE b = '<script>.*; also 7; 2 loses\Z"
        head = "        size our model    server      time  % saved; statement, measured time"
        self.assertEqual(lines[2], head)
        create, cluster = self.document["picks"][0]["statements"]
        self.assertEqual(lines[3:5], [f"1. {create}", f"   {cluster}"])
        self.assertRegex(lines[5], row)
        self.assertTrue(any(it.startswith(warned) for it in lines), lines)
        for key, value in (("guess", False), ("seconds", 0.2), ("seconds", None)):
            it = changes[0] | {key: value}
            self.document["picks"][0]["changes"] = [it, *changes[1:]]
            self.assertFalse([it for it in lines_of(self.document) if "rests on" in it])

    def test_the_details_say_which_sums_are_of_what_is_recommended(self) -> None:
        from cophy_pg.closing import next_of
        from cophy_pg.folder import Folder
        from cophy_pg.overview import lines_of

        self.five()
        self.document["recommended"] |= {"picks": 4, "stored_pages": 1280, "cost": 2700000, "server_cost": 4500.0}
        self.document["picks"][4] |= {"caveat": "it saves 0.4 %", "build_seconds": 3600.0}
        self.document |= {
            "stored_pages": 1536,
            "gap": {"index": "t(c)", "why": "so it is"},
            "unused": "5.0 MB stay free",
        }
        lines = lines_of(self.document)
        self.assertTrue(
            lines[0].startswith("4 indexes to make, 10.0 MB of 2,048.0 MB, and 1 not recommended, 2.0 MB: ")
        )
        self.assertEqual(lines.count("   not recommended: it saves 0.4 %"), 1)
        at = next(at for at, it in enumerate(lines) if it.split() == "before after saved with all saved bound".split())
        rows = ["our model 9,000 2,700 70.0 % 1,800 80.0 % 1,800", "the server's 9,000 4,500 50.0 % 1,000 88.9 %"]
        self.assertEqual([" ".join(it.split()) for it in lines[at + 1 : at + 3]], rows)
        self.assertIn("; most of the gap with all is t(c): so it is", lines[at + 3])
        self.assertEqual(lines[at + 4], "with all, those not recommended too, 5.0 MB stay free")
        line = next_of(self.document, Folder("/a"))[0]
        self.assertTrue(
            line.startswith("to make them in about 30 seconds: cophy-pg make /a; or their owner runs: "), line
        )

    def test_the_owner_who_is_a_user_here_needs_no_password(self) -> None:
        from cophy_pg.closing import command_of

        at = {"owners": ["root"], "host": "localhost", "port": 5432}
        self.assertEqual(
            command_of(self.document | at, "/a/b c", "root"), "sudo -u root psql -X -p 5432 -d 'shop & <b>' < '/a/b c'"
        )
        there = command_of(self.document | at | {"host": "db"}, "/a", "root")
        self.assertEqual(there, "psql -X -h db -p 5432 -d 'shop & <b>' -U root -f /a")

    def test_long_times_are_told_in_minutes_hours_and_days(self) -> None:
        from cophy_pg.speed import duration

        told = {0.2: "1 second", 119: "119 seconds", 2308: "38 minutes", 7200: "2 hours", 200000: "2 days"}
        self.assertEqual([duration(it) for it in told], [*told.values()])

    def test_what_the_bound_says_is_told_in_plain_words(self) -> None:
        from cophy_pg.overview import lines_of

        reached = "by our model no other indexes of 2,048.0 MB cost less; certificate checked"
        self.assertIn(reached, lines_of(self.document))
        self.document["cost"]["bound"] = 1700000
        text = "by our model no indexes of 2,048.0 MB cost less than the bound"
        self.assertIn(f"{text}, be they left out or against rules; certificate checked", lines_of(self.document))
        self.document["gap"] = {"index": "t(c, d)", "why": "no plan of the server takes it"}
        more = "; most of the gap is t(c, d): no plan of the server takes it; certificate checked"
        self.assertIn(text + more, lines_of(self.document))
        self.document |= {"unused": "5.0 MB stay free: so it is", "knee": "of all"}
        self.assertEqual(lines_of(self.document)[-2:], ["5.0 MB stay free: so it is", "of all"])

    def test_what_gains_too_little_to_be_seen_is_told_of_the_cost(self) -> None:
        from cophy_pg.overview import lines_of

        self.document["picks"][0]["changes"] = [change(1, "SELECT 1", 0.04, 0.03)]
        self.assertTrue(
            any(it.endswith("  less than 0.1 % of the cost in each statement") for it in lines_of(self.document))
        )

    def test_how_one_index_is_left_out_is_told_below_them(self) -> None:
        from cophy_pg.overview import lines_of

        line = "to leave some out: cophy-pg make --without N,N, their numbers"
        self.assertNotIn(line, lines_of(self.document))
        self.document["picks"] *= 2
        self.assertIn(line, lines_of(self.document))

    def test_the_next_step_is_a_command_that_the_owner_may_take(self) -> None:
        from cophy_pg.closing import next_of
        from cophy_pg.folder import Folder

        head, call = (
            "to make them in about 7 seconds: cophy-pg make /a; or",
            "runs: psql -X -h '/run/db server' -p 5433 -d 'shop & <b>' -U",
        )
        for owners, text in (
            (["app"], f"their owner {call} app -f /a/indexes.sql"),
            (["a b; $(c)"], f"their owner {call} 'a b; $(c)' -f /a/indexes.sql"),
            ([], f"their owner {call} OWNER -f /a/indexes.sql"),
        ):
            with self.subTest(owners=owners):
                found = next_of(self.document | {"owners": owners}, Folder("/a"))
                self.assertEqual(found, [f"{head} {text}"])
        self.assertEqual(next_of(self.document | {"picks": []}, Folder("/a")), [])
        doubt = "the advice stands unless you distrust 'app', who may"
        lines = next_of(self.document | {"doubts": [doubt]}, Folder("/a"))
        self.assertEqual((len(lines), lines[-1]), (2, f"warning: {doubt}"))
        self.document["picks"][0].pop("build_seconds")
        self.assertTrue(next_of(self.document, Folder("/a"))[0].startswith("to make them: cophy-pg make /a; or "))


if __name__ == "__main__":
    unittest.main()
