"""`cophy-pg report`: the page of a folder, as text."""
from __future__ import annotations

import importlib.util
import json
import re
import stat
import unittest
from pathlib import Path
from typing import Any

from fixtures import ROOT, InFolder
from schema_check import faults

MISSING = next(
    (f"python3-{it} isn't installed" for it in ("jinja2", "pglast") if importlib.util.find_spec(it) is None), ""
)
SCHEMA = json.loads((ROOT / "tools" / "pg" / "cophy_pg" / "advice.schema.json").read_text())
ODD = "SELECT a FROM t WHERE b = '<script>alert(1)</script>{{ 7 * 7 }}\u202e\x1b&'"


def statement(number: int, sql: str, calls: int, after: float, picks: list[int]) -> dict[str, Any]:
    """A statement of a document that costs 900 before."""
    return {
        "numbers": [number],
        "sql": sql,
        "line": None,
        "role": "app",
        "calls": calls,
        "seconds": 1.5,
        "outcome": "changed",
        "changes": ["outer join", "value"],
        "skipped": None,
        "cost": {"before": 900000, "after": round(1000 * after)},
        "server_cost": {"before": 900.0, "after": after},
        "not_explained": None,
        "picks": picks,
    }


def change(number: int, sql: str, ours: float, server: float) -> dict[str, Any]:
    """What a pick changes of a statement."""
    return {"numbers": [number], "sql": sql, "calls": 9, "seconds": 1.5, "guess": False, "ours": ours, "server": server}


def document(folder: str) -> dict[str, Any]:
    """A document with a pick, a statement of hostile text, one with a long word, and a skipped one."""
    options = {
        "source": "sql",
        "since": None,
        "min_calls": 1,
        "min_saving": 0.0,
        "planning": 10.0,
        "most_per_table": None,
        "patience": 180.0,
        "include": False,
        "long_columns": False,
    }
    skipped = statement(1, "SHOW x", 5, 900.0, []) | {
        "numbers": [],
        "outcome": "skipped",
        "skipped": "SHOW",
        "changes": [],
    }
    return {
        "version": 1,
        "tools": "1.0.0",
        "made": "2026-11-29T10:55:00Z",
        "database": "shop & <b>",
        "server": "15.18",
        "host": "/run/db server",
        "port": 5433,
        "folder": folder,
        "options": options | {"rules": None, "tables": [], "users": [], "may_cluster": []},
        "asked_pages": 262144,
        "budget_pages": 262144,
        "size_pages": 30,
        "stored_pages": 20,
        "cost": {"before": 9000000, "after": 1800000, "advice": 1800000, "bound": 1800000, "finished": True},
        "server_cost": {"statements": 2, "before": 9000.0, "after": 1000.0},
        "proved": "proved cost 1800000 bound 1800000 budget 262144",
        "calls_divided_by": 1.0,
        "warnings": ["t was never analysed: run ANALYZE, its numbers are guesses"],
        "doubts": [],
        "gap": None,
        "knee": None,
        "lint": ["note: LIMIT costs and saves nothing, the whole statement is priced: statement 1"],
        "rewriting": ["3 statements, written as 2"],
        "rules": ["never t(c)"],
        "long_columns": [],
        "functions": [],
        "owners": ["app"],
        "picks": [
            {
                "place": 1,
                "number": 4,
                "table": "t",
                "columns": ["b"],
                "clustered": True,
                "pages": 30,
                "stored_pages": 20,
                "name": "t_b_idx",
                "statements": [
                    'CREATE INDEX CONCURRENTLY "t_b_idx" ON "public"."t" ("b");',
                    'CLUSTER "public"."t" USING "t_b_idx";',
                ],
                "build_seconds": 7.4,
                "outcome": "unknown",
                "unknown_for": ["42883 a function or an operator isn't there: statement 2"],
                "begins": None,
                "notes": ["it locks <the table>", "hypopg shows no other order"],
                "long": [],
                "saves": {"ours": 80.0, "server": 88.8889, "measured": 30.0, "cost_without": 9000000},
                "changes": [change(1, ODD, 81.0, 88.8889), change(2, "UPDATE t SET b = 1", -1.0, 0.0)],
            }
        ],
        "left_out": [
            {
                "number": 5,
                "table": "t",
                "columns": ["c"],
                "clustered": False,
                "pages": 9,
                "why": "no plan of the server takes it",
            }
        ],
        "statements": [
            statement(1, ODD, 9, 100.0, [1]),
            statement(2, "UPDATE t SET b = 1 WHERE " + "x" * 300 + " = 2", 1, 900.0, []),
            skipped,
        ],
        "seconds": {"export": 1.25},
    }


def plans() -> dict[str, Any]:
    """The plans of the first statement."""
    scan = {"Node Type": "Seq Scan", "Relation Name": "t", "Alias": "t", "Startup Cost": 0.0, "Total Cost": 900.0}
    index = {"Node Type": "Index Scan", "Index Name": "<13>btree_t_b", "Relation Name": "t", "Alias": "x"}
    before = {**scan, "Plan Rows": 1, "Filter": "(b = '<i>'::text)"}
    after = {**index, "Startup Cost": 0.5, "Total Cost": 100.0, "Plan Rows": 1, "Index Cond": "(b = $1)"}
    nothing = {"before": None, "after": None}
    listed = [{"numbers": [1], "before": before, "after": after}, {"numbers": [2]} | nothing, {"numbers": []} | nothing]
    return {"statements": listed, "shown": {"<13>btree_t_b": "t(b)"}}


@unittest.skipIf(MISSING, MISSING)
class Page(InFolder):
    def setUp(self) -> None:
        super().setUp()
        self.document = document(str(self.folder))
        self.write()

    def write(self) -> None:
        (self.folder / "advice.json").write_text(json.dumps(self.document))
        (self.folder / "plans.json").write_text(json.dumps(plans()))

    def call(self, *words: str, status: int = 0) -> str:
        return self.tool("report", *words, status=status).stderr

    def page(self) -> str:
        """The page, with blanks in the place of those at which no line ends."""
        self.call(str(self.folder))
        return (self.folder / "report.html").read_text().replace("\N{NO-BREAK SPACE}", " ")

    def test_the_document_is_one_of_advise(self) -> None:
        self.assertEqual([*faults(self.document, SCHEMA, SCHEMA)], [])

    def test_it_has_each_index_statement_and_reason(self) -> None:
        text = self.page()
        for part in (
            "1 index to make for shop &amp; &lt;b&gt;",
            "<h3>1. t(b) clustered</h3>",
            "CREATE INDEX CONCURRENTLY &#34;t_b_idx&#34;",
            "CLUSTER &#34;public&#34;.&#34;t&#34; USING &#34;t_b_idx&#34;;",
            "<p>It locks &lt;the table&gt;.</p>\n<p>Hypopg shows no other order.</p>",
            "<td><code>t(c)</code></td>",
            "<b>80.0 %</b> by our model and <b>88.9 %</b> by the server's planner, and of the measured time about 30.0 %.",
            "Without it the workload costs 9,000 by our model, with it 1,800.",
            "42883 a function or an operator isn&#39;t there: statement 2",
            "no plan of the server takes it",
            "900.0 → 100.0",
            "Seq Scan on t  (cost=0.00..900.00 rows=1)\n  Filter: (b = &#39;&lt;i&gt;&#39;::text)",
            "Index Scan using the new index t(b) on t x  (cost=0.50..100.00 rows=1)\n  Index Cond: (b = $1)",
            "an outer join is an inner one",
            "<li>SHOW: 1 statement<br><code>SHOW x</code></li>",
            f"cophy check {self.folder}/catalogue.toml {self.folder}/workload.sql {self.folder}/certificate",
            "proved cost 1800000 bound 1800000 budget 262144",
            "t was never analysed",
        ):
            with self.subTest(part=part):
                self.assertIn(part, text)
        self.assertNotIn("What a budget buys", text)
        self.assertEqual(stat.S_IMODE((self.folder / "report.html").stat().st_mode), 0o600)

    def test_what_an_unproved_program_answers_is_never_called_proved(self) -> None:
        self.assertIn("That holds of our model", self.page())
        self.document["proved"] = f"not proved, as the program is unproved; it says: {self.document['proved']}"
        self.write()
        text = self.page()
        self.assertIn("That is said of our model", text)
        self.assertEqual(text.count("not proved, as the program is unproved"), 3)

    def test_no_number_is_parted_from_its_unit_and_doubts_and_rules_are_told(self) -> None:
        left_out = {
            "number": 6,
            "table": "t",
            "columns": ["d"],
            "clustered": False,
            "pages": 9,
            "why": "it saves 0.2 %",
        }
        self.document["left_out"].append(left_out)
        self.document["rules"] = ["never t(c)", "must t(b)", "must t(d)"]
        self.document["picks"][0] |= {"long": ["b"], "clustered": False, "outcome": "taken"}
        self.document["picks"][0]["saves"] |= {"ours": 27.0, "server": 0.7}
        self.document["doubts"] = ["the advice stands unless you distrust 'app'"]
        self.write()
        text = self.page()
        self.assertIn("never t(c)\nmust t(b)\nmust t(d)  (left out then: it saves 0.2 %)</pre>", text)
        self.assertIn("<li>the advice stands unless you distrust &#39;app&#39;</li>", text)
        self.assertIn('<p class="bad">The server saves 0.7 %: probably not worth 0.2 MB.</p>', text)
        self.assertIn('<p class="bad">With it an INSERT of more than 2,704 bytes in b would fail.</p>', text)
        raw = (self.folder / "report.html").read_text()
        self.assertIn("<b>27.0\N{NO-BREAK SPACE}%</b> by our model", raw)
        self.assertIn("<b>0.2\N{NO-BREAK SPACE}MB</b>", raw)

    def test_a_pick_that_rests_on_a_guess_and_on_little_time_is_marked(self) -> None:
        self.document["picks"][0]["changes"][0] |= {"guess": True, "seconds": 0.02}
        self.write()
        self.assertIn("It rests on a guess, a range whose end isn", self.page())

    def test_what_an_index_saves_of_the_time_is_the_number_of_the_summary(self) -> None:
        from cophy_pg.page import page_text

        pick = self.document["picks"][0] | {"clustered": False, "outcome": "taken"}
        pick["saves"] |= {"planned": 16.6, "measured": 30.0}
        text = page_text(self.document | {"picks": [pick]}, plans(), None).replace("\N{NO-BREAK SPACE}", " ")
        self.assertIn("and of the measured time about 16.6 %", text)
        self.assertNotIn("30.0 %", text)

    def test_nothing_in_it_is_code_or_fetched(self) -> None:
        text = self.page()
        self.assertIn("&lt;script&gt;alert(1)&lt;/script&gt;{{ 7 * 7 }}", text)
        self.assertIn("default-src 'none'", text)
        for part in (
            "<script",
            "<link",
            "<img",
            "<iframe",
            "http:",
            "https:",
            "url(",
            "@import",
            "\u202e",
            "\x1b",
            " on",
        ):
            with self.subTest(part=part):
                self.assertNotRegex(text, re.escape(part) + (r"\w+=" if part == " on" else ""))

    def test_the_curve_of_the_folder_is_drawn(self) -> None:
        points = [
            {"budget": at, "size": at, "cost": cost, "bound": bound, "picks": ["t(b)"] * (at > 0)}
            for at, cost, bound in ((0, 9000000, 9000000), (100, 5000000, 4000000), (200, 1800000, 1800000))
        ]
        (self.folder / "curve.json").write_text(json.dumps(points))
        text = self.page()
        # At each point the cost steps down; the bound, which holds for smaller budgets, has come down before it.
        cost = 'class="cost-line" d="M70.0 28.0H440.8V131.1H594.4V213.6H620.0"'
        self.assertIn(cost, text)
        self.assertIn('class="bound-line" d="M70 28.0H70.0V156.9H440.8V213.6H594.4"', text)
        for part in ("1.6 MB", "44.4 %", 'y="126.1">1</text>', '<td class="number" data-name="bound">4,000</td>'):
            self.assertIn(part, text)

    def test_numbers_in_the_curve_do_not_overlap_and_an_advice_has_one_row(self) -> None:
        from cophy_pg.curves import curve_of

        shown = ((0, 0, 9000), (8, 8, 8900), (10, 9, 8890), (12, 9, 8890), (900, 900, 100))
        points = [
            {"budget": at, "size": size, "cost": cost, "bound": cost, "picks": ["t(b)"] * (at > 0)}
            for at, size, cost in shown
        ]
        curve = curve_of(points, 9000)
        assert curve is not None
        self.assertEqual([it[2] for it in curve["dots"]], ["0", "1", "", "1"])
        self.assertEqual([it["budget"] for it in curve["rows"]], ["0.0 MB", "0.1 MB", "0.1 MB", "7.0 MB"])

    def test_what_is_after_is_with_what_is_made_by_default(self) -> None:
        from cophy_pg.page import page_text

        index = "<13>btree_t_lower_a"
        scan = {"Node Type": "Index Scan", "Index Name": index, "Relation Name": "t", "Alias": "t", "Plan Rows": 5}
        made = scan | {"Startup Cost": 0.25, "Total Cost": 450.0}
        given, shown = document("/advice"), plans()
        pick = given["picks"][0]
        given["picks"].append(pick | {"place": 2, "columns": ["d"], "caveat": "it saves 0.2 %"})
        for it in given["statements"][:2]:
            it["server_cost"]["made"] = it["server_cost"]["after"]
        given["statements"][0]["server_cost"]["made"] = 450.0
        shown["statements"][0] |= {"made": made, "made_shown": {index: "t(lower(a))"}}
        self.assertEqual([*faults(given, SCHEMA, SCHEMA)], [])
        text = page_text(given, shown, None)
        # Of 900 a half is left.
        self.assertIn('900.0 → 450.0 <span class="good">−50.0\N{NO-BREAK SPACE}%</span>', text)
        self.assertIn("Index Scan using the new index t(lower(a)) on t  (cost=0.25..450.00 rows=5)", text)
        self.assertNotIn("100.00 rows=1", text)
        self.assertIn("Open one for its plans. What is after is with the indexes to make alone.</p>", text)
        with_all = "A call costs 900.0 by our model, then 100.0 with all indexes, those not recommended too."
        self.assertIn(with_all, text)
        self.assertNotIn("over functions", text)
        # Where all picks are made, as they were with all.
        self.assertIn("then 100.0.</p>", page_text(given | {"picks": [pick]}, plans(), None))

    def test_a_folder_from_before_there_were_plans_with_what_is_made_by_default_is_shown(self) -> None:
        from cophy_pg.page import page_text

        given = document("/advice")
        given["picks"].append(given["picks"][0] | {"place": 2, "columns": ["d"], "caveat": "it saves 0.2 %"})
        text = page_text(given, plans(), None)
        # Of 900 a ninth is left.
        self.assertIn('900.0 → 100.0 <span class="good">−88.9\N{NO-BREAK SPACE}%</span>', text)
        self.assertIn("Index Scan using the new index t(b) on t x  (cost=0.50..100.00 rows=1)", text)
        self.assertIn("What is after is with all indexes, those not recommended too.</p>", text)
        self.assertIn("A call costs 900.0 by our model, then 100.0.</p>", text)

    def test_without_indexes(self) -> None:
        self.document |= {"picks": [], "left_out": [], "size_pages": 0, "stored_pages": 0, "warnings": [], "lint": []}
        self.write()
        text = self.page()
        self.assertIn("No index is worth making for shop", text)
        self.assertIn("There are none.", text)

    def test_a_folder_from_before_there_were_doubts_is_shown(self) -> None:
        for it in ("doubts", "gap", "knee", "long_columns", "host", "port"):
            self.document.pop(it)
        del self.document["picks"][0]["long"], self.document["picks"][0]["saves"]["measured"]
        self.write()
        self.assertIn("<h3>1. t(b) clustered</h3>", self.page())

    def test_a_folder_from_before_there_were_clustered_picks_is_shown(self) -> None:
        for it in (*self.document["picks"], *self.document["left_out"], self.document["options"]):
            for key in ("clustered", "notes", "may_cluster"):
                it.pop(key, None)
        self.write()
        self.assertIn("<h3>1. t(b)</h3>", self.page())

    def test_what_is_no_folder_of_advise_is_refused(self) -> None:
        (self.folder / "link.html").symlink_to(self.folder / "plans.json")
        self.assertIn(
            "symbolic link", self.call(str(self.folder), "--output", str(self.folder / "link.html"), status=1)
        )
        self.assertIn(
            "it is the same file", self.call(str(self.folder), "--output", str(self.folder / "plans.json"), status=1)
        )
        lacking = {it: value for it, value in self.document.items() if it != "server"}
        odd: list[dict[str, object]] = [
            {"version": 2},
            {"statements": []},
            {"stored_pages": 10**400},
            {"options": {}},
        ]
        broken = [json.dumps(it) for it in (lacking, *(self.document | it for it in odd))]
        for content in ("{}", "[1]", "no JSON", *broken):
            (self.folder / "advice.json").write_text(content)
            self.assertIn("is no folder of cophy-pg advise", self.call(str(self.folder), status=1))
        self.call(str(self.folder / "nothing"), status=1)


if __name__ == "__main__":
    unittest.main()
