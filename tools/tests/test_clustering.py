"""Clustered picks in the tools' texts: what the program prints, DDL, `why`, `curve`, rules, lint and hints, without a server."""
from __future__ import annotations

import json
import unittest
from unittest import mock

from cophy_lint.checks import Warning, catalogue_remarks
from cophy_lint.rules import rules_remarks
from cophy_text import answers
from cophy_wrapper import hints
from fixtures import NO_PARSER, STAND_IN, InFolder

# The text for a table that may be clustered and has no index, over `SELECT * FROM t ORDER BY c`.
ADVICE = """budget 3
candidates 3 left over 0
pick 2 t(c) clustered 3 pages
size 3
cost 33000
bound 33000
gap 0
nodes 5 of 20000
finished
"""
COLUMN = '[[table.column]]\nname = "{}"\nkind = "int"\nwidth = 4\ndistinct = 1000\n'
HEAD = 'version = 2\n[[table]]\nname = "t"\nrows = 1000000\npages = 18182\n'
TABLE = HEAD + "may_cluster = true\n"
CLUSTERED = TABLE + COLUMN.format("c") + COLUMN.format("n")
INDEX = '[[table.index]]\nname = "t_c"\nkeys = ["c"]\n'
# A name that ends statements, comments, texts and formats, where one isn't written as it has to be.
ODD = "o%s \"'; --\n\\!%d"
ODD_INDEX = f"postgres = {json.dumps('i' + ODD)}\n"
MADE = 'CREATE INDEX CONCURRENTLY "t_c_idx" ON "public"."t" ("c");'
LAID = 'CLUSTER "public"."t" USING "t_c_idx";\nANALYZE "public"."t";\n'


class Texts(unittest.TestCase):
    def test_a_clustered_pick_is_taken_apart(self) -> None:
        pick = answers.read_advice(ADVICE).picks[0]
        self.assertEqual(pick, answers.Candidate(2, "t", ("c",), 3, True))
        self.assertEqual(pick.shown(), "t(c) clustered")
        listed = answers.read_candidates(
            "2 t(c) clustered 3 pages\n3 t(a, b) clustered 4 pages\n4 t(a) 3 pages\nleft over 0\n"
        )
        self.assertEqual([it.is_clustered for it in listed], [True, True, False])
        self.assertEqual([it.shown() for it in listed][1:], ["t(a, b) clustered", "t(a)"])
        self.assertEqual(answers.read_retuned(f"advice 1\n{ADVICE}")[0].picks, [pick])
        # A table of this name is none.
        self.assertEqual(answers.read_candidates("1 clustered(c) 3 pages\nleft over 0\n")[0].table, "clustered")

    def test_other_words_are_none(self) -> None:
        for line in (
            "t(c)clustered 3",
            "t(c)  clustered 3",
            "t(c) Clustered 3",
            "t(c) clustered clustered 3",
            "t(c) cluster 3",
        ):
            with self.subTest(line=line):
                self.assertRaises(answers.NoAnswer, answers.read_advice, ADVICE.replace("t(c) clustered 3", line))


@unittest.skipIf(NO_PARSER, NO_PARSER)
class Statements(InFolder):
    """`ddl` over catalogues that were made by hand."""

    def ddl(self, catalogue: str, *more: str, advice: str = ADVICE) -> str:
        (self.folder / "c.toml").write_text(catalogue)
        (self.folder / "advice").write_text(advice)
        ran = self.tool("ddl", "c.toml", "advice", *more)
        self.assertEqual(ran.stderr, "")
        self.assertTrue(ran.stdout.isascii())
        return ran.stdout

    def test_an_index_is_made_and_the_table_laid_in_its_order(self) -> None:
        text = self.ddl(CLUSTERED)
        made, _, rest = text.partition(f"{MADE}\n")
        self.assertIn("-- pick 2: 3 pages (0.0 MB), as PostgreSQL stores it about ", made)
        told = rest.removesuffix(LAID)
        self.assertNotEqual(told, rest)
        self.assertEqual([it for it in told.splitlines() if not it.startswith("-- ") or len(it) > 120], [])
        told = " ".join(it.removeprefix("-- ") for it in told.splitlines())
        for part in (
            "locks the table against all others, readers too (ACCESS EXCLUSIVE), while it is written anew: 18,182 pages (142.0 MB) and",
            "needs free disk space for a copy of both",
            "aren't kept in this order",
            "all others wait behind it",
        ):
            self.assertIn(part, told)

    def test_how_long_it_takes_goes_by_rates(self) -> None:
        rates = ("--rows-a-second", "1000", "--pages-a-second", "100")
        # A thousand seconds for the one index, and 181.82 for the pages.
        self.assertIn("about 20 minutes", " ".join(self.ddl(CLUSTERED, *rates).split()))
        both = CLUSTERED + INDEX.replace('"c"', '"n"')
        self.assertIn("18,182 pages (142.0 MB) and its indexes, about 36 minutes", self.ddl(both, *rates, "--script"))

    def test_the_order_comes_before_the_other_indexes_of_a_table(self) -> None:
        advice = ADVICE.replace("pick 2", "pick 1 t(n, c) 9 pages\npick 2")
        text = self.ddl(CLUSTERED, advice=advice)
        self.assertLess(text.index("CLUSTER "), text.index('("n", "c")'))
        script = self.ddl(CLUSTERED, "--script", advice=advice)
        self.assertRegex(script, r"(?s)2, 't\(c\) clustered', 'about .*1, 't\(n, c\)', 'about ")
        found = json.loads(self.ddl(CLUSTERED, "--json", advice=advice))["picks"]
        self.assertEqual([(it["number"], it["clustered"]) for it in found], [(2, True), (1, False)])
        self.assertEqual(found[0]["statement"], f"{MADE}\n{LAID}".rstrip())

    def test_an_index_that_is_there_is_made_no_second_time(self) -> None:
        text = self.ddl(CLUSTERED + INDEX)
        self.assertNotIn("CREATE INDEX", text)
        self.assertIn(LAID.replace("t_c_idx", "t_c"), text)
        self.assertIn("size 3 pages (0.0 MB), as PostgreSQL stores it about 0 pages", text)
        script = self.ddl(CLUSTERED + INDEX, "--script")
        self.assertIn("1: t(c) clustered, by an index that is there", script)
        self.assertNotIn("DROP INDEX", script)
        self.assertEqual(script.count('\n--   CLUSTER "public"."t" USING "t_c";\n'), 1)
        self.assertEqual(script.count('CLUSTER "public"."t" USING "t_c";'), 2)

    def test_where_the_rows_lie_so_already_nothing_is_made(self) -> None:
        catalogue = CLUSTERED + INDEX + "postgres_ordered = true\n" + ODD_INDEX
        for more in ((), ("--script",)):
            text = self.ddl(catalogue, *more)
            self.assertIn('left out, the rows lie in its order already, by the index U&"io%s', text)
            self.assertNotIn("CLUSTER", text)

    def test_what_the_catalogue_does_not_allow_is_left_out(self) -> None:
        table = {
            "the option wasn't given": HEAD,
            "it is turned off": HEAD + "may_cluster = false\n",
            "the version is older": TABLE.replace("version = 2", "version = 1"),
            "it has partitions": TABLE + 'postgres = ["public", "t", "partitioned"]\n',
            "others inherit from it": TABLE + 'postgres_children = [["public", "u"]]\n',
        }
        for name, head in table.items():
            for more in ((), ("--script",)):
                with self.subTest(name=name, more=more):
                    text = self.ddl(head + COLUMN.format("c"), *more)
                    self.assertIn(
                        "left out, the catalogue doesn't say that the rows of its table may be laid anew", text
                    )
                    self.assertNotIn("CLUSTER", text)
                    self.assertNotIn("CREATE INDEX CONCURRENTLY", text)

    def test_columns_that_are_only_read_are_included(self) -> None:
        (self.folder / "l.sql").write_text("SELECT n FROM t WHERE c < 5;\n")
        advice = ADVICE.replace("t(c)", "t(c, n)")
        text = self.ddl(CLUSTERED, "--include", *self.in_folder("l.sql"), advice=advice)
        self.assertIn('ON "public"."t" ("c") INCLUDE ("n");', text)
        self.assertIn('CLUSTER "public"."t" USING "t_c_n_idx";', text)

    def test_odd_names_are_quoted_wherever_they_stand(self) -> None:
        catalogue = TABLE + f"postgres = [{json.dumps('s' + ODD)}, {json.dumps('t' + ODD)}]\n" + COLUMN.format("c")
        written = 'U&"{}o%s ""\'; --\\000a\\\\!%d"'
        for more, index in ((INDEX + ODD_INDEX, written.format("i")), ("", '"t_c_idx"')):
            path = f"{written.format('s')}.{written.format('t')}"
            for way in ((), ("--script",)):
                with self.subTest(index=index, way=way):
                    text = self.ddl(catalogue + more, *way)
                    self.assertIn(f"CLUSTER {path} USING {index};\n", text)
                    self.assertIn(f"ANALYZE {path};\n", text)
                    self.assertEqual("\\!" in text.replace("\\\\!", ""), False)
            self.assertIn(f"ALTER TABLE {path} SET WITHOUT CLUSTER;", self.ddl(catalogue + more, "--script"))


@unittest.skipIf(NO_PARSER, NO_PARSER)
class Commands(InFolder):
    """`why`, `curve` and `rules` over a stand-in for the program."""

    def setUp(self) -> None:
        super().setUp()
        (self.folder / "c.toml").write_text(CLUSTERED)
        (self.folder / "advice").write_text(ADVICE)
        (self.folder / "l.sql").write_text("-- weight 10\nselect n from t\nwhere c = 5;\n")

    def call(self, *words: str, status: int = 0) -> str:
        program = ["--program", str(STAND_IN)] if words[0] != "rules" else []
        ran = self.tool(*words, *program, status=status)
        return ran.stdout + ran.stderr * bool(status)

    def test_why_prints_it(self) -> None:
        self.assertIn("pick 2 t(c) clustered, 3 pages (0.0 MB), as ", self.call("why", "c.toml", "l.sql", "advice"))
        found = json.loads(self.call("why", "c.toml", "l.sql", "advice", "--json"))["picks"][0]
        self.assertEqual((found["index"], found["saves"]), ("t(c) clustered", 10 * (900000 - 45000)))
        (self.folder / "c.toml").write_text(CLUSTERED.replace("may_cluster = true\n", ""))
        said = self.call("why", "c.toml", "l.sql", "advice")
        self.assertIn("PostgreSQL can't make it: the catalogue doesn't say that the rows", said)

    def test_the_curve_has_it_by_each_way(self) -> None:
        for more in ((), ("--budgets", "0,9999"), ("--even", "--steps", "2")):
            with self.subTest(more=more):
                points = json.loads(self.call("curve", "c.toml", "l.sql", "--json", *more))
                self.assertEqual(points[-1]["picks"], ["t(c) clustered"])
                self.assertEqual(points[-1]["cost"], 450000)

    def test_a_rule_asks_for_it_where_it_may_be(self) -> None:
        (self.folder / "given").write_text("must t(c) clustered\nnever public.t ( n ) CLUSTERED\n")
        self.call("rules", "c.toml", "given", "rules")
        lines = [it for it in (self.folder / "rules").read_text().splitlines() if not it.startswith("#")]
        self.assertEqual(lines, ["must t(c) clustered", "never t(n) clustered"])
        (self.folder / "c.toml").write_text(CLUSTERED.replace("may_cluster = true\n", ""))
        said = self.call("rules", "c.toml", "given", "rules", status=1)
        self.assertIn("line 1: by the catalogue the rows of 't' can't be laid anew: export it with --may-cluster", said)
        self.assertNotIn("line 2", said)
        (self.folder / "c.toml").write_text(CLUSTERED + INDEX + "postgres_ordered = true\n")
        self.call("rules", "c.toml", "given", "rules")
        self.assertNotIn("\nmust", (self.folder / "rules").read_text())


class Remarks(unittest.TestCase):
    """What the lint and the hints say."""

    def told(self, catalogue: str, rules: str = "") -> list[str]:
        remarks, document = catalogue_remarks(catalogue.encode())
        return [it.text for it in (*remarks, *rules_remarks(rules.encode(), document)) if isinstance(it, Warning)]

    def test_may_cluster_in_vain_is_told(self) -> None:
        self.assertEqual(self.told(CLUSTERED + INDEX + "postgres_ordered = true\n" + ODD_INDEX), [])
        self.assertEqual(
            self.told(CLUSTERED + INDEX + "clustered = true\n"),
            ["'t' is clustered by 't_c' already, so may_cluster changes nothing"],
        )

    def test_rules_over_clustered_candidates_that_are_none_are_told(self) -> None:
        rule = "must t(c) clustered\n"
        lacks = "the table lacks may_cluster of version 2, so none that is clustered is a candidate"
        self.assertEqual(self.told(CLUSTERED + INDEX, rule), [])
        self.assertEqual(self.told(HEAD + COLUMN.format("c"), rule), [lacks])
        self.assertEqual(self.told(CLUSTERED.replace("version = 2", "version = 1"), rule)[-1:], [lacks])
        clustered = HEAD + COLUMN.format("c") + INDEX + "clustered = true\n"
        self.assertEqual(
            self.told(clustered, rule),
            ["the table is clustered by 't_c' already, so none that is clustered is a candidate"],
        )
        self.assertEqual(
            self.told(CLUSTERED + INDEX, "must t(c)\n"), ["the index exists already, as 't_c', so it is no candidate"]
        )

    def test_a_refusal_of_such_a_rule_has_a_hint(self) -> None:
        words = ["ruled", "c", "l", "9", "r"]
        content = {0: CLUSTERED.encode(), 2: b"must t(c) clustered\n"}
        call = hints.Call(5, words, "refused: rules no candidate at line 1")
        with mock.patch.object(call, "content", lambda role: content.get(role, b"")):
            said = "\n".join(hints.hints(call))
        self.assertIn("where its table has may_cluster, of version 2", said)


@unittest.skipIf(NO_PARSER, NO_PARSER)
class Documents(unittest.TestCase):
    """Picks in the documents of `advise`."""

    PICK = {"table": "t", "columns": ["c"], "clustered": True}

    def test_a_pick_keeps_its_order_in_its_name(self) -> None:
        from cophy_pg.overview import named

        self.assertEqual(named(self.PICK), "t(c) clustered")
        self.assertEqual(
            [named(self.PICK | {"clustered": False}), named({"table": "t", "columns": ["c"]})], ["t(c)"] * 2
        )

    def test_it_is_made_where_an_index_clusters_the_table(self) -> None:
        from cophy_pg.catalogue import read_schema
        from cophy_pg.changes import Found

        plain = self.PICK | {"clustered": False}
        for more, made in (("", [False, False]), (INDEX, [False, True]), (INDEX + "clustered = true\n", [True, True])):
            with self.subTest(more=more):
                found = Found({}, read_schema((CLUSTERED + more).encode()))
                self.assertEqual([found.has(self.PICK), found.has(plain)], made)


if __name__ == "__main__":
    unittest.main()
