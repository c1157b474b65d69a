"""The rewriter: what becomes of queries and writes, and of the examples."""
from __future__ import annotations

import subprocess
import tempfile
import tomllib
import unittest
from pathlib import Path

from cophy_text.tokens import tokens
from example_tables import OverTables, schema
from fixtures import NO_PARSER, ROOT
from grammar import accepted

if not NO_PARSER:
    from cophy_pg.rewrite import CHANGES, Rewriter
    from cophy_pg.schema import Schema


@unittest.skipIf(NO_PARSER, NO_PARSER)
class Rewriting(OverTables):
    def test_what_the_grammar_has_is_kept(self) -> None:
        self.check(
            [
                ("select * from a", ["SELECT * FROM a"], ""),
                (
                    "SELECT A.x, count(*) FROM a JOIN b ON a.id = b.a_id WHERE v IN (1, $1) GROUP BY a.x ORDER BY 2 DESC LIMIT 5 OFFSET $2",
                    [
                        "SELECT a.x, count(*) FROM a, b WHERE a.id = b.a_id AND b.v IN (1, ?) GROUP BY a.x ORDER BY count(*) DESC LIMIT 5 OFFSET ?"
                    ],
                    "",
                ),
                (
                    "select x || 'it''s', n * (1 - k) - 2, -k from a where d = date '2001-02-03' and y like 'q%' and x is null",
                    [
                        "SELECT x || 'it''s', n * (1 - k) - 2, -k FROM a WHERE d = DATE '2001-02-03' AND y LIKE 'q%' AND x IS NULL"
                    ],
                    "",
                ),
                (
                    'select "group" from "order" where 5 < "group"',
                    ['SELECT "group" FROM "order" WHERE "group" > 5'],
                    "",
                ),
                ("update b set v = v + 1 where id = 5", ["UPDATE b SET v = v + 1 WHERE id = 5"], ""),
                ("delete from b where v <> 3", ["DELETE FROM b WHERE v <> 3"], ""),
                (
                    "insert into b (id, v) values (1, -2), ($1, null)",
                    ["INSERT INTO b (id, v) VALUES (1, -2), (?, NULL)"],
                    "",
                ),
            ]
        )

    def test_joins_of_all_kinds_are_joins(self) -> None:
        both = ["SELECT a.id, b.v FROM a, b WHERE a.id = b.a_id"]
        self.check(
            [
                ("select a.id, b.v from a left join b on a.id = b.a_id", both, "outer join"),
                ("select a.id, b.v from a full outer join b on a.id = b.a_id", both, "outer join"),
                ("select a.id, b.v from a cross join b where a.id = b.a_id", both, "cross join"),
                ("select a.id, b.v from a, lateral (select v, a_id from b where a.id = a_id) b", both, "subquery"),
                ("select a.id, q.v from a, (select v, a_id from b) q where a.id = q.a_id", both, "subquery"),
                (
                    "with q as (select v, a_id from b) select a.id, q.v from a join q on a.id = q.a_id",
                    both,
                    "common table, subquery",
                ),
                ("select id, v from a join b using (id)", ["SELECT a.id, b.v FROM a, b WHERE a.id = b.id"], "using"),
                (
                    "select a.id from a where exists (select 1 from b where b.a_id = a.id and v > 1)",
                    ["SELECT a.id FROM a, b WHERE b.a_id = a.id AND b.v > 1"],
                    "subquery",
                ),
                (
                    "select a.id from a where id in (select distinct a_id from b where v > 1)",
                    ["SELECT a.id FROM a, b WHERE b.v > 1 AND a.id = b.a_id"],
                    "subquery",
                ),
                ("select key from w where id = 4", ["SELECT k FROM a WHERE n = 1 AND id = 4"], "view, subquery"),
            ]
        )

    def test_what_joins_nothing_is_a_statement_of_its_own(self) -> None:
        self.check(
            [
                (
                    "select id from a where n > (select avg(v) from b)",
                    ["SELECT avg(v) FROM b", "SELECT id FROM a WHERE n > ?"],
                    "own statement",
                ),
                (
                    "select id from a where not exists (select 1 from b where b.a_id = a.id)",
                    ["SELECT 1 FROM b WHERE a_id = ?", "SELECT id FROM a"],
                    "own statement, outer column",
                ),
                (
                    "select id from a where n = (select max(v) from b where b.a_id = a.id)",
                    ["SELECT max(v) FROM b WHERE a_id = ?", "SELECT id FROM a WHERE n = ?"],
                    "own statement, outer column",
                ),
                (
                    "select x from a where n > (select max(v) from b where b.a_id = a.id)",
                    ["SELECT max(v) FROM b WHERE a_id = ?", "SELECT x FROM a WHERE n > ? AND id IS NOT NULL"],
                    "own statement, outer column",
                ),
                (
                    "select id from a where k not in (select v from b)",
                    ["SELECT v FROM b", "SELECT id FROM a WHERE k IS NOT NULL"],
                    "own statement",
                ),
                (
                    "select q.x from (select x, count(*) as m from a group by x) q where q.m > 5",
                    ["SELECT x, count(*) FROM a GROUP BY x"],
                    "own statement",
                ),
                ("select id from a union select v from b", ["SELECT id FROM a", "SELECT v FROM b"], "set operation"),
                (
                    "select a.id from a, c where a.k = 1 and c.z = 'x'",
                    ["SELECT id FROM a WHERE k = 1", "SELECT 1 FROM c WHERE z = 'x'"],
                    "split",
                ),
                (
                    "with recursive r(i) as (select id from c union all select b.id from b join r on b.c_id = r.i) select * from r",
                    ["SELECT id FROM c", "SELECT id FROM b WHERE c_id IS NOT NULL"],
                    "common table, set operation, own statement",
                ),
            ]
        )

    def test_words_that_cost_nothing_are_dropped(self) -> None:
        self.check(
            [
                (
                    "select id from public.a order by d desc nulls last for update",
                    ["SELECT id FROM a ORDER BY d DESC"],
                    "schema, nulls, lock",
                ),
                (
                    "select id, case when k > 1 then x else y end from a",
                    ["SELECT id, any_of(k, x, y) FROM a"],
                    "expression",
                ),
                ("select id from a order by j ->> 'q'", ["SELECT id FROM a ORDER BY any_of(j)"], "expression"),
                (
                    "select id, rank() over (partition by k order by n) from a",
                    ["SELECT id, any_of(k, n) FROM a"],
                    "window",
                ),
                (
                    "select x, string_agg(y, ',' order by d) from a group by 1",
                    ["SELECT x, count(y, ',', d) FROM a GROUP BY x"],
                    "filter, aggregate, group",
                ),
                (
                    "insert into b (id) values (1) on conflict (id) do nothing returning id",
                    ["INSERT INTO b (id) VALUES (1)"],
                    "on conflict, returning",
                ),
                (
                    "select distinct on (x) x, id from a order by x, d",
                    ["SELECT x, id FROM a ORDER BY x, d"],
                    "distinct on",
                ),
            ]
        )

    def test_writes_that_join_are_two_statements(self) -> None:
        many = ", ".join("?" * 10)
        self.check(
            [
                (
                    "update a set k = b.v from b where b.a_id = a.id and b.c_id = 3",
                    [
                        "SELECT count(*), b.v FROM a, b WHERE b.a_id = a.id AND b.c_id = 3",
                        f"UPDATE a SET k = ? WHERE id IN ({many})",
                    ],
                    "update from",
                ),
                (
                    "delete from a using b where b.a_id = a.id and a.k = 3",
                    [
                        "SELECT count(*) FROM a, b WHERE b.a_id = a.id AND a.k = 3",
                        "DELETE FROM a WHERE k = 3 AND id IS NOT NULL",
                    ],
                    "update from",
                ),
                (
                    "insert into c select v, x from b where v = 3",
                    ["SELECT v, x FROM b WHERE v = 3", "INSERT INTO c VALUES (?)"],
                    "insert select",
                ),
            ]
        )

    def test_look_ups_have_as_many_items_as_the_outer_side_has_rows(self) -> None:
        found = self.rewritten("select a.x from a join b on b.a_id = a.id where b.v = 5", look_ups=True)
        self.assertEqual(
            found.statements,
            [f"SELECT a.x\nFROM a, b\nWHERE b.a_id = a.id AND b.v = 5 AND a.id IN ({', '.join('?' * 10)})"],
        )
        self.assertEqual(found.changes, ["looked up"])
        # A range of parameters counts as the literal one that is written for it.
        found = self.rewritten("select a.x from a join b on b.a_id = a.id where b.v between $1 and $2", look_ups=True)
        self.assertEqual(
            found.statements,
            [f"SELECT a.x\nFROM a, b\nWHERE b.a_id = a.id AND b.v BETWEEN 0 AND 50 AND a.id IN ({', '.join('?' * 5)})"],
        )
        self.assertEqual(found.changes, ["parameter range", "looked up"])

    def test_of_more_than_8_sources_small_ones_go(self) -> None:
        joins = " ".join(f"join s{it} on s{it}.id = a.k" for it in range(9))
        found = self.rewritten(f"select a.x from a {joins}")
        self.assertEqual(found.changes, ["source dropped"])
        self.assertNotIn("s0", found.statements[0])
        self.assertNotIn("s1", found.statements[0])
        self.assertIn("FROM a, s2, s3, s4, s5, s6, s7, s8", found.statements[0])

    def test_what_is_skipped_has_a_reason(self) -> None:
        for text, why in (
            ("begin", "a command of transactions"),
            ("set work_mem = 1", "SET"),
            ("explain select 1", "EXPLAIN"),
            ("select 1", "it reads no table"),
            ("select * from pg_class", "a query of the database's own catalogs"),
            ("select * from nowhere", "the table 'nowhere' isn't in the catalogue: no such table"),
            ("select nothing from a", "no source has the column 'nothing'"),
            ("select from where secret", "PostgreSQL's parser doesn't take it, at character 13"),
            ("vacuum a", "VACUUM or ANALYZE"),
            ("update a set k = 1 where current of q", "it changes the row of a cursor"),
        ):
            with self.subTest(text=text):
                found = self.rewritten(text)
                self.assertEqual((found.statements, found.skipped), ([], why))

    def test_a_view_that_cannot_be_parsed_costs_its_statements_alone(self) -> None:
        known = Schema([])
        known.views["public", "v"] = "SELECT FROM FROM"
        self.assertEqual(Rewriter(known).rewrite("SELECT * FROM v").skipped, "the rewriter doesn't know a form in it")

    def test_all_changes_are_explained(self) -> None:
        self.assertTrue(all(it.effect in ("same", "near", "less") and it.text for it in CHANGES.values()))

    def test_what_is_written_is_made_of_tokens(self) -> None:
        text = Rewriter(schema()).rewrite("select x from a where x = E'\\\\ '' \\x01' and k = 5").statements[0].encode()
        self.assertEqual(
            b"".join(it.text for it in tokens(text)),
            text.replace(b" ", b"").replace(b"\n", b"").replace(b"'\\''\x01'", b"'\\ '' \x01'"),
        )


@unittest.skipIf(NO_PARSER, NO_PARSER)
class Examples(unittest.TestCase):
    def test_the_examples_are_what_the_tool_writes(self) -> None:
        folder = ROOT / "examples" / "tpch"
        with tempfile.TemporaryDirectory() as name:
            files = [folder / "catalogue.toml", folder / "queries.sql", Path(name) / "workload.sql"]
            ran = subprocess.run(
                [ROOT / "tools/pg/cophy-pg", "rewrite", *files], capture_output=True, text=True, check=False
            )
            self.assertEqual(ran.returncode, 0, ran.stderr)
            self.assertEqual(files[2].read_text(), (folder / "workload.sql").read_text())
        self.assertIn("22 statements, written as 32", ran.stderr)

    def test_the_examples_are_in_the_grammar(self) -> None:
        for name, count in (("tpch", 32), ("oltp", 6)):
            with self.subTest(name=name):
                catalogue = tomllib.loads((ROOT / "examples" / name / "catalogue.toml").read_text())
                tables = {it["name"]: [column["name"] for column in it["column"]] for it in catalogue["table"]}
                self.assertEqual(accepted((ROOT / "examples" / name / "workload.sql").read_text(), tables), count)


if __name__ == "__main__":
    unittest.main()
