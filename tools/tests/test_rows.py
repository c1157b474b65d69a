"""What is written otherwise so that the model prices it as PostgreSQL runs it, option by option."""
from __future__ import annotations

import re
import tempfile
import unittest
from pathlib import Path

from example_tables import PLAIN, schema
from fixtures import MISSING, NO_PARSER, STAND_IN, called, shop

if not NO_PARSER:
    from cophy_pg.bounds import at_share, share
    from cophy_pg.catalogue import catalogue_text, read_schema
    from cophy_pg.inputs import Input
    from cophy_pg.ranking import rank
    from cophy_pg.report import summary
    from cophy_pg.rewrite import Options, Rewriter, Rewritten
    from cophy_pg.rewrite.options import TEXTS, word_of
    from cophy_pg.schema import Column, Schema, Table
    from cophy_pg.workload import made


@unittest.skipIf(NO_PARSER, NO_PARSER)
class Rows(unittest.TestCase):
    """Of table a, which has 100000 rows, 100 values a column, ints from 0 to 10000 and days from 1990-01-01."""

    def rewritten(self, text: str, option: str, rows: float | None = None) -> Rewritten:
        return Rewriter(schema(), Options(**PLAIN | {"ranges": False, option: True})).rewrite(text, rows)

    def check(self, option: str, table: list[tuple[str, float | None, str]]) -> None:
        """Each row has a statement over a, the rows of a call, and what is written for it; nothing where it stays."""
        for text, rows, wanted in table:
            with self.subTest(text=text, rows=rows):
                found, plain = self.rewritten(text, option, rows), self.rewritten(text, "ranges", rows)
                shown = found.statements[0].replace("\n", " ")
                self.assertEqual(shown, wanted or plain.statements[0].replace("\n", " "))

    def test_a_limit_is_a_range_of_the_order(self) -> None:
        head = "SELECT x FROM a WHERE "
        self.check(
            "limits",
            [
                ("select x from a order by k limit 10", None, f"{head}k <= 1 ORDER BY k LIMIT 10"),
                ("select x from a order by k desc, n limit 10", None, f"{head}k > 9999 ORDER BY k DESC, n LIMIT 10"),
                ("select x from a order by d limit 1000", None, f"{head}d <= DATE '1990-04-21' ORDER BY d LIMIT 1000"),
                (
                    "select x from a where n = 5 order by k limit 100",
                    None,
                    f"{head}n = 5 AND k <= 1000 ORDER BY k LIMIT 100",
                ),
                (
                    "select x from a where k > 5000 order by k limit 100 offset 900",
                    None,
                    f"{head}k BETWEEN 5000 AND 5100 ORDER BY k LIMIT 100 OFFSET 900",
                ),
                (
                    "select x from a where k < $1 order by k desc limit 100",
                    None,
                    f"{head}k > 9990 ORDER BY k DESC LIMIT 100",
                ),
                ("select x from a where y is null order by k limit 10", None, ""),
                ("select x from a where k = 5 order by k limit 10", None, ""),
                ("select x from a order by x limit 10", None, ""),
                ("select k, count(*) from a group by k order by k limit 10", None, ""),
                ("select distinct k from a order by k limit 10", None, ""),
                ("select max(k) from a order by 1 limit 1", None, ""),
                ("select x, rank() over (order by k) from a order by k limit 10", None, ""),
                ("select distinct on (k) x from a order by k limit 10", None, ""),
                ("select id from c order by id limit 100", None, ""),
                ("select x from a order by k limit $1", None, ""),
            ],
        )

    def test_a_limit_goes_by_the_rows_of_a_call(self) -> None:
        def limited(text: str, rows: float) -> str:
            options = Options(**PLAIN | {"limits": True, "rows": True})
            return Rewriter(schema(), options).rewrite(text, rows).statements[0].replace("\n", " ")

        self.assertEqual(
            limited("select x from a order by k limit $1", 20), "SELECT x FROM a WHERE k <= 2 ORDER BY k LIMIT ?"
        )
        # A call gave fewer rows than the limit allows, so all were read.
        text = "select x from a where n = 5 order by k limit 10"
        self.assertEqual(limited(text, 3), "SELECT x FROM a WHERE n = 5 ORDER BY k LIMIT 10")

    def test_a_range_of_parameters_holds_the_rows_of_a_call(self) -> None:
        self.check(
            "rows",
            [
                ("select x from a where k > $1", 50.0, "SELECT x FROM a WHERE k > 9995"),
                ("select x from a where k <= $1", 50.0, "SELECT x FROM a WHERE k <= 5"),
                (
                    "select x from a where n = $1 and k between $2 and $3",
                    10.0,
                    "SELECT x FROM a WHERE n = ? AND k <= 100",
                ),
                ("select x from a where k > $1 and n < $2", 1000.0, "SELECT x FROM a WHERE k > 9000 AND n <= 1000"),
                ("delete from a where d < $1", 5.0, "DELETE FROM a WHERE d <= DATE '1990-01-02'"),
                ("update a set x = $1 where k > $2", 10.0, "UPDATE a SET x = ? WHERE k > 9999"),
                ("select x from a where k > $1", None, ""),
                ("select count(*) from a where k > $1", 1.0, ""),
                ("select x from a where k > $1 limit 5", 5.0, ""),
                (
                    "select a.x from a join b on a.id = b.a_id where k > $1",
                    5000.0,
                    "SELECT a.x FROM a, b WHERE a.id = b.a_id AND a.k > 9950",
                ),
                ("select a.x from a join b on a.id = b.a_id where k > $1 and v < $2", 5000.0, ""),
                (
                    "delete from b using a where a.id = b.a_id and a.k < $1",
                    5000.0,
                    "SELECT count(*) FROM b, a WHERE a.id = b.a_id AND a.k <= 50",
                ),
                ("select x from a where x > $1", 5.0, ""),
                ("declare c cursor for select x from a where k > $1", 0.0, ""),
                ("create table q as select x from a where k > $1", 50.0, "SELECT x FROM a WHERE k > 9995"),
                ("select x from a where k > 10", 5.0, ""),
                ("select x from a where k > (select max(v) from b)", 5.0, ""),
            ],
        )

    def test_an_array_that_is_not_known_has_the_items_that_find_the_rows_of_a_call(self) -> None:
        # A value of a column of a finds 1000 rows, of b 10.
        self.check(
            "rows",
            [
                ("select x from a where k = any($1)", 3000.0, "SELECT x FROM a WHERE k IN (?, ?, ?)"),
                ("select x from a where k = any($1) and n = $2", 20.0, "SELECT x FROM a WHERE k IN (?, ?) AND n = ?"),
                ("delete from b where v = any($1)", 0.0, "DELETE FROM b WHERE v IN (?)"),
                ("select x from a where k = any($1)", None, ""),
                ("select x from a where k = any('{1,2}')", 9000.0, ""),
                ("select x from a where k = any($1) limit 5", 5.0, ""),
                ("select count(*) from a where k = any($1)", 1.0, ""),
                ("select a.x from a join b on a.id = b.a_id where k = any($1)", 5.0, ""),
            ],
        )

    def test_what_a_query_of_few_rows_gives_is_looked_up(self) -> None:
        queue = "select id from a where n = 1 order by k limit {} for update skip locked"
        three, target = "IN (?, ?, ?)", "SELECT *\nFROM a\nWHERE "
        for text, rows, wanted in (
            (f"delete from a where id in ({queue.format(3)})", None, f"{target}id {three}"),
            (f"delete from a where id in ({queue.format('$1')})", 3.0, f"{target}id {three}"),
            (f"with q as ({queue.format(3)}) delete from a using q where a.id = q.id", None, f"{target}id {three}"),
            (
                f"with q as ({queue.format(3)}) delete from a where id in (select id from q)",
                None,
                f"{target}id {three}",
            ),
            (
                f"update a set x = 'q' from ({queue.format(3)}) q where a.id = q.id",
                None,
                f"UPDATE a\nSET x = 'q'\nWHERE id {three}",
            ),
            (f"select x from a where id in ({queue.format(3)})", None, f"SELECT x\nFROM a\nWHERE id {three}"),
            (f"select x from a where id in ({queue.format('$1')})", 3.0, "SELECT x\nFROM a\nWHERE id IS NOT NULL"),
            (f"select x from a where id not in ({queue.format(3)})", None, "SELECT x\nFROM a\nWHERE id IS NOT NULL"),
            (f"select x from a where id in ({queue.format(50000)})", None, "SELECT x\nFROM a\nWHERE id IS NOT NULL"),
            (f"select z from c where id in ({queue.format(3)})", None, "SELECT z\nFROM c\nWHERE id IS NOT NULL"),
        ):
            with self.subTest(text=text):
                options = Options(**PLAIN | {"look_ups": True, "deletes": True, "rows": True})
                found = Rewriter(schema(), options).rewrite(text, rows)
                self.assertEqual(found.statements[-1], wanted)
                self.assertEqual("looked up" in found.changes, " IN (?" in wanted)

    def test_a_correlated_subquery_counts_for_each_row_outside_it(self) -> None:
        for text, times in (
            ("select id from b where v < (select avg(k) from a where a.n = b.v)", 1000),
            ("select id from b where c_id = 5 and v < (select avg(k) from a where a.n = b.v)", 10),
            ("select id, (select max(k) from a where a.n = b.v) from b where c_id = 5", 10),
            ("select b.id, q.m from b, lateral (select max(k) m from a where a.n = b.v) q where c_id = 5", 10),
            ("select b.id from b join c on b.c_id = c.id where v < (select avg(k) from a where a.n = b.v)", 100),
            ("update b set x = 'q' where c_id = 5 and v < (select avg(k) from a where a.n = b.v)", 10),
            ("select id from b where v < (select avg(k) from a where a.n = 7)", 1),
            ("select id from b where not exists (select 1 from a where a.n = b.v group by a.k)", 1),
        ):
            with self.subTest(text=text):
                found = self.rewritten(text, "look_ups")
                inner = next(it for it in found.statements if "\nFROM a\n" in it)
                self.assertEqual(found.times[inner], times)
                self.assertEqual("correlated" in found.changes, times > 1)
                self.assertEqual({*self.rewritten(text, "ranges").times.values()}, {1.0})

    def test_delete_is_a_select_that_no_index_covers(self) -> None:
        known = schema()
        rewriter = Rewriter(known)
        found = rewriter.rewrite("delete from b where v = 3")
        self.assertEqual((found.statements, found.changes), (["SELECT *\nFROM b\nWHERE v = 3"], ["delete"]))
        self.assertEqual(len(known.tables["public", "b"].spares), 8)
        # Statements that need a few columns need none of the spare ones.
        self.assertEqual(rewriter.rewrite("select v from b where v = 3").statements, ["SELECT v\nFROM b\nWHERE v = 3"])
        found = self.rewritten("delete from b using c where b.c_id = c.id and c.z = 'q'", "deletes", 7)
        self.assertEqual(found.statements[1], "SELECT *\nFROM b\nWHERE c_id IN (?, ?, ?, ?, ?, ?, ?)", found.statements)
        known = schema()
        known.is_written = True
        self.assertEqual(
            Rewriter(known).rewrite("delete from b where v = 3").statements, ["DELETE FROM b\nWHERE v = 3"]
        )

    def test_an_insert_counts_a_quarter(self) -> None:
        found = self.rewritten("insert into b (id) values (1)", "insert_share")
        self.assertEqual((found.changes, [*found.times.values()]), (["insert share"], [0.25]))
        self.assertEqual([*self.rewritten("insert into b (id) values (1)", "ranges").times.values()], [1.0])

    def test_the_value_at_a_share_has_it(self) -> None:
        for bounds in ([0, 10], [0, 100, 1000, 1010], [-1, 0, 0, 0, 50]):
            for at in range(0, 101):
                value = at_share(bounds, at / 100)
                low, high = share(bounds, value - 1), share(bounds, value + 1)
                self.assertTrue(low <= at / 100 <= high, (bounds, at, value))

    def test_statements_stand_by_their_cost_and_those_beyond_the_candidates_are_told(self) -> None:
        tables = [
            Table(
                "public", name, name, 9, 1, {f"{name}{at}": Column(f"{name}{at}", f"{name}{at}") for at in range(150)}
            )
            for name in ("t", "u")
        ]
        known = Schema(tables)
        texts = [f"select {', '.join(it.columns)} from {it.name}" for it in tables]
        given = [Input(texts[0], 5), Input(texts[1], 9), Input("select t1 from t", 1), Input("select 1", 7)]
        workload = made(given, Rewriter(known), lambda _: None)
        rank(workload, catalogue_text(known, {}, []).encode(), str(STAND_IN), is_ordered=False)
        self.assertEqual([weight for _, weight in workload.statements], [9, 5, 1])
        self.assertEqual([it.numbers for it in workload.records], [[2], [1], [3], []])
        said = "the program takes 256 candidates; 44 others of statements 2 to 3, which have 40.0 % of the cost, are left over"
        self.assertEqual(workload.remarks, [said])
        self.assertEqual(summary(workload)[-1], said)
        for program in ("/bin/false", "/nowhere/cophy"):
            workload = made(given, Rewriter(known), lambda _: None)
            rank(workload, b"", program, is_ordered=False)
            self.assertEqual([weight for _, weight in workload.statements], [5, 9, 1])
            self.assertIn("the program didn't price the statements", workload.remarks[0])


@unittest.skipIf(MISSING, MISSING)
class Counted(unittest.TestCase):
    """An export of statements that the server has counted."""

    MADE = """CREATE EXTENSION pg_stat_statements;
CREATE TABLE t (id int, made timestamp, status int, note text);
INSERT INTO t SELECT g, timestamp '2024-01-01' + g * interval '10 minutes', g % 40, md5(g::text) FROM generate_series(1, 50000) g;
ANALYZE;
SELECT pg_stat_statements_reset();
SELECT note FROM t WHERE id > 49950;
SELECT note FROM t WHERE status = 3 AND made BETWEEN '2024-03-01' AND '2024-03-11';
SELECT note FROM t ORDER BY made DESC LIMIT 10;
DELETE FROM t WHERE made < '2024-01-04';
INSERT INTO t (id) VALUES (1); INSERT INTO t (id) VALUES (2); INSERT INTO t (id) VALUES (3); INSERT INTO t (id) VALUES (4);
INSERT INTO t (id) VALUES (5); INSERT INTO t (id) VALUES (6); INSERT INTO t (id) VALUES (7); INSERT INTO t (id) VALUES (8);
"""

    def exported(self, *more: str) -> tuple[Schema, str, str]:
        """The catalogue, the workload and the report."""
        with tempfile.TemporaryDirectory() as name:
            files = [Path(name) / it for it in ("catalogue.toml", "workload.sql", "report.txt")]
            words = (*map(str, files[:2]), "--report", str(files[2]), *more)
            ran = called(self.server, "export", *words, database="paced")
            self.assertEqual(ran.returncode, 0, ran.stderr)
            return read_schema(files[0].read_bytes()), files[1].read_text(), files[2].read_text()

    def test_ranges_hold_the_rows_that_calls_gave(self) -> None:
        self.server = shop()
        self.server.psql("CREATE DATABASE paced")
        self.addCleanup(self.server.psql, "DROP DATABASE paced")
        self.server.psql(self.MADE, "paced")
        known, text, report = self.exported()
        columns = known.tables["public", "t"].columns

        def rows(column: str, low: str | None, high: str | None) -> float:
            shares = [None if it is None else share(columns[column].bounds, int(it)) for it in (low, high)]
            return 50000 * ((1.0 if shares[1] is None else shares[1]) - (shares[0] or 0.0))

        def one(pattern: str) -> tuple[str, ...]:
            found = re.search(pattern, text)
            assert found is not None, (pattern, text)
            return found.groups()

        self.assertAlmostEqual(rows("id", one(r"SELECT note\nFROM t\nWHERE id > (\d+);")[0], None), 50, delta=3)
        low, high = one(r"WHERE status = \? AND made BETWEEN (\d+) AND (\d+);")
        self.assertTrue(18 <= rows("made", low, high) / 40 <= 72, (low, high))
        last = one(r"WHERE made > (\d+)\nORDER BY made DESC\nLIMIT \?;")[0]
        self.assertAlmostEqual(rows("made", last, None), 10, delta=3)
        first = one(r"SELECT \*\nFROM t\nWHERE made <= (\d+);")[0]
        self.assertTrue(216 <= rows("made", None, first) <= 864, first)
        self.assertIn("-- weight 2\nINSERT INTO t", text)
        self.assertEqual(len(known.tables["public", "t"].spares), 8)
        for name in ("rows", "limits", "deletes", "insert-share"):
            self.assertIn(f"(--no-{name} turns this off)", report)
        known, text, report = self.exported(*map(word_of, TEXTS))
        for it in (
            "id > ?",
            "made BETWEEN ? AND ?",
            "FROM t\nORDER BY made DESC",
            "DELETE FROM t\nWHERE made < ?",
            "-- weight 8\nINSERT",
        ):
            self.assertIn(it, text)
        self.assertNotIn("turns this off", report)
        self.assertEqual(known.tables["public", "t"].spares, [])


if __name__ == "__main__":
    unittest.main()
