"""Tables of several schemas, which COPY writes and reads, and columns that no index can have."""
from __future__ import annotations

import unittest

from example_tables import two_schemas
from fixtures import NO_PARSER

if not NO_PARSER:
    from cophy_pg.inputs import Input
    from cophy_pg.rewrite import Options, Rewriter, Rewritten
    from cophy_pg.schema import path_of
    from cophy_pg.workload import made


@unittest.skipIf(NO_PARSER, NO_PARSER)
class Schemas(unittest.TestCase):
    @staticmethod
    def rewritten(
        text: str, rows: float | None = None, path: tuple[str, ...] | None = None, **options: bool
    ) -> Rewritten:
        return Rewriter(two_schemas(), Options(**options)).rewrite(text, rows, path)

    def test_a_table_goes_by_the_path(self) -> None:
        for path, shown in (
            (None, "t"),
            (("public",), "t"),
            (("other", "public"), "other_t"),
            (("none", "other"), "other_t"),
        ):
            with self.subTest(path=path):
                self.assertEqual(self.rewritten("SELECT a FROM t", None, path).statements, [f"SELECT a\nFROM {shown}"])
        self.assertEqual(self.rewritten("SELECT a FROM u", None, ("public",)).statements, ["SELECT a\nFROM other_u"])

    def test_it_is_shown_by_its_schema_where_names_are_plain(self) -> None:
        self.assertEqual(path_of("wiki", "page", "wiki_page"), "wiki.page")
        for schema, name, shown in (
            ("public", "page", "page"),
            ("wiki", "page", "wiki_page_2"),
            ("wiki", "a'b", "wiki_a_b"),
            ("Wiki", "page", "Wiki_page"),
        ):
            self.assertEqual(path_of(schema, name, shown), shown)

    def test_copy_and_insert_select_count_the_rows_that_they_wrote(self) -> None:
        for text in ("COPY t FROM STDIN", "INSERT INTO t SELECT a, b FROM u", "COPY t (a) FROM '/file'"):
            for rows, count, times in (
                (3, 3, 1.0),
                (1000, 1000, 1.0),
                (250000, 1000, 250.0),
                (0.25, 1, 0.25),
                (None, 1, 1.0),
            ):
                for has_share, share in ((True, 0.25), (False, 1.0)):
                    with self.subTest(text=text, rows=rows, has_share=has_share):
                        found = self.rewritten(text, rows, insert_share=has_share)
                        insert = next(it for it in found.statements if it.startswith("INSERT"))
                        self.assertEqual((insert.count("(?)"), found.times[insert]), (count, share * times))

    def test_copy_out_is_its_query(self) -> None:
        self.assertEqual(self.rewritten("COPY t (b) TO STDOUT").statements, ["SELECT b\nFROM t"])
        self.assertEqual(self.rewritten("COPY t TO '/file'").statements, ["SELECT *\nFROM t"])
        self.assertEqual(
            self.rewritten("COPY (SELECT a FROM t WHERE b = 1) TO STDOUT").statements, ["SELECT a\nFROM t\nWHERE b = 1"]
        )

    def test_weights_are_those_of_the_rows(self) -> None:
        # 50 INSERTs of 1000 rows a call, each of a quarter's weight; no weight is less than 1.
        for calls, rows, weight in ((4, 50000.0, 50), (1, 1.0, 1)):
            found = made([Input("COPY t FROM STDIN", calls, None, rows)], Rewriter(two_schemas()), lambda text: None)
            self.assertEqual([it for _, it in found.statements], [weight])

    def test_a_column_that_no_index_can_have_is_no_key(self) -> None:
        spares = " AND ".join(f"no_index_{it} IS NOT NULL" for it in range(1, 8))
        for text, written in (
            ("SELECT id FROM docs WHERE doc = '1'", f"SELECT id\nFROM docs\nWHERE doc LIKE ? AND {spares}"),
            ("SELECT id FROM docs WHERE doc IN ('1', '2')", f"SELECT id\nFROM docs\nWHERE doc LIKE ? AND {spares}"),
            ("SELECT doc FROM docs WHERE id = 1", f"SELECT doc\nFROM docs\nWHERE id = 1 AND {spares}"),
            ("SELECT id FROM docs WHERE id = 1", "SELECT id\nFROM docs\nWHERE id = 1"),
            ("SELECT * FROM docs ORDER BY doc", "SELECT *\nFROM docs\nORDER BY any_of(doc)"),
            (
                "SELECT DISTINCT doc FROM docs",
                f"SELECT DISTINCT any_of(doc)\nFROM docs\nWHERE {spares} AND no_index_8 IS NOT NULL",
            ),
            ("UPDATE docs SET doc = '1' WHERE id = 1", "UPDATE docs\nSET doc = '1'\nWHERE id = 1"),
            ("DELETE FROM docs WHERE doc > '1' AND id = 1", "SELECT *\nFROM docs\nWHERE doc LIKE ? AND id = 1"),
        ):
            with self.subTest(text=text):
                self.assertEqual(self.rewritten(text).statements, [written])
        deleted = self.rewritten("DELETE FROM docs WHERE doc > '1' AND id = 1", deletes=False).statements
        self.assertEqual(deleted, [f"DELETE FROM docs\nWHERE doc LIKE ? AND id = 1 AND {spares}"])
        grouped = self.rewritten("SELECT count(*) FROM docs GROUP BY doc, id").statements[0]
        self.assertTrue(grouped.endswith("GROUP BY id"), grouped)
        joined = self.rewritten("SELECT a FROM t JOIN docs ON t.a = docs.doc").statements
        self.assertEqual([it.count("=") for it in joined], [0, 0])


if __name__ == "__main__":
    unittest.main()
