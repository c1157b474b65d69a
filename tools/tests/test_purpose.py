"""What the summary shows of the statement that an index serves: what tells it from others like it."""
from __future__ import annotations

import unittest

from fixtures import NO_PARSER

LONG = "SELECT t.id, t.tn, t.title, t.queue_id FROM ticket t"


@unittest.skipIf(NO_PARSER, NO_PARSER)
class Purpose(unittest.TestCase):
    def shown(self, sql: str, index: str, most: int = 99) -> str:
        """What is shown of a statement for an index such as `t(a, b)`."""
        from cophy_pg.purpose import purpose_of

        table, _, columns = index.removesuffix(")").partition("(")
        return purpose_of(sql, table, columns.split(", "), most)

    def test_of_like_statements_the_conditions_that_an_index_serves_are_shown(self) -> None:
        for end, index, wanted in (
            ("WHERE t.tn = $1 AND t.title = $2", "ticket(tn)", "WHERE tn = $1"),
            ("WHERE t.tn = $1 AND t.title = $2", "ticket(title, tn)", "WHERE tn = $1 AND title = $2"),
            ("WHERE lower(t.title) = lower($1)", "ticket(lower(title))", "WHERE lower(title) = lower($1)"),
            (
                "WHERE t.tn = 1 AND (t.title = 'a' OR t.id > 5)",
                "ticket(tn, id)",
                "WHERE tn = 1 AND (title = 'a' OR id > 5)",
            ),
            ("JOIN queue q ON q.id = t.queue_id AND q.name = $1", "queue(id)", "WHERE q.id = t.queue_id"),
            ("JOIN queue q ON q.id = t.queue_id AND q.name = $1", "queue(name)", "WHERE name = $1"),
            ("WHERE EXISTS (SELECT FROM queue q WHERE q.name = $1)", "queue(name)", "WHERE name = $1"),
            ("WHERE t.title IS NULL ORDER BY t.tn DESC, t.id", "ticket(tn)", "ORDER BY tn DESC, id"),
        ):
            with self.subTest(end=end, index=index):
                self.assertEqual(self.shown(f"{LONG} {end}", index), wanted)

    def test_a_column_of_that_name_in_another_table_doesnt_count(self) -> None:
        sql = f"{LONG} JOIN queue q ON q.id = t.queue_id WHERE q.title = $1 AND t.title = $2"
        self.assertEqual(self.shown(sql, "ticket(title)"), "WHERE title = $2")
        self.assertEqual(self.shown("SELECT 1 FROM rows o WHERE o.a = 1", "arrows(a)"), "FROM rows o WHERE o.a = 1")
        # The catalogue may have the schema before a name, and `_` for odd characters.
        self.assertEqual(self.shown('SELECT 1 FROM s."T-x" WHERE "a b" = 3', "s_T_x(a_b)"), 'WHERE "a b" = 3')

    def test_writes_have_conditions_too(self) -> None:
        self.assertEqual(self.shown("UPDATE ticket SET title = $1 WHERE tn = $2", "ticket(tn)"), "WHERE tn = $2")
        self.assertEqual(self.shown("DELETE FROM ticket WHERE tn = $1", "ticket(tn)"), "WHERE tn = $1")

    def test_else_what_begins_with_from_or_all_is_shown(self) -> None:
        self.assertEqual(self.shown(LONG, "ticket(tn)"), "FROM ticket t")
        self.assertEqual(self.shown("SELECT tn FROM ticket GROUP BY tn", "ticket(tn)"), "GROUP BY tn")
        self.assertEqual(self.shown("-- x\nVALUES (1)", "ticket(tn)"), "VALUES (1)")
        self.assertEqual(self.shown("no SQL FROM nowhere", "ticket(tn)"), "no SQL FROM nowhere")
        self.assertEqual(self.shown(f"{LONG} WHERE tn = $1", "ticket(tn)", 10), "WHERE t...")

    def test_of_one_without_help_that_is_cut_the_conditions_are_shown(self) -> None:
        from cophy_pg.purpose import filter_of

        for sql, wanted in (
            ("SELECT 1 FROM t WHERE a = 2", "SELECT 1 FROM t WHERE a = 2"),
            (f"{LONG} WHERE t.id = $1 AND t.tn LIKE $2", "FROM ticket WHERE tn LIKE $2 AND id = $1"),
            (f"{LONG}, u WHERE t.id = u.id AND lower(t.tn) = $1", "WHERE lower(tn) = $1 AND t.id = u.id"),
            (f"{LONG} WHERE t.title = ? AND t.tn LIKE ?", "WHERE t.title = ? AND t.tn LIKE ?"),
            (f"{LONG} ORDER BY t.tn, t.title, t.id LIMIT 3", "FROM ticket t ORDER BY t.tn, t.title, t.id LIMIT 3"),
            (
                f"UPDATE ticket SET title = '{'x' * 60}' WHERE tn = $1 AND (id = 2 OR id = 3)",
                "WHERE (id = 2 OR id = 3) AND tn = $1",
            ),
        ):
            with self.subTest(sql=sql):
                self.assertEqual(filter_of(sql, 60), wanted)

    def test_a_long_statement_takes_no_time(self) -> None:
        deep = f"{LONG} WHERE {'(tn = 1 AND (id = 2 OR ' * 1900}tn = 3{'))' * 1900}"
        self.assertEqual(self.shown(deep, "ticket(tn)", 30), "FROM ticket t WHERE (tn = 1...")


if __name__ == "__main__":
    unittest.main()
