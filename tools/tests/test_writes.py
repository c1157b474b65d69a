"""Which writes are told to have more indexes to keep."""
from __future__ import annotations

import os
import unittest
from unittest import mock

from cophy_text.answers import Candidate
from cophy_pg.schema import Column, Table
from cophy_pg.why import Reason
from cophy_pg.writes import told, writes_of

from private_server import PrivateServer, missing

TEXTS = (
    "SELECT a FROM t",
    "INSERT INTO t (a) VALUES (?)",
    "UPDATE t SET b = ?",
    "UPDATE u SET c = ?",
    "UPDATE w SET a = ?",
)
CALLS = {1: 900, 2: 70, 3: 80, 4: 7, 5: 6}


def reason(number: int, table: str, changes: dict[int, int]) -> Reason:
    """A pick with what it changes of the statements."""
    return Reason(Candidate(number, table, ("a",), 9), 1000, changes)


class Writes(unittest.TestCase):
    def test_the_tables_that_are_written_the_most_are_told_with_their_indexes(self) -> None:
        picks = [
            reason(1, "t", {1: 500, 2: -3}),
            reason(2, "t", {1: 400, 2: -3, 3: -5}),
            reason(3, "u", {1: 300}),
            reason(4, "u", {1: 300, 4: -1}),
            reason(5, "v", {1: 200}),
            reason(6, "w", {1: 100, 5: -2}),
        ]
        found = writes_of(picks, TEXTS, CALLS, {"t": (4, set()), "u": (1, set()), "w": (2, {"A"})})
        rows = [tuple(it.values()) for it in found]
        both: tuple[object, ...] = ("INSERT and UPDATE", "t", 150, 2, 2, 4, [])
        # An UPDATE that has an index to keep has entries to add to all of its table.
        self.assertEqual(rows, [both, ("UPDATE", "u", 7, 2, 2, 1, []), ("UPDATE", "w", 6, 1, 1, 2, [])])
        line = "writes: INSERT and UPDATE of t have 2 indexes more to keep (4 to 6)"
        self.assertEqual(
            told(found), [f"{line}, UPDATE of u has 2 indexes more to keep (1 to 3), those of 1 other table too"]
        )
        # Those are told first that can't be HOT any more.
        rare = found[2] | {"not_hot": ["a"], "path": "s.w"}
        told_first = told(sorted([*found[:2], rare], key=lambda it: not it["not_hot"]))[0]
        self.assertIn("writes: UPDATE of s.w has 1 index more to keep (2 to 3; UPDATEs of a can't", told_first)
        # With the numbers of the indexes that this is for.
        made = [
            (3, {"table": "w", "columns": ["b", "a"]}),
            (4, {"table": "w", "columns": ["b"]}),
            (5, {"table": "t", "columns": ["a"]}),
        ]
        self.assertIn("; UPDATEs of a can't be HOT any more for 3)", told([rare], made)[0])
        self.assertEqual(told(found[2:]), ["writes: UPDATE of w has 1 index more to keep (2 to 3)"])
        self.assertEqual(told(writes_of(picks[2:3], TEXTS, CALLS, {})), [])
        often = writes_of(picks[:1], TEXTS, CALLS, {"t": (4, set())})
        self.assertEqual(told(often), ["writes: INSERT into t has 1 index more to keep (4 to 5)"])

    def test_an_update_that_sets_an_indexed_column_has_all_indexes_to_keep(self) -> None:
        texts = ("SELECT a FROM u", 'UPDATE u x\nSET c = ?, "D" = x.c\nWHERE a = 7', "UPDATE v\nSET c = ?")
        for columns, wanted in (
            ({"c"}, [("UPDATE", "u", 9, 1, 1, 1, [])]),
            ({"d"}, [("UPDATE", "u", 9, 1, 1, 1, [])]),
            ({"e"}, []),
        ):
            found = writes_of([reason(1, "u", {1: 300})], texts, {1: 8, 2: 9, 3: 7}, {"u": (1, columns)})
            self.assertEqual([tuple(it.values()) for it in found], wanted)

    def test_an_update_that_could_be_hot_is_told_where_it_sets_a_column_of_new_indexes_alone(self) -> None:
        texts = (
            "INSERT INTO u (a) VALUES (1)",
            "UPDATE u SET d = 1",
            "UPDATE u SET a = 1, e = 2",
            "UPDATE u SET B = ?",
        )
        picks = [Reason(Candidate(1, "u", ("a", "c"), 9), 0, {1: -1}), Reason(Candidate(2, "u", ("b",), 9), 0, {1: -1})]
        both = "INSERT and UPDATE of u have 2 indexes more to keep (3 to 5"
        for count, old, wanted in (
            (2, {"c"}, "INSERT into u has 2 indexes more to keep (3 to 5)"),
            (3, {"c"}, f"{both}; UPDATEs of a can't be HOT any more)"),
            (4, {"c"}, f"{both}; UPDATEs of a and b can't be HOT any more)"),
            (4, {"E"}, f"{both}; UPDATEs of b can't be HOT any more)"),
            (4, {"a", "b"}, f"{both})"),
        ):
            with self.subTest(count=count, old=old):
                found = writes_of(picks, texts[:count], {}, {"u": (3, old)})
                self.assertEqual(told(found), [f"writes: {wanted}"])

    def test_the_columns_that_an_update_sets_are_those_of_its_tokens(self) -> None:
        for text, wanted in (
            ("UPDATE u SET c = ?", "c"),
            ('update "U" AS x\nset "D"=x.e,\n c =f(x.e, 1) WHERE e = 1 AND a IN (1, 2)', "c d"),
            ("-- weight 3\n/* SET e = 1 */ UPDATE u -- SET a = 2,\nSET c /* , e = */ = 1", "c"),
            ("UPDATE u SET c = ' SET a = 1, e = ''x'', a = 2'", "c"),
            ('UPDATE u "set" SET "order" = 1, c = "set".e', "c order"),
            ("UPDATE u SET c = (SELECT e FROM v WHERE a = 1 AND (b, d) = (1, 2)), f = 3", "c f"),
            ("UPDATE \"v\" SET c = 'UPDATE u SET a = 1'", ""),
            ("DELETE FROM u WHERE c = 1", ""),
        ):
            for column in ("a", "b", "c", "d", "e", "f", "order"):
                with self.subTest(text=text, column=column):
                    found = writes_of([reason(1, "u", {})], [text], {1: 9}, {"u": (1, {column})})
                    self.assertEqual(bool(found), column in wanted.split())


@unittest.skipIf(missing(), missing())
class Indexes(unittest.TestCase):
    def test_the_columns_of_an_index_are_all_that_it_has_to_do_with(self) -> None:
        from cophy_pg.server import connected, reading
        from cophy_pg.writes import indexes_of

        server = PrivateServer()
        self.addCleanup(server.stop)
        server.psql(
            """CREATE TABLE t (a int PRIMARY KEY, "B" int, c int[], d text, e int, f int, g int); CREATE TABLE u (a int);
            CREATE INDEX ON t ("B") INCLUDE (e); CREATE INDEX ON t USING gin (c); CREATE INDEX ON t (lower(d)) WHERE f > 1"""
        )
        with mock.patch.dict(os.environ, server.environment()), connected() as session, reading(session):
            tables = [
                Table(
                    "public",
                    it,
                    it.upper(),
                    oid=int(session.value("SELECT %s::regclass::oid::int8", (f"public.{it}",))),
                )
                for it in ("t", "u")
            ]
            tables[0].columns = {it: Column(it, it.upper()) for it in "aBcdefg"}
            found = indexes_of(session, tables)
        self.assertEqual(found, {"T": (4, {*"ABCDEF"}), "U": (0, set())})


if __name__ == "__main__":
    unittest.main()
