"""Columns whose values may exceed an entry of an index: none is advised for reading alone, and others are told."""
from __future__ import annotations

import json
import unittest
from pathlib import Path
from typing import Any

from cophy_text.answers import Candidate
from cophy_pg.schema import Column, Schema, Table
from cophy_pg.unlimited import compared_columns, exceeding, far_longer, likely, never, told, warning
from fixtures import COPHY, NO_HYPOPG, OverOwn

TABLES = """CREATE TABLE entry (id int PRIMARY KEY, entered int NOT NULL, title text, guid text, link text, kind varchar(20),
    wide varchar(700), known text UNIQUE, price numeric, tags text[], address inet);
INSERT INTO entry SELECT i, i % 900, 'title ' || i, 'guid ' || i, 'link ' || i, 'k', 'w', 'u' || i, i, '{a,b}', '::1'
FROM generate_series(1, 60000) i;
ANALYZE;
"""
QUERIES = """-- weight 900
SELECT title, link FROM entry WHERE entered = 5;
-- weight 50
SELECT id FROM entry WHERE guid = 'guid 7';
"""
LONGER = "(SELECT string_agg(md5(i::text), '') FROM generate_series(1, 100) i)"


def schema_of(**most: int) -> Schema:
    """A schema of two tables with the same columns, of which some may be long in the first."""
    names = ("a", "b", "c", "d", "e", "f", "g", "h")
    first = {it: Column(it, it, most=most.get(it, 0)) for it in names}
    second = {it: Column(it, it) for it in names}
    return Schema([Table("public", "t", "t", columns=first), Table("public", "u", "u", columns=second)])


class Compared(unittest.TestCase):
    def test_columns_are_compared_by_the_tables_that_they_are_of(self) -> None:
        text = b"""-- weight 5
SELECT x.a, any_of(x.b) FROM t x JOIN u AS y ON x.c = y.c AND (y.d = ? OR x.e LIKE 'a%') WHERE any_of(x.f) ORDER BY y.a;
SELECT b FROM t WHERE g > 1 AND h IS NOT NULL; UPDATE u SET e = 5 WHERE f = 3; INSERT INTO t (b, e) VALUES (?, ?);
SELECT DISTINCT b FROM u, t x WHERE x.h NOT LIKE ?"""
        wanted = {("t", "c"), ("u", "c"), ("u", "d"), ("u", "a"), ("t", "g"), ("u", "f"), ("u", "b"), ("t", "b")}
        self.assertEqual(compared_columns(schema_of(), text), wanted)

    def test_rules_keep_those_that_are_only_read_and_others_are_told(self) -> None:
        schema = schema_of(a=2**30, b=2804, c=2**30, d=1004, e=1004, f=1004)
        text = b"SELECT a, b, d FROM t WHERE c = ?; SELECT a FROM u WHERE b = ?"
        picks = [Candidate(at, "t", tuple(it), 9) for at, it in enumerate(("cab", "ca", "ba", "def", "d", "gh"), 1)]
        self.assertEqual(never(schema, picks, text, []), ["never t.a", "never t.b"])
        self.assertEqual(never(schema, picks, text, ["must t(g, A)", "never t.c"]), ["never t.b"])
        found = [exceeding(schema, it) for it in picks]
        self.assertEqual(found, [[*"cab"], ["c", "a"], ["b", "a"], [*"def"], [], []])
        columns = schema.tables["public", "t"].columns
        columns["a"].type = columns["b"].type = "text"
        columns["b"].sizes, columns["c"].width = [9, 30], 40
        self.assertEqual(far_longer(schema, picks[0]), ["b"])
        self.assertEqual([likely(schema, it) for it in picks[:3]], [["a"], ["a"], ["a"]])
        columns["c"].width = 400
        self.assertEqual(likely(schema, picks[0]), ["c", "a"])
        self.assertEqual(warning(["c"]), "an INSERT of more than 2,704 bytes in c would fail")
        self.assertEqual(warning([*"def"]), "an INSERT of more than 2,704 bytes in d and e and f together would fail")
        self.assertEqual((warning([]), told([])), ("", ""))
        text_of_four = told([f"never t.{it}" for it in "abcd"])
        self.assertTrue(text_of_four.startswith("no index has t.a, t.b and 2 more: an INSERT over"))


@unittest.skipIf(NO_HYPOPG, NO_HYPOPG)
@unittest.skipUnless(COPHY.exists(), "the program isn't built")
class Made(OverOwn):
    database, content, given = "news", TABLES, {"COPHY_PROGRAM": str(COPHY)}

    def advise(self, *more: str) -> dict[str, Any]:
        (self.folder / "q.sql").write_text(QUERIES)
        sql, kept = self.in_folder("q.sql", "found")
        words = ("advise", "--sql", sql, "--budget", "40MB", "--folder", kept, "--no-curve", "--json")
        found: dict[str, Any] = json.loads(self.call(*words, *more).stdout)
        return found

    def make(self) -> None:
        """Makes what was advised, as the owner does."""
        self.run_script((self.folder / "found" / "indexes.sql").read_text())

    def insert(self, column: str) -> str:
        """What the server says of an INSERT of a row with a long value, which is taken back."""
        text = f"BEGIN; INSERT INTO entry (id, entered, {column}) VALUES (-1, 5, {LONGER}); ROLLBACK"
        return self.server.psql(text, "news", check=False).stderr

    def test_an_insert_of_a_long_value_works_as_before(self) -> None:
        found = self.advise()
        self.addCleanup(self.server.psql, "DROP INDEX IF EXISTS entry_entered_idx, entry_guid_id_idx", "news")
        picks = {tuple(it["columns"]): it["long"] for it in found["picks"]}
        self.assertEqual(picks, {("entered",): [], ("guid", "id"): ["guid"]})
        self.assertEqual(found["long_columns"], ["never entry.title", "never entry.link"])
        self.assertLessEqual({*found["long_columns"]}, {*found["rules"]})
        kept = self.folder / "found"
        fails = "an INSERT of more than 2,704 bytes in guid would fail"
        for name, count in (("details.txt", 1), ("report.html", 1), ("summary.txt", 0), ("indexes.sql", 0)):
            self.assertEqual((kept / name).read_text().count(fails), count, name)
        told_once = "no index has entry.title, entry.link: an INSERT over 2,704 bytes there would fail"
        self.assertEqual((kept / "details.txt").read_text().count(told_once), 1)
        self.assertIn(told_once[1:], (kept / "report.html").read_text())
        self.make()
        self.assertEqual((self.insert("title"), self.insert("link")), ("", ""))
        self.assertIn("exceeds btree version 4 maximum 2704", self.insert("guid"))

    def test_an_option_takes_that_back_and_warns(self) -> None:
        found = self.advise("--long-columns")
        self.assertEqual(found["long_columns"], [])
        wide = next(it for it in found["picks"] if it["columns"][0] == "entered")
        self.assertEqual([*wide["columns"][1:], *wide["long"]], ["title", "link"] * 2)
        self.addCleanup(self.server.psql, f'DROP INDEX IF EXISTS {wide["name"]}, entry_guid_id_idx', "news")
        text = (self.folder / "found" / "details.txt").read_text()
        self.assertIn("an INSERT of more than 2,704 bytes in title and link together would fail", text)
        self.make()
        self.assertIn("exceeds btree version 4 maximum 2704", self.insert("title"))

    def test_the_catalogue_says_how_long_a_value_may_be(self) -> None:
        (self.folder / "q.sql").write_text(QUERIES.replace("title, link", "title, wide, known, price, tags, address"))
        catalogue, workload, sql = self.in_folder("c.toml", "w.sql", "q.sql")
        self.call("export", catalogue, workload, "--sql", sql)
        text = Path(catalogue).read_text()
        parts = {it.split('"', 2)[1]: it for it in text.split("[[table.column]]\n")[1:]}
        most = {name: it.partition("postgres_most = ")[2].split("\n")[0] for name, it in parts.items()}
        self.assertEqual([most[it] for it in ("title", "tags", "wide", "kind")], ["1073741824"] * 2 + ["2804", "84"])
        self.assertEqual({most[it] for it in ("known", "price", "id", "address")}, {""})
        said = self.call("ddl", catalogue, self.lay_advice(["entry(wide)"])).stdout
        self.assertIn("\n-- an INSERT of more than 2,704 bytes in wide would fail\nCREATE INDEX", said)


if __name__ == "__main__":
    unittest.main()
