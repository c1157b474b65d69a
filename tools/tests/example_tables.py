"""Tables that tests share: those over which statements are rewritten, and a catalogue of one with advice over it."""
from __future__ import annotations

import unittest

from fixtures import NO_PARSER

CATALOGUE = """version = 1
[[table]]
name = "t"
rows = 1000
pages = 20
[[table.column]]
name = "a"
kind = "int"
width = 4
"""
ADVICE = (
    "budget 9\ncandidates 1 left over 0\npick 1 t(a) 3 pages\nsize 3\ncost 1\nbound 1\ngap 0\nnodes 1 of 2\nfinished\n"
)
PLAIN = dict.fromkeys(("rows", "limits", "look_ups", "deletes", "insert_share"), False)

if not NO_PARSER:
    from cophy_pg.rewrite import Options, Rewriter, Rewritten
    from cophy_pg.schema import Column, Schema, Table


def schema() -> Schema:
    """Tables a of 100000 rows, b of 1000 and c of 10, and ten small ones."""

    def table(name: str, rows: int, columns: str) -> Table:
        listed = {}
        for it in columns.split():
            shown, kind, of = it.split(":")
            low, high = (0, 10000) if kind == "int" else (7305, 18262) if kind == "date" else (None, None)
            listed[shown] = Column(shown, shown, kind, 8, 100, low, high, of)
        return Table("public", name, name, rows, rows // 50 + 1, listed)

    text = "x:text:varchar y:text:text on:text:bool j:text:jsonb"
    tables = [
        table("a", 100000, f"id:int:int4 k:int:int4 n:int:numeric d:date:date {text}"),
        table("b", 1000, f"id:int:int4 a_id:int:int4 c_id:int:int4 v:int:int4 {text}"),
        table("c", 10, "id:int:int4 z:text:text"),
        table("order", 10, "group:int:int4"),
        *(table(f"s{it}", it, "id:int:int4 k:int:int4") for it in range(10)),
    ]
    found = Schema(tables)
    found.views[("public", "w")] = "SELECT id, k AS key FROM a WHERE n = 1"
    return found


def two_schemas() -> Schema:
    """Table t of `public`, t and u of `other`, all of columns a and b, and docs with a column that no index can have."""
    tables = []
    for schema, name, shown in (("public", "t", "t"), ("other", "t", "other_t"), ("other", "u", "other_u")):
        table = Table(schema, name, shown, 1000, 20)
        table.columns = {it: Column(it, it, "int", 4, 10) for it in ("a", "b")}
        tables.append(table)
    docs = Table("public", "docs", "docs", 1000, 20)
    docs.columns = {"id": Column("id", "id", "int", 4), "doc": Column("doc", "doc", width=1000, no_key="json")}
    docs.add_spares()
    return Schema([*tables, docs])


class OverTables(unittest.TestCase):
    """Tests of what is written for statements over the tables of `schema`."""

    def rewritten(self, text: str, **options: bool) -> Rewritten:
        return Rewriter(schema(), Options(**PLAIN | options)).rewrite(text)

    def check(self, rows: list[tuple[str, list[str], str]]) -> None:
        """Each row has a statement, what is written for it, and the names of the changes."""
        for text, written, changes in rows:
            with self.subTest(text=text):
                found = self.rewritten(text)
                self.assertEqual([it.replace("\n", " ") for it in found.statements], written, found.skipped)
                self.assertEqual(", ".join(found.changes), changes)
