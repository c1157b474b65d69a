"""Awkward objects of a server: they are exported, and PostgreSQL makes every pick over them from the printed DDL."""
from __future__ import annotations

import json
import re
import subprocess
import tempfile
import unittest
from collections.abc import Iterator
from pathlib import Path
from typing import TYPE_CHECKING

from cophy_text import answers
from fixtures import COPHY, DATA, MISSING, called, shop
from grammar import accepted
from patience import LONG
from private_server import PrivateServer, program

if TYPE_CHECKING:
    from cophy_pg.schema import Schema

OBJECTS = DATA / "objects.sql"
HEAD = "budget 1000000\ncandidates 1 left over 0\n"
TAIL = "size 1\ncost 1\nbound 1\ngap 0\nnodes 1 of 1\nfinished\n"
COLUMNS = """
SELECT n.nspname, c.relname, a.attname FROM pg_attribute a JOIN pg_class c ON c.oid = a.attrelid
JOIN pg_namespace n ON n.oid = c.relnamespace
WHERE c.relkind IN ('r', 'm', 'p') AND NOT c.relispartition AND a.attnum > 0 AND NOT a.attisdropped
AND n.nspname !~ '^pg_' AND n.nspname <> 'information_schema'"""


REFUSED = f"""
SET client_min_messages TO error;
CREATE TEMP TABLE refused (names json);
DO $$ DECLARE it record; BEGIN
    FOR it IN {COLUMNS} LOOP
        BEGIN
            EXECUTE format('CREATE INDEX ON %I.%I (%I)', it.nspname, it.relname, it.attname);
            RAISE EXCEPTION USING ERRCODE = 'ZZ000';
        EXCEPTION WHEN SQLSTATE 'ZZ000' THEN NULL;
        WHEN OTHERS THEN INSERT INTO refused VALUES (json_build_array(it.nspname, it.relname, it.attname));
        END;
    END LOOP;
END $$;
SELECT coalesce(json_agg(names), '[]') FROM refused;
"""
"""The columns over which the server makes no index, as it says itself; none is left."""


def advice(picks: list[tuple[str, tuple[str, ...]]]) -> str:
    """An advice of these picks."""
    lines = (f"pick {at} {table}({', '.join(keys)}) 1 pages\n" for at, (table, keys) in enumerate(picks, 1))
    return HEAD + "".join(lines) + TAIL


@unittest.skipIf(MISSING, MISSING)
class Objects(unittest.TestCase):
    """`objects.sql` as a database, with its catalogue."""

    server: PrivateServer
    folder: Path
    files: list[Path]
    schema: Schema

    @classmethod
    def setUpClass(cls) -> None:
        from cophy_pg.catalogue import read_schema

        cls.server = shop()
        cls.server.psql("CREATE DATABASE objects TEMPLATE template0")
        cls.server.psql(OBJECTS.read_text(), "objects")
        folder = tempfile.TemporaryDirectory()
        cls.addClassCleanup(folder.cleanup)
        cls.folder = Path(folder.name)
        cls.files = [cls.folder / it for it in ("catalogue.toml", "workload.sql", "advice", "given.sql")]
        cls.files[3].write_text("\n".join(cls.statements()))
        ran = called(
            cls.server,
            "export",
            *map(str, cls.files[:2]),
            "--sql",
            str(cls.files[3]),
            database="objects",
            PGUSER="cophy_advisor",
        )
        assert ran.returncode == 0, ran.stderr
        cls.schema = read_schema(cls.files[0].read_bytes())

    @classmethod
    def statements(cls) -> Iterator[str]:
        """A statement that tests, groups and orders by each column, and one that reads all of each table."""
        query = (
            f"SELECT json_agg(json_build_array(nspname, relname, attname)) FROM ({COLUMNS} ORDER BY 1, 2, a.attnum) x"
        )
        for names in json.loads(cls.server.value(query, "objects")):
            schema, table, column = ('"' + it.replace('"', '""') + '"' for it in names)
            yield f"SELECT {column} FROM {schema}.{table} WHERE {column} = $1;"
            yield f"SELECT count(*) FROM {schema}.{table} GROUP BY {column};"
            yield f"SELECT * FROM {schema}.{table} ORDER BY {column};"
            yield f"UPDATE {schema}.{table} SET {column} = $1 WHERE {column} > $2;"

    def made(self, picks: list[tuple[str, tuple[str, ...]]]) -> list[dict[str, object]]:
        """Runs the printed DDL of an advice, takes the indexes away again, and gives what `ddl --json` says."""
        self.files[2].write_text(advice(picks))
        words = ("ddl", str(self.files[0]), str(self.files[2]))
        ran = called(self.server, *words)
        self.assertEqual(ran.returncode, 0, ran.stderr)
        self.assertTrue(ran.stdout.isascii())
        count = "SELECT count(*) FROM pg_index WHERE indisvalid"
        before = int(self.server.value(count, "objects"))
        told = json.loads(called(self.server, *words, "--json").stdout)["picks"]
        done = subprocess.run(
            [str(program("psql")), "-X", "-q", "-v", "ON_ERROR_STOP=1"],
            input=ran.stdout,
            text=True,
            capture_output=True,
            env=self.server.environment("objects"),
            check=False,
            timeout=LONG,
        )
        self.assertEqual(done.returncode, 0, done.stderr)
        more = int(self.server.value(count, "objects")) - before
        self.assertGreaterEqual(more, sum(it["statement"] is not None for it in told))
        drop = (
            "SELECT format('DROP INDEX %I.%I;', n.nspname, c.relname) FROM pg_class c JOIN pg_namespace n ON n.oid = "
            "c.relnamespace WHERE c.relkind IN ('i', 'I') AND NOT c.relispartition AND c.relname = ANY(ARRAY["
        )
        names = re.findall(r'CREATE INDEX (?:CONCURRENTLY )?"([A-Za-z0-9_]+)"', ran.stdout)
        if names:
            listed = ", ".join(f"'{it}'" for it in names)
            self.server.psql(self.server.value(f"{drop}{listed}])", "objects"), "objects")
        self.assertEqual(int(self.server.value(count, "objects")), before)
        return told  # type: ignore[no-any-return]

    def test_there_are_over_60_objects(self) -> None:
        numbers = re.findall(r"^-- (\d+) ", OBJECTS.read_text(), re.MULTILINE)
        self.assertEqual([*map(int, numbers)], [*range(1, len(numbers) + 1)])
        self.assertGreater(len(numbers), 60)

    def test_every_pick_is_made_from_the_printed_ddl(self) -> None:
        picks: list[tuple[str, tuple[str, ...]]] = []
        for table in self.schema.tables.values():
            keys = [it.shown for it in table.columns.values() if not it.no_key][:40]
            picks += [(table.shown, (it,)) for it in keys]
            picks += [(table.shown, tuple(keys[at : at + 3])) for at in range(0, len(keys) - 1, 2)]
            picks += [(table.shown, tuple(keys[:8])), (table.shown, tuple(reversed(keys[-8:])))] if keys else []
        self.assertGreater(len(picks), 200)
        told = self.made([*dict.fromkeys(picks)])
        self.assertEqual([it for it in told if it["statement"] is None], [])

    def test_a_column_is_marked_where_the_server_refuses_it(self) -> None:
        marked = {
            (table.schema, table.name, it.name)
            for table in self.schema.tables.values()
            for it in table.columns.values()
            if it.no_key
        }
        found = json.loads(self.server.psql(REFUSED, "objects").stdout)
        known = {(it.schema, it.name, column) for it in self.schema.tables.values() for column in it.columns}
        refused = {(str(it[0]), str(it[1]), str(it[2])) for it in found} & known
        self.assertEqual(refused - marked, set())
        # What isn't refused as things are may be with the rows of tomorrow.
        allowed = {("public", *it) for it in (("t_holder", "h"), ("t_shrunk", "body"), ("t_together", "a"))}
        self.assertEqual(marked - refused, allowed)

    def test_a_pick_that_cannot_be_made_is_left_out_with_the_reason(self) -> None:
        shown = {it.name: it.shown for it in self.schema.tables.values()}
        picks = [(shown["t_json"], ("id", "doc")), (shown["t_json"], ("no_index_1",)), (shown["t_uuid"], ("other",))]
        told = self.made(picks)
        self.assertEqual(told[0]["left_out"], "no index can have doc: the type json has no order")
        self.assertEqual(told[1]["left_out"], "it has a column that stands for what no index holds")
        self.assertEqual([it["statement"] is None for it in told], [True, True, False])
        text = called(self.server, "ddl", str(self.files[0]), str(self.files[2])).stdout
        self.assertIn("-- left out, no index can have doc: the type json has no order", text)

    def test_no_name_of_an_index_is_taken(self) -> None:
        told = self.made([("clash", ("id",)), ("clash", ("name",))])
        self.assertEqual([it["name"] for it in told], ["clash_id_2_idx", "clash_name_2_idx"])

    def test_an_index_is_made_for_each_table_that_inherits(self) -> None:
        told = self.made([("t_parent", ("kind",)), ("t_parent", ("id",))])
        self.assertEqual(str(told[0]["statement"]).count("CREATE INDEX"), 3)
        # The grandchild has one over id already.
        self.assertEqual(str(told[1]["statement"]).count("CREATE INDEX"), 2)

    def test_rows_of_a_parent_are_those_of_its_children_too(self) -> None:
        rows = {it.name: it.rows for it in self.schema.tables.values()}
        self.assertEqual((rows["t_parent"], rows["t_child"], rows["t_grandchild"]), (950, 900, 600))
        text = self.files[0].read_text()
        self.assertIn("# index 't_parent_id' is left out: not all tables that inherit have its like", text)

    def test_widths_count_what_is_out_of_line(self) -> None:
        widths = {(it.name, c.name): c.width for it in self.schema.tables.values() for c in it.columns.values()}
        for table in ("t_long", "t_external", "t_main", "t_plain", "t_shrunk", "t_target"):
            self.assertEqual(widths[table, "body"], 1000, table)
        self.assertEqual(widths["t_together", "a"], 1000)
        self.assertLess(widths["t_long", "title"], 20)
        self.assertLess(widths["t_limit", "b"], 20)

    def test_indexes_of_another_order_are_told(self) -> None:
        text = self.files[0].read_text()
        for name, why in (
            ("t_orders_down", "is taken to give the order of all its keys upwards, but some of them run the other way"),
            (
                "t_orders_like",
                "is taken to give an order, but it has an operator class of patterns, which serves = alone",
            ),
            ("t_orders_other", "is left out: it is of an operator class or a collation that isn't its column's"),
            ("t_orders_second", "counts up to key 1: the next one's operator class or collation isn't its column's"),
            ("t_included_both", "counts without its columns that no index can have as a key"),
        ):
            with self.subTest(name=name):
                self.assertIn(f"# index '{name}' {why}", text)

    def test_no_statement_makes_a_marked_column_a_key(self) -> None:
        text = self.files[1].read_text()
        self.assertIn("SELECT doc\nFROM t_json\nWHERE doc LIKE ? AND no_index_1 IS NOT NULL", text)
        self.assertIn("SELECT *\nFROM t_json\nORDER BY any_of(doc)", text)
        self.assertIn("UPDATE t_json\nSET doc = ?\nWHERE doc LIKE ? AND no_index_1 IS NOT NULL", text)

    def test_no_candidate_of_the_workload_has_a_marked_column(self) -> None:
        text = self.files[1].read_text()
        tables = {it.shown: [c.shown for c in (*it.columns.values(), *it.spares)] for it in self.schema.tables.values()}
        self.assertGreater(accepted(text, tables), 400)
        by_shown = {it.shown: it for it in self.schema.tables.values()}
        count = 0
        for statement in re.split(r";\n", re.sub(r"^--.*\n", "", text, flags=re.MULTILINE)):
            found = re.search(r"^(?:FROM|UPDATE) (\S+)$", statement, re.MULTILINE)
            if found is None:
                continue
            table = by_shown[found[1]]
            words = set(re.findall(r"\w+", re.sub(r"^SET .*\n", "", statement, flags=re.MULTILINE)))
            marked = {it.shown for it in table.columns.values() if it.no_key} & words
            count += len(marked)
            for name in marked:
                self.assertIsNone(re.search(rf"(?:WHERE|AND) {name} (?:[=<>]|IN|BETWEEN)", statement), statement)
                self.assertIsNone(re.search(rf"(?:GROUP|ORDER) BY (?:[\w, ]+ )?{name}\b", statement), statement)
            if marked and "*" not in statement:
                self.assertGreater(len(words & set(tables[table.shown])), 8, statement)
        self.assertGreater(count, 60)

    @unittest.skipUnless(COPHY.exists(), "the program isn't built")
    def test_every_candidate_is_made_from_the_printed_ddl(self) -> None:
        ran = subprocess.run(
            [str(COPHY), "candidates", *map(str, self.files[:2])],
            capture_output=True,
            text=True,
            check=False,
            timeout=LONG,
        )
        self.assertEqual(ran.returncode, 0, ran.stdout)
        found = answers.read_candidates(ran.stdout)
        self.assertGreater(len(found), 50)
        told = self.made([(it.table, it.columns) for it in found])
        self.assertEqual([it for it in told if it["statement"] is None], [])


if __name__ == "__main__":
    unittest.main()
