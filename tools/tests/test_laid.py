"""`--may-cluster`, and clustered picks on a server: made, taken back, judged and advised."""
from __future__ import annotations

import json
import re
import shlex
import subprocess
import tomllib
import unittest
from typing import Any

from cophy_text import answers
from fixtures import COPHY, MISSING, NO_HYPOPG, ROOT, STAND_IN, OverOwn
from patience import LONG
from schema_check import faults

if not MISSING:
    from cophy_pg.clustering import permit
    from cophy_pg.inputs import NoInput
    from cophy_pg.schema import Schema
    from cophy_pg.server import connected
    from cophy_pg.statistics import read_database

SCHEMA = json.loads((ROOT / "tools" / "pg" / "cophy_pg" / "advice.schema.json").read_text())
ROWS = "SELECT i AS id, i * 7919 % 9000 AS c, i % 9 AS n, repeat('x', 90) AS pad FROM generate_series(1, 9000) i"
# A name that ends statements, comments, texts and formats, where one isn't written as it has to be.
ODD = "o%s \"'; DROP TABLE keep; --\n\\!%d :brief"
QUOTED = '"' + ODD.replace('"', '""') + '"'
TABLES = f"""CREATE TABLE keep (a int);
CREATE TABLE mixed AS {ROWS}; CREATE INDEX mixed_n ON mixed (n);
CREATE TABLE came AS {ROWS}; ALTER TABLE came ADD PRIMARY KEY (id);
CREATE TABLE laid AS {ROWS}; CREATE INDEX laid_c ON laid (c); CREATE INDEX laid_z ON laid (c, id); CLUSTER laid USING laid_z;
CREATE TABLE down AS {ROWS}; CREATE INDEX down_c ON down (c DESC); CLUSTER down USING down_c;
CREATE TABLE strayed AS {ROWS}; CREATE INDEX strayed_c ON strayed (c); ALTER TABLE strayed CLUSTER ON strayed_c;
CREATE TABLE ranges (r int4range); CREATE INDEX ranges_r ON ranges USING gist (r); CLUSTER ranges USING ranges_r;
CREATE TABLE parted (a int) PARTITION BY RANGE (a); CREATE TABLE part PARTITION OF parted FOR VALUES FROM (0) TO (9);
CREATE TABLE parent (a int); CREATE TABLE child () INHERITS (parent);
CREATE VIEW seen AS SELECT id FROM mixed; CREATE TABLE bare ();
CREATE SCHEMA one; CREATE SCHEMA two; CREATE TABLE one.same (a int); CREATE TABLE two.same (a int); CREATE TABLE one."a.b" (a int);
CREATE SCHEMA {QUOTED}; CREATE TABLE {QUOTED}.{QUOTED} AS SELECT id, c AS {QUOTED}, n FROM mixed;
CREATE INDEX "i{QUOTED[1:]} ON {QUOTED}.{QUOTED} (n);
ANALYZE;
CREATE TABLE unknown AS {ROWS}; CREATE INDEX unknown_c ON unknown (c); CLUSTER unknown USING unknown_c;
"""
QUERIES = """SELECT pad FROM mixed WHERE c BETWEEN 5 AND 900;
SELECT id FROM laid WHERE c = 3;
"""
LIES = "SELECT correlation FROM pg_stats WHERE tablename = '{}' AND attname = '{}'"


@unittest.skipIf(MISSING, MISSING)
class OverTables(OverOwn):
    """Tests over a database with tables in and out of order."""

    database, content, given = "laid", TABLES, {"COPHY_PROGRAM": str(STAND_IN)}

    def setUp(self) -> None:
        super().setUp()
        self.files = self.in_folder("c.toml", "l.sql", "advice", "q.sql")
        (self.folder / "q.sql").write_text(QUERIES)

    def export(self, *more: str, status: int = 0) -> str:
        return self.call("export", *self.files[:2], "--sql", self.files[3], *more, status=status).stderr

    def tables(self) -> dict[str, dict[str, Any]]:
        return {it["name"]: it for it in tomllib.loads((self.folder / "c.toml").read_text())["table"]}

    def script(self, *picks: str) -> str:
        """The script that makes picks."""
        return self.call("ddl", self.files[0], self.lay_advice(picks), "--script").stdout

    def indexes(self, table: str) -> list[str]:
        """The indexes of a table, that which clusters it with a star."""
        query = f"""SELECT indexrelid::regclass || CASE WHEN indisclustered THEN '*' ELSE '' END FROM pg_index
            WHERE indrelid = '{table}'::regclass ORDER BY 1"""
        return self.server.value(query, "laid").splitlines()


class Permitted(OverTables):
    """`export --may-cluster`."""

    def permitted(self, *names: str) -> tuple[Schema, list[str]]:
        """The tables as they are read, of which these may be laid anew, and what is warned of."""
        with connected(f"host={self.server.folder} user=cophy_advisor dbname=laid") as server:
            found = read_database(server, set(), set(), lambda text: None)
        return found.schema, permit(found.schema, names)

    def may(self, *names: str) -> list[str]:
        """The tables that may be laid anew."""
        schema, told = self.permitted(*names)
        self.assertEqual(told, [])
        return [".".join(key) for key, it in schema.tables.items() if it.may_cluster]

    def test_a_table_is_named_with_its_schema_or_without(self) -> None:
        self.assertEqual(self.may(), [])
        for name, table in (
            ("mixed", "public.mixed"),
            ("public.mixed", "public.mixed"),
            ("one.same", "one.same"),
            ("a.b", "one.a.b"),
            ("one.a.b", "one.a.b"),
            ("child", "public.child"),
            (ODD, f"{ODD}.{ODD}"),
        ):
            with self.subTest(name=name):
                self.assertEqual(self.may(name), [table])
        self.assertEqual(self.may("mixed", "one.same", "public.mixed"), ["public.mixed", "one.same"])

    def test_what_cannot_be_laid_anew_is_refused_with_its_name(self) -> None:
        for name, why in (
            ("nothing", "no such table is exported"),
            ("Mixed", "no such table is exported"),
            ("two.mixed", "no such table is exported"),
            ("same", "is the name of 2 tables: name its schema too"),
            ("parted", "it has partitions"),
            ("part", "it is a partition of 'public.parted'"),
            ("parent", "others inherit from it"),
            ("seen", "it isn't exported: it is a view"),
            ("bare", "it isn't exported: it has no column"),
            ("x\x1b[2J\n", "no such table is exported"),
        ):
            with self.subTest(name=name), self.assertRaises(NoInput) as raised:
                self.permitted("mixed", name)
            self.assertRegex(str(raised.exception), re.escape(f"--may-cluster: {name!a}") + ".*" + re.escape(why))

    def test_a_clustered_table_stays_so_and_is_told(self) -> None:
        indexes = {it: f"{it}_c" for it in ("down", "strayed", "unknown")} | {"laid": "laid_z", "ranges": "ranges_r"}
        schema, told = self.permitted(*indexes)
        for (name, index), text in zip(indexes.items(), told, strict=True):
            self.assertIn(f"--may-cluster changes nothing for {name}, which is clustered by '{index}'", text)
            self.assertFalse(schema.tables["public", name].may_cluster)

    def test_the_catalogue_says_it_where_it_is_asked_for_alone(self) -> None:
        self.export()
        self.assertNotIn("may_cluster", (self.folder / "c.toml").read_text())
        self.assertNotIn("may-cluster", self.export("--may-cluster", "public.mixed"))
        self.assertEqual([it for it, table in self.tables().items() if "may_cluster" in table], ["mixed"])
        self.assertEqual(tomllib.loads((self.folder / "c.toml").read_text())["version"], 2)
        before = (self.folder / "c.toml").read_bytes()
        self.assertIn("--may-cluster: 'part': it is a partition", self.export("--may-cluster", "part", status=1))
        self.assertEqual((self.folder / "c.toml").read_bytes(), before)

    def test_the_order_of_a_clustered_table_is_that_of_its_index(self) -> None:
        self.export()
        clustered = {
            name: [it["name"] for it in table.get("index", ()) if it.get("clustered")]
            for name, table in self.tables().items()
        }
        found = {it: clustered[it] for it in ("mixed", "came", "laid", "down", "strayed", "unknown")}
        wanted = {"mixed": [], "came": ["came_pkey"], "laid": ["laid_z"], "down": ["down_c"], "strayed": []}
        self.assertEqual(found, wanted | {"unknown": ["unknown_c"]})
        text = (self.folder / "c.toml").read_text()
        self.assertIn(
            "# index 'strayed_c' clusters the table, but by the last ANALYZE rows don't lie in its order\n", text
        )
        self.assertEqual(text.count(" clusters the table"), 1)

    def test_an_order_that_rows_came_in_is_given_up_and_told(self) -> None:
        said = self.export("--may-cluster", "came")
        self.assertIn("the rows of came lie in the order of 'came_pkey', and --may-cluster gives that up", said)
        table = self.tables()["came"]
        self.assertTrue(table["may_cluster"])
        self.assertEqual(
            table["index"], [{"name": "came_pkey", "keys": ["id"], "unique": True, "postgres_ordered": True}]
        )
        self.assertIn("# index 'came_pkey' counts as not clustered", (self.folder / "c.toml").read_text())
        self.assertNotIn("CLUSTER", self.script("came(id) clustered"))


class Made(OverTables):
    """`ddl --script`, run by psql."""

    def setUp(self) -> None:
        super().setUp()
        self.export("--may-cluster", "mixed", "--may-cluster", ODD)

    def test_it_is_made_once_and_taken_back(self) -> None:
        text = self.script("mixed(id)", "mixed(c) clustered")
        said = self.run_script(text)
        self.assertRegex(said, r"(?s)2: mixed\(c\) clustered, about .*1: mixed\(id\), about ")
        self.assertRegex(
            said,
            r"readers too \(ACCESS EXCLUSIVE\), while it is written anew: 1\d\d pages \(1\.\d MB\) and its indexes, about 1 ",
        )
        self.assertEqual(self.indexes("mixed"), ["mixed_c_idx*", "mixed_id_idx", "mixed_n"])
        self.assertEqual(self.server.value(LIES.format("mixed", "c"), "laid"), "1")
        said = self.run_script(text)
        self.assertEqual((said.count("it is there already"), said.count("clustered by it already")), (2, 1))
        self.assertNotIn("ACCESS EXCLUSIVE", said)
        said = self.export("--may-cluster", "mixed")
        self.assertIn("changes nothing for mixed, which is clustered by 'mixed_c_idx'", said)
        clustered = [it["name"] for it in self.tables()["mixed"]["index"] if it.get("clustered")]
        self.assertEqual(clustered, ["mixed_c_idx"])
        found = json.loads(self.call("health", "--min-size", "0", "--json", status=3).stdout)["indexes"]
        self.assertNotIn("mixed_c_idx", [it["name"] for it in found])
        self.assertIn("the rows of mixed stay as they lie", self.run_script(text, "-v", "undo=1"))
        self.assertEqual(self.indexes("mixed"), ["mixed_n"])
        self.assertNotIn("stay as they lie", self.run_script(text, "-v", "undo=1"))
        self.server.psql(f"TRUNCATE mixed; INSERT INTO mixed {ROWS}; ANALYZE mixed", "laid")

    def test_by_an_index_that_is_there(self) -> None:
        text = self.script("mixed(n) clustered")
        self.run_script(text)
        self.assertEqual(self.indexes("mixed"), ["mixed_n*"])
        self.assertIn("clustered by it already", self.run_script(text))
        self.run_script(text, "-v", "undo=1")
        self.assertEqual(self.indexes("mixed"), ["mixed_n"])
        self.server.psql(
            f"TRUNCATE mixed; INSERT INTO mixed {ROWS}; ANALYZE mixed; ALTER INDEX mixed_n RENAME TO gone", "laid"
        )
        self.addCleanup(self.server.psql, "ALTER INDEX gone RENAME TO mixed_n", "laid")
        said = self.run_script(text, status=3)
        self.assertIn("the index mixed(n) clustered does not cluster its table yet", said)

    def test_a_lock_of_others_ends_it_soon_and_is_told(self) -> None:
        text = self.script("mixed(c) clustered").replace("'5s'", "'300ms'")
        with self.held("LOCK TABLE mixed IN ACCESS SHARE MODE"):
            said = self.run_script(text, status=3)
        self.assertIn("canceling statement due to lock timeout", said)
        self.assertIn("the index mixed(c) clustered does not cluster its table yet: run the script again", said)
        self.assertEqual(self.indexes("mixed"), ["mixed_c_idx", "mixed_n"])
        self.run_script(text, "-v", "undo=1")
        self.assertEqual(self.indexes("mixed"), ["mixed_n"])

    def test_odd_names_do_nothing(self) -> None:
        table = next(it for it in self.tables().values() if it.get("may_cluster") and it["name"] != "mixed")
        odd = table["column"][1]["name"]
        for column in (odd, "n"):
            with self.subTest(column=column):
                text = self.script(f"{table['name']}({column}) clustered")
                plain = self.call("ddl", self.files[0], self.files[2]).stdout
                self.run_script(text)
                clusters = f"SELECT count(*) FROM pg_index WHERE indisclustered AND indrelid = $q${QUOTED}.{QUOTED}$q$::regclass"
                self.assertEqual(self.server.value(clusters, "laid"), "1")
                self.run_script(text, "-v", "undo=1")
                self.assertEqual(self.server.value(clusters, "laid"), "0")
                numbers = f"SELECT array_agg(indexrelid::oid) FROM pg_index WHERE indrelid = $q${QUOTED}.{QUOTED}$q$::regclass"
                before = self.server.value(numbers, "laid")
                self.server.psql(plain, "laid")
                self.assertEqual(self.server.value(clusters, "laid"), "1")
                self.run_script(text, "-v", "undo=1")
                self.assertEqual(self.server.value(clusters, "laid"), "0")
                # What the script didn't make stays.
                drop = numbers.replace("array_agg(indexrelid::oid)", "format('DROP INDEX %s', indexrelid::regclass)")
                self.server.psql(f"{drop} AND indexrelid <> ALL ('{before}'::oid[]) \\gexec", "laid")
        self.assertEqual(self.server.value("SELECT count(*) FROM keep", "laid"), "0")
        count = f"SELECT count(*) FROM pg_index WHERE indrelid = $q${QUOTED}.{QUOTED}$q$::regclass"
        self.assertEqual(self.server.value(count, "laid"), "1")

    def test_a_superuser_lays_no_table_of_others(self) -> None:
        text = self.script("mixed(n) clustered")
        self.server.psql("CREATE ROLE stranger; ALTER TABLE mixed OWNER TO stranger", "laid")
        self.addCleanup(self.server.psql, "ALTER TABLE mixed OWNER TO cophy; DROP ROLE stranger", "laid")
        self.assertIn("let their owner run the script, not a superuser", self.run_script(text, status=3))
        self.assertEqual(self.indexes("mixed"), ["mixed_n"])


@unittest.skipIf(NO_HYPOPG, NO_HYPOPG)
class Judged(OverTables):
    """`verify` and `advise`, which ask the planner about an ordinary index."""

    def verify(self, picks: list[str], *more: str) -> dict[str, dict[str, Any]]:
        self.script(*picks)
        words = ("verify", *self.files[:3], "--sql", self.files[3], "--program", str(STAND_IN), *more)
        self.said = self.call(*words).stdout
        return {it["index"]: it for it in json.loads(self.call(*words, "--json").stdout)["picks"]}

    def test_what_no_plan_takes_is_not_known(self) -> None:
        (self.folder / "q.sql").write_text("SELECT pad FROM mixed WHERE c = 5;\nSELECT id FROM came WHERE n < 5;\n")
        self.export("--may-cluster", "mixed", "--may-cluster", "came")
        picks = ["mixed(c) clustered", "came(n) clustered", "mixed(pad) clustered", "came(id) clustered", "mixed(id)"]
        found = self.verify(picks, "--rules", *self.in_folder("never"), "--advice", *self.in_folder("kept"))
        names = [found[it]["outcome"] for it in picks]
        self.assertEqual(names, ["taken", "unknown", "unknown", "unknown", "not taken"])
        self.assertEqual(found["came(n) clustered"]["reasons"], {"no plan takes it as an ordinary index": ""})
        self.assertEqual(found["came(id) clustered"]["exists"], "'public'.'came_pkey'")
        self.assertEqual((self.folder / "never").read_text(), "never mixed(id)\n")
        kept = answers.read_advice((self.folder / "kept").read_text()).picks
        self.assertEqual([it.shown() for it in kept], picks[:3])
        self.assertIn("note", found["mixed(c) clustered"])
        self.assertIn("pick 1 mixed(c) clustered: taken by 1 statement, as an ordinary index\n", self.said)
        self.assertIn("pick 2 came(n) clustered: unknown\n", self.said)
        self.assertEqual(self.said.count("the server is asked about a clustered pick as about an ordinary index\n"), 1)

    def test_an_index_that_is_there_is_the_pick_where_it_clusters_the_table(self) -> None:
        self.export("--may-cluster", "mixed")
        self.server.psql("CREATE INDEX mixed_c ON mixed (c)", "laid")
        self.addCleanup(self.server.psql, "DROP INDEX mixed_c", "laid")
        found = self.verify(["mixed(c) clustered"])["mixed(c) clustered"]
        why = "its index is there, as 'public'.'mixed_c', and plans don't show its order"
        self.assertEqual((found["exists"], found["outcome"], found["reasons"]), (None, "unknown", {why: ""}))
        self.server.psql("ALTER TABLE mixed CLUSTER ON mixed_c", "laid")
        found = self.verify(["mixed(c) clustered"])["mixed(c) clustered"]
        self.assertEqual(found["exists"], "'public'.'mixed_c'")

    def advise(
        self, folder: str, *more: str, budget: str = "20MB", status: int = 0, **environment: str
    ) -> dict[str, Any]:
        words = ("advise", "--sql", self.files[3], "--budget", budget, "--folder", *self.in_folder(folder), "--json")
        found: dict[str, Any] = json.loads(self.call(*words, *more, status=status, **environment).stdout)
        self.assertEqual([*faults(found, SCHEMA, SCHEMA)], [])
        return found

    def test_advice_says_what_the_order_asks_for(self) -> None:
        (self.folder / "q.sql").write_text("SELECT pad FROM mixed WHERE c BETWEEN 5 AND 8;\n")
        found = self.advise("old", "--may-cluster", "public.mixed")
        self.assertEqual(found["options"]["may_cluster"], ["public.mixed"])
        pick = next(it for it in found["picks"] if it["columns"] == ["c"])
        self.assertEqual((pick["clustered"], pick["outcome"], pick["name"]), (True, "taken", "mixed_c_idx"))
        self.assertEqual([it.split()[0] for it in pick["statements"]], ["CREATE", "CLUSTER", "ANALYZE"])
        old = self.folder / "old"
        summary = (old / "details.txt").read_text()
        self.assertIn('\n   CLUSTER "public"."mixed" USING "mixed_c_idx";\n   ANALYZE "public"."mixed";\n', summary)
        for note in ("   CLUSTER locks the table against all others", "   hypopg shows no rows in another order"):
            self.assertIn(note, summary)
        if (old / "report.html").exists():
            self.assertIn("mixed(c) clustered</h3>", (old / "report.html").read_text())
        self.assertIn(
            "pick 1 mixed(c) clustered ", (old / "kept.txt").read_text().replace(f"pick {pick['number']}", "pick 1")
        )
        self.assertIn("mixed(c) clustered", json.loads((old / "curve.json").read_text())[-1]["picks"])
        steps = [shlex.split(it) for it in (old / "commands.txt").read_text().splitlines() if it.startswith("cophy-pg")]
        at = steps[0].index("--may-cluster")
        self.assertEqual(steps[0][at : at + 2], ["--may-cluster", "public.mixed"])
        self.call(*steps[0][1:])
        self.assertIn("may_cluster = true", (old / "catalogue.toml").read_text())
        text = (old / "indexes.sql").read_text()
        self.run_script(text)
        self.addCleanup(self.server.psql, f"TRUNCATE mixed; INSERT INTO mixed {ROWS}; ANALYZE mixed", "laid")
        self.addCleanup(self.run_script, text, "-v", "undo=1")
        new = self.advise("new", "--may-cluster", "public.mixed", status=3)
        self.assertIn("--may-cluster changes nothing for mixed", "\n".join(new["warnings"]))
        self.assertEqual([it for it in new["picks"] if it["clustered"]], [])
        ran = self.call("changes", *self.in_folder("old", "new"), status=0)
        self.assertRegex(ran.stdout, r"made since mixed\(c\) clustered, ")

    @unittest.skipUnless(COPHY.exists(), "the program isn't built")
    def test_with_the_program_itself(self) -> None:
        (self.folder / "q.sql").write_text(QUERIES)
        self.export("--may-cluster", "mixed")
        words = [str(COPHY), "candidates", *self.files[:2]]
        listed = subprocess.run(words, capture_output=True, text=True, check=True, timeout=LONG).stdout
        if " clustered " not in listed:
            raise unittest.SkipTest("the program proposes no clustered candidates yet")
        self.assertIn("mixed(c) clustered", [it.shown() for it in answers.read_candidates(listed)])
        # An index that covers the statement takes more than this.
        found = self.advise("found", "--may-cluster", "mixed", budget="320kB", COPHY_PROGRAM=str(COPHY))
        self.assertIn(("mixed", ["c"], True), [(it["table"], it["columns"], it["clustered"]) for it in found["picks"]])
        self.assertTrue(found["proved"].startswith("proved cost "))
        text = (self.folder / "found" / "indexes.sql").read_text()
        query = "EXPLAIN (FORMAT JSON) SELECT pad FROM mixed WHERE c BETWEEN 5 AND 900"
        before = json.loads(self.server.value(query, "laid"))[0]["Plan"]["Total Cost"]
        self.run_script(text)
        self.addCleanup(self.server.psql, f"TRUNCATE mixed; INSERT INTO mixed {ROWS}; ANALYZE mixed", "laid")
        self.addCleanup(self.run_script, text, "-v", "undo=1")
        self.assertLess(json.loads(self.server.value(query, "laid"))[0]["Plan"]["Total Cost"], before / 2)


if __name__ == "__main__":
    unittest.main()
