"""`cophy-pg health`: what it finds of indexes and foreign keys, and how near its sizes are to the real ones."""
from __future__ import annotations

import json
import math
import subprocess
import unittest
from typing import Any

from cophy_pg.stored import Part, pages
from fixtures import ADVISOR, MISSING, STAND_IN, OverOwn, called
from private_server import has_extension

TABLES = """CREATE TABLE city (id int PRIMARY KEY, name text);
CREATE TABLE people (id int PRIMARY KEY, city int REFERENCES city, boss int REFERENCES people, born date, name text, note text);
INSERT INTO city SELECT i, 'City ' || i FROM generate_series(1, 90) i;
INSERT INTO people SELECT i, 1 + i % 90, i / 2 + 1, date '1950-01-01' + i % 9000, 'Name ' || i % 5000, md5(i::text)
    FROM generate_series(1, 60000) i;
CREATE INDEX people_boss ON people (boss);
CREATE INDEX people_name ON people (name);
CREATE INDEX people_name_again ON people (name);
CREATE INDEX people_name_born ON people (name, born);
CREATE INDEX people_down ON people (name DESC, note);
CREATE INDEX people_some ON people (born) WHERE city = 3;
CREATE INDEX people_some_more ON people (born, note) WHERE city = 4;
CREATE INDEX people_lower ON people (lower(name));
CREATE INDEX people_note ON people (note);
CREATE UNIQUE INDEX people_unique ON people (id, note);
CREATE UNIQUE INDEX people_key ON people (id);
CREATE INDEX "people ""odd" ON people (born);
UPDATE pg_index SET indisvalid = false WHERE indexrelid = '"people ""odd"'::regclass;
CREATE TABLE part (day date, kind int) PARTITION BY RANGE (day);
CREATE TABLE part_1 PARTITION OF part FOR VALUES FROM ('2020-01-01') TO ('2030-01-01');
CREATE INDEX part_day ON part (day); CREATE INDEX part_kind ON part (kind);
INSERT INTO part SELECT date '2021-01-01' + i % 900, i % 7 FROM generate_series(1, 3000) i;
CREATE TABLE part_2 PARTITION OF part FOR VALUES FROM ('2030-01-01') TO ('2040-01-01');
CREATE INDEX part_both ON ONLY part (kind, day); CREATE INDEX part_1_both ON part_1 (kind, day);
ALTER INDEX part_both ATTACH PARTITION part_1_both;
CREATE TABLE letter (id int, city int REFERENCES city, at date) PARTITION BY RANGE (id);
CREATE TABLE letter_1 PARTITION OF letter FOR VALUES FROM (0) TO (9999);
INSERT INTO letter SELECT i, 1 + i % 90, date '2021-01-01' + i % 500 FROM generate_series(1, 3000) i;
CREATE TABLE used AS SELECT i AS a, i % 9 AS b FROM generate_series(1, 3000) i;
CREATE INDEX used_a ON used (a); CREATE INDEX used_ab ON used (a, b);
CREATE TABLE wide AS SELECT i AS a, i % 300 AS b, i::numeric / 7 AS c, md5(i::text) AS d, repeat('y', 1 + i % 30) AS e,
    i::bigint * 7919 % 100003 AS f, i % 2 = 0 AS g FROM generate_series(1, 100000) i;
CREATE INDEX w1 ON wide (a); CREATE INDEX w2 ON wide (b); CREATE INDEX w3 ON wide (c); CREATE INDEX w4 ON wide (d);
CREATE INDEX w5 ON wide (e, a); CREATE INDEX w6 ON wide (f, b); CREATE INDEX w7 ON wide (g); CREATE INDEX w8 ON wide (a) INCLUDE (d);
CREATE INDEX w9 ON wide (b, g);
VACUUM ANALYZE;
"""
KEYS = """CREATE TABLE city (id int, kind int, PRIMARY KEY (id, kind), UNIQUE (id));
INSERT INTO city SELECT i, i % 3 FROM generate_series(1, 90) i;
CREATE TABLE bill (id int, city int REFERENCES city (id), home int REFERENCES city (id), kind int, at date, note text,
    CONSTRAINT bill_both FOREIGN KEY (home, kind) REFERENCES city (id, kind), CONSTRAINT bill_id FOREIGN KEY (id) REFERENCES city (id));
INSERT INTO bill SELECT 1 + i % 90, 1 + i % 90, 1 + i % 90, (1 + i % 90) % 3, date '2021-01-01' + i % 500, md5(i::text)
    FROM generate_series(1, 60000) i;
CREATE INDEX a_city ON bill (city, at, note); CREATE INDEX b_city ON bill (city); CREATE INDEX c_city ON bill (city);
CREATE INDEX a_home ON bill (home); CREATE INDEX b_home ON bill (kind, home, at); CREATE INDEX c_home ON bill (home, kind, at);
CREATE INDEX only_id ON bill (id, note); CREATE INDEX some_id ON bill (id) WHERE at IS NULL; CREATE INDEX a_note ON bill (note);
CREATE TABLE letter (id int, city int REFERENCES city (id), at date) PARTITION BY RANGE (id);
CREATE TABLE letter_1 PARTITION OF letter FOR VALUES FROM (0) TO (9999);
CREATE INDEX letter_city ON letter (city); CREATE INDEX letter_1_city_at ON letter_1 (city, at);
CREATE TABLE note (id int, city int) PARTITION BY RANGE (id);
CREATE TABLE note_1 PARTITION OF note FOR VALUES FROM (0) TO (9999);
CREATE TABLE note_2 PARTITION OF note FOR VALUES FROM (9999) TO (19999);
ALTER TABLE note_1 ADD CONSTRAINT note_1_city FOREIGN KEY (city) REFERENCES city (id);
CREATE INDEX note_city ON note (city); CREATE INDEX note_id ON note (id);
INSERT INTO letter SELECT i, 1 + i % 90 FROM generate_series(1, 3000) i;
INSERT INTO note SELECT id, city FROM letter;
DELETE FROM bill WHERE at > '2021-02-01';
VACUUM ANALYZE;
"""
SCANS = """SET enable_seqscan = off; SET enable_bitmapscan = off;
SELECT count(*) FROM people WHERE boss = 3; SELECT count(*) FROM people WHERE name = 'Name 7' AND born = '1999-01-01';
SELECT count(*) FROM part WHERE day = '2021-05-05';
BEGIN; DROP INDEX used_ab; SELECT count(*) FROM used WHERE a = 7; ROLLBACK;"""


class Stored(unittest.TestCase):
    def test_entries_and_pages(self) -> None:
        four, few = Part(4, 4, 1000000), Part(4, 4, 50)
        # 20,000,000 bytes are 2731 leaves of 7335 less half an entry, and 11 pages and a root stand above them, and one before
        # all. PostgreSQL's own is of 2745.
        self.assertEqual(pages(1000000, [four], True), 1 + 2731 + 11 + 1)
        for parts, entry, above in (
            ([four, four], 20, 250),
            ([four, Part(8, 8, 9)], 28, 250),
            ([Part(9, 1, 9)], 28, 203),
            ([Part(1, 1, 9), four], 20, 250),
        ):
            leaves = math.ceil(1000000 * entry / (7335 - entry / 2))
            self.assertEqual(pages(1000000, parts, False), 1 + leaves + math.ceil(leaves / above) + 1)
        # 50 keys of 20,000 rows each are stored as 7576 of 132.
        self.assertEqual(pages(1000000, [few], True), 1 + 843 + 4 + 1)
        self.assertEqual(pages(1000000, [few], False), 1 + 2731 + 11 + 1)
        # Of rows without a value the key is stored as seldom.
        self.assertEqual(pages(1000000, [Part(4, 4, 1000, 1.0)], True), 1 + 843 + 4 + 1)
        self.assertEqual(pages(1000000, [Part(4, 4, 500000, 0.5)], True), 1 + 1787 + 8 + 1)
        self.assertEqual(pages(0, [four], True), 2)


@unittest.skipIf(MISSING, MISSING)
class Health(OverOwn):
    found: dict[str, Any]
    database, content = "health", TABLES

    @classmethod
    def setUpClass(cls) -> None:
        super().setUpClass()
        # A session tells its counts when it ends.
        cls.server.psql(SCANS, "health")
        cls.server.psql("DELETE FROM people WHERE id > 6000", "health")
        cls.server.psql("VACUUM ANALYZE people", "health")
        cls.found = json.loads(cls.health("--json", status=3).stdout)

    @classmethod
    def health(cls, *words: str, status: int = 0, database: str = "health") -> subprocess.CompletedProcess[str]:
        given = {"PGUSER": "cophy_advisor", "COPHY_PROGRAM": str(STAND_IN)}
        ran = called(cls.server, "health", "--min-size", "0", *words, database=database, **given)
        assert ran.returncode == status, ran.stderr
        return ran

    def reasons(self) -> dict[str, dict[str, str]]:
        return {it["name"]: it["reasons"] for it in self.found["indexes"]}

    def test_each_index_with_its_reasons(self) -> None:
        kinds = {name: {*it} - {"bloated"} for name, it in self.reasons().items() if not name.startswith("w")}
        wanted = {
            'people "odd': {"invalid"},
            "people_name": {"prefix", "unused"},
            "people_name_again": {"duplicate", "unused"},
            "people_down": {"unused"},
            "people_some": {"unused"},
            "people_some_more": {"unused"},
            "people_lower": {"unused"},
            "people_note": {"unused"},
            "people_key": {"duplicate"},
            "part_kind": {"unused"},
            "part_both": {"unattached"},
            "used_ab": {"unused"},
        }
        self.assertEqual({name: it for name, it in kinds.items() if it}, wanted)
        self.assertEqual(
            self.reasons()["people_name"]["prefix"], "its columns are the first ones of 'people_name_born'"
        )
        self.assertEqual(self.reasons()["people_key"]["duplicate"], "the same as 'people_pkey'")
        statements = {it["name"]: it["statement"] for it in self.found["indexes"]}
        self.assertEqual(statements['people "odd'], 'DROP INDEX CONCURRENTLY "public"."people ""odd";')
        self.assertEqual(statements["part_kind"], 'DROP INDEX "public"."part_kind";')
        attached = 'ALTER INDEX "public"."part_both" ATTACH PARTITION INDEX_OF_THE_PARTITION;'
        self.assertEqual(statements["part_both"], attached)

    def test_bloat_is_what_a_fresh_index_has_not(self) -> None:
        bloated = {name for name, it in self.reasons().items() if "bloated" in it}
        self.assertLessEqual({"people_note", "people_unique"}, bloated)
        self.assertFalse([it for it in bloated if it.startswith(("w", "part"))], bloated)
        statements = {it["name"]: it["statement"] for it in self.found["indexes"]}
        self.assertEqual(statements["people_unique"], 'REINDEX INDEX CONCURRENTLY "public"."people_unique";')
        size = self.server.value("SELECT pg_relation_size('people_unique') / 8192", "health")
        self.assertEqual(str(next(it["pages"] for it in self.found["indexes"] if it["name"] == "people_unique")), size)

    def test_sizes_are_near_the_real_ones(self) -> None:
        listed = {
            it["name"]: (it["pages"], it["fresh_pages"]) for it in self.found["indexes"] if it["name"].startswith("w")
        }
        self.assertEqual(len(listed), 9)
        for name, (real, expected) in listed.items():
            with self.subTest(name=name, real=real, expected=expected):
                self.assertLess(0.75 * expected, real)
                self.assertLess(real, 1.3 * expected)

    def test_a_foreign_key_without_an_index(self) -> None:
        statements = {it["name"]: it["statement"] for it in self.found["foreign_keys"]}
        wanted = {
            "people_city_fkey": 'CREATE INDEX CONCURRENTLY ON "public"."people" ("city");',
            "letter_city_fkey": 'CREATE INDEX ON "public"."letter" ("city");',
        }
        self.assertEqual(statements, wanted)

    def test_no_foreign_key_loses_its_last_index(self) -> None:
        self.server.psql("CREATE DATABASE keys")
        self.addCleanup(self.server.psql, "DROP DATABASE keys")
        self.server.psql(KEYS + ADVISOR.read_text(), "keys")
        found = json.loads(self.health("--json", status=3, database="keys").stdout)
        self.assertEqual(found["foreign_keys"], [])
        gone = {it["name"] for it in found["indexes"] if it["may_go"]}
        others = {"some_id", "a_note", "letter_1_city_at", "note_id"}
        self.assertEqual(gone, {"a_city", "c_city", "c_home", *others})
        kept = {it["name"]: it for it in found["indexes"]}["only_id"]
        self.assertEqual({*kept["reasons"]}, {"serves", "bloated"})
        said = "no scan was counted, but of those that stay it alone serves 'bill_id', a foreign key"
        self.assertEqual(kept["reasons"]["serves"], said)
        self.assertIn("REINDEX INDEX", kept["statement"])
        # What it says is done, and there is nothing more to say.
        self.server.psql("\n".join(it["statement"] for it in found["indexes"]), "keys")
        self.assertRegex(self.health(database="keys").stdout, r"^-- of \d+ indexes 0 to look at\n\Z")

    def test_the_text_is_all_comments(self) -> None:
        text = self.health(status=3).stdout
        self.assertTrue(all(it.startswith("--") or not it for it in text.splitlines()), text)
        self.assertTrue(text.isascii())
        self.assertIn('-- DROP INDEX CONCURRENTLY "public"."people_name_again";', text)
        self.assertIn("an index that was just made has no scans yet", text)
        self.assertIn("-- the foreign key 'people_city_fkey' of \"people\" to 'city' has no index:", text)
        self.server.psql(text, "health")

    def test_a_lock_costs_the_index_that_it_is_on(self) -> None:
        with self.held("LOCK TABLE part, wide; REINDEX INDEX w1; DROP INDEX part_kind"):
            ran = self.health("--json", status=3)
        self.assertIn("'public'.'part_kind': 55P03 a lock wasn't given in time", ran.stderr)
        found = {it["name"]: it for it in json.loads(ran.stdout)["indexes"]}
        self.assertIsNone(found["w1"]["pages"])
        self.assertIn("people_name", found)

    def test_small_ones_are_counted_alone(self) -> None:
        words = ("--min-size", "1MB")
        text = self.health(*words, status=3).stdout
        self.assertRegex(text, r"\n-- \d of under 1\.0 MB that no scan was counted of aren't listed\n\Z")
        self.assertNotIn("part_kind", text)
        self.assertIn("people_name_again", text)

    def test_nothing_found_is_status_0(self) -> None:
        self.server.psql("CREATE DATABASE well")
        self.addCleanup(self.server.psql, "DROP DATABASE well")
        self.server.psql("CREATE TABLE t (id int PRIMARY KEY);" + ADVISOR.read_text(), "well")
        self.assertEqual(self.health(database="well").stdout, "-- of 1 indexes 0 to look at\n")

    @unittest.skipUnless(has_extension("hypopg"), "postgresql-15-hypopg isn't installed")
    def test_with_a_folder_the_workload_is_priced_without_each(self) -> None:
        (self.folder / "q.sql").write_text("SELECT id FROM people WHERE name = 'Name 7';\n")
        catalogue, workload, sql = self.in_folder("catalogue.toml", "workload.sql", "q.sql")
        self.call("export", catalogue, workload, "--sql", sql)
        found = json.loads(self.health("--folder", str(self.folder), "--json", status=3).stdout)
        costs = {it["name"]: it["cost"] for it in found["indexes"]}
        self.assertEqual(costs["people_name"], {"before": 900000, "without": 900000})
        self.assertIsNone(costs["people_lower"])
        self.assertIsNone(costs["people_unique"])
        text = (self.folder / "catalogue.toml").read_text()
        self.assertIn('name = "people_name"', text)
        fake = self.lay_program('#!/bin/sh\nn=$(grep -c "table.index" "$2")\necho "total $((90000 - 1000 * n))"\n')
        said = self.health("--folder", str(self.folder), "--program", fake, status=3).stdout
        count = text.count("[[table.index]]")
        self.assertIn(f"--   by our model the workload costs {91 - count} without it, ", said)
        self.assertIn("-- keep it: the workload needs it", said)
        # One that was made since then serves what another one did.
        one = """'"people_name"' "$2" || grep -q '"fresh"'"""
        fake = self.lay_program(f'#!/bin/sh\ngrep -q {one} "$2" && echo total 1000 || echo total 1010\n')
        for statement, cost in (("", 1010), ("CREATE INDEX fresh ON people (name, born, id)", 1000)):
            self.server.psql(statement, "health")
            words = ("--folder", str(self.folder), "--program", fake, "--json")
            listed = json.loads(self.health(*words, status=3).stdout)["indexes"]
            found = {it["name"]: it for it in listed}["people_name"]
            self.assertEqual(found["cost"], {"before": 1000, "without": cost})
            drop = 'DROP INDEX CONCURRENTLY "public"."people_name";'
            self.assertEqual((found["may_go"], found["statement"]), (cost == 1000, drop if cost == 1000 else None))
        self.server.psql("DROP INDEX fresh", "health")


if __name__ == "__main__":
    unittest.main()
