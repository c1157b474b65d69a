"""Histograms of an export: beside PostgreSQL's own estimates, in the catalogue, and in what ranges of parameters become.

`run test_bounds.Ranges` prints the table of ranges where COPHY_TABLE is set.
"""
from __future__ import annotations

import json
import os
import random
import re
import subprocess
import tempfile
import tomllib
import unittest
from datetime import date
from pathlib import Path
from typing import Any

from cophy_text.answers import read_prices
from fixtures import COPHY, MISSING, called, shop
from private_server import PrivateServer

# By column: how its values are made of g, which goes from 1 to 60000, and a number r between 0 and 1.
COLUMNS = {
    "zipf": ("int", "floor(1 / (r + 0.0001))"),
    "small": ("int", "floor(exp(7 * r))"),
    "heap": ("int", "CASE WHEN g % 2 = 0 THEN 0 ELSE 1000 + g END"),
    "two": ("bigint", "CASE WHEN g % 3 = 0 THEN 10 * g ELSE 4000000000 + 3 * g END"),
    "gauss": ("numeric", "round((500 * (r + random() + random() + random()))::numeric, 2)"),
    "late": ("date", "date '2024-12-31' - floor(5000 * r * r * r)::int"),
    "hours": (
        "timestamptz",
        "timestamptz '2024-12-31' - floor(4000 * r * r)::int * interval '1 day' - interval '90 minutes'",
    ),
    "gaps": ("smallint", "CASE WHEN r < 0.1 THEN NULL ELSE floor(20 * r)::int * floor(20 * r)::int END"),
}
# By column: the ends of the ranges, as parts of the column's values.
PARTS = [(None, 0.3), (0.8, None), (0.05, 0.25), (0.4, 0.7), (0.9, 0.97)]


class Bounds(unittest.TestCase):
    def test_ends_by_hand(self) -> None:
        from cophy_pg.bounds import bounds_of

        table: list[tuple[list[tuple[float, float]], list[float], float, int, list[int]]] = [
            ([], [0, 10, 20, 1000], 1.0, 256, [0, 10, 20, 1000]),
            ([], [0, 10, 20, 30, 1000], 1.0, 2, [0, 20, 1000]),
            ([], [0, 0, 10], 1.0, 256, [-1, 0, 10]),
            ([(5, 1.0)], [], 0.0, 4, [4, 5, 5, 5, 5]),
            ([(0, 0.5)], [10, 20], 0.5, 4, [-1, 0, 0, 15, 20]),
            ([(15, 0.5)], [10, 20], 0.5, 4, [10, 15, 15, 15, 20]),
            ([(100, 0.25), (0, 0.25)], [10, 20], 0.5, 4, [-1, 0, 15, 20, 100]),
            ([(2.5, 0.5), (7, 0.5)], [], 0.0, 2, [2, 3, 7]),
            ([(10, 0.5)], [10, 20, 30], 0.5, 4, [9, 10, 10, 20, 30]),
            ([], [], 0.0, 4, []),
            ([], [3], 1.0, 4, []),
        ]
        for common, histogram, rest, parts, wanted in table:
            with self.subTest(common=common, histogram=histogram):
                self.assertEqual(bounds_of(common, histogram, rest, parts), wanted)

    def test_shares_by_hand(self) -> None:
        from cophy_pg.bounds import share

        for bounds, value, wanted in (
            ([0, 0, 0, 10], 0, 0.0),
            ([0, 0, 0, 10], 5, 2.5 / 3),
            ([0, 10, 20, 1000], 15, 0.5),
            ([0, 10, 20, 1000], -1, 0.0),
            ([0, 10, 20, 1000], 1000, 1.0),
            ([4, 5, 5], 5, 1.0),
        ):
            self.assertAlmostEqual(share(bounds, value), wanted)

    def test_a_narrow_range_goes_by_share(self) -> None:
        from cophy_pg.bounds import narrow, share

        for bounds in (
            [0, 1000000],
            [0, 10, 20, 1000],
            [-1, *[0] * 128, *range(1000, 129000, 1000)],
            [0, 0, *range(1, 101)],
        ):
            found = narrow(bounds, 0.005)
            assert found is not None
            part = share(bounds, found[1]) - share(bounds, found[0])
            self.assertTrue(0.0025 <= part <= 0.0101, (found, part))
        self.assertEqual(narrow([0, 1000000], 0.005), (0, 5000))
        # Three values: no range keeps half a percent.
        self.assertIsNone(narrow([0, 1, 1, 2, 3], 0.005))

    def test_ends_rise_whatever_is_merged(self) -> None:
        from cophy_pg.bounds import bounds_of

        drawn = random.Random(5)
        for _ in range(500):
            values = [
                drawn.choice([drawn.randrange(-50, 50), drawn.uniform(-9, 9), drawn.randrange(10**18)])
                for _ in range(60)
            ]
            common = [(it, drawn.random() / 40) for it in drawn.sample(values, drawn.randrange(30))]
            histogram = sorted(drawn.sample(values, drawn.randrange(2, 30)))
            parts = drawn.choice([2, 7, 256])
            ends = bounds_of(common, histogram, 0.4, parts)
            self.assertEqual(ends, sorted(ends))
            self.assertTrue(2 <= len(ends) <= 257)
            every = [it for it, _ in common] + histogram
            self.assertLessEqual(ends[0], min(every))
            self.assertGreaterEqual(ends[-1], max(histogram) - 1)

    def test_a_catalogue_is_read_back(self) -> None:
        from cophy_pg.catalogue import NoCatalogue, catalogue_text, read_schema
        from cophy_pg.schema import Column, Schema, Table

        columns = [Column("i", "i", "int", bounds=[-1, 0, 0, 7]), Column("d", "d", "date", bounds=[0, 365])]
        table = Table("public", "t", "t", 5, 1, {it.name: it for it in columns})
        text = catalogue_text(Schema([table]), {}, [])
        self.assertIn("bounds = [-1, 0, 0, 7]\n", text)
        self.assertIn('bounds = ["1970-01-01", "1971-01-01"]\n', text)
        read = read_schema(text.encode()).tables["public", "t"].columns
        self.assertEqual([it.bounds for it in read.values()], [[-1, 0, 0, 7], [0, 365]])
        old = text.replace("version = 2", "version = 1")
        self.assertEqual(
            [it.bounds for it in read_schema(old.encode()).tables["public", "t"].columns.values()], [[], []]
        )
        for bad in ("[]", "[1]", "[2, 1]", '["x", 1]', "5", "[true, false]", str([*range(258)])):
            with self.subTest(bad=bad), self.assertRaises(NoCatalogue):
                read_schema(text.replace("[-1, 0, 0, 7]", bad).encode())

    @unittest.skipUnless(os.access(COPHY, os.X_OK), "the program isn't built")
    def test_the_program_counts_as_many_rows(self) -> None:
        from cophy_pg.bounds import share
        from cophy_pg.catalogue import catalogue_text
        from cophy_pg.rewrite import Rewriter
        from cophy_pg.schema import Column, Schema, Table

        bounds = [-1, 0, 0, 0, 7, 7, 40, 1000, 1001]
        column = Column("c", "c", "int", 4, 900, -1, 1001, "int4", bounds=bounds)
        known = Schema([Table("public", "t", "t", 80000, 500, {"c": column})])
        # Where hashing alone is cheap and has a price, a statement that groups costs twice its rows.
        rates = dict.fromkeys(("seq_page", "rand_page", "row_cpu"), 0) | {"hash_cpu": 1}
        dear = dict.fromkeys(("sort_cpu", "merge_cpu", "group_cpu"), 1000000)
        wheres = [
            *((f"c {it} {at}", it, at) for it in ("<", "<=", ">", ">=") for at in (0, 1, 7, 8, 41, 999, 1000)),
            *((f"c BETWEEN {at} AND {at + 7}", "BETWEEN", at) for at in (0, 1, 7, 33, 993)),
        ]
        with tempfile.TemporaryDirectory() as folder:
            files = [Path(folder) / it for it in ("catalogue.toml", "workload.sql")]
            files[0].write_text(catalogue_text(known, rates | dear, []))
            written = (Rewriter(known).rewrite(f"SELECT c FROM t WHERE {it[0]} GROUP BY c") for it in wheres)
            files[1].write_text("".join(f"{it.statements[0]};\n" for it in written))
            ran = subprocess.run([COPHY, "cost", *files], capture_output=True, text=True, check=True, timeout=900)
        rows = [it.cost / 2 for it in read_prices(ran.stdout).statements.values()]
        for (where, operator, at), found in zip(wheres, rows, strict=True):
            below, upto = share(bounds, at - 1), share(bounds, at)
            part = {"<": below, "<=": upto, ">": 1 - upto, ">=": 1 - below, "BETWEEN": share(bounds, at + 7) - below}
            with self.subTest(where=where):
                self.assertAlmostEqual(found, 80000 * part[operator], delta=1.01)

    def test_a_catalogue_of_many_columns_is_not_too_long(self) -> None:
        from cophy_pg.bounds import BYTES_OF_END, MOST_BYTES, parts_for

        self.assertEqual((parts_for(0), parts_for(100)), (256, 256))
        for count in (1000, 5000, 40000):
            self.assertLessEqual(count * parts_for(count) * BYTES_OF_END, MOST_BYTES)


@unittest.skipIf(MISSING, MISSING)
class Ranges(unittest.TestCase):
    """Forty ranges over skewed columns, with each pair of operators, by our shares and by PostgreSQL."""

    server: PrivateServer
    document: dict[str, Any]
    schema: Any
    workload: str

    @classmethod
    def setUpClass(cls) -> None:
        from cophy_pg.catalogue import read_schema

        cls.server = shop()
        cls.server.psql("DROP DATABASE IF EXISTS skewed; CREATE DATABASE skewed")
        listed = ", ".join(f"{name} {kind}" for name, (kind, _) in COLUMNS.items())
        made = ", ".join(f"({value})::{kind}" for kind, value in COLUMNS.values())
        cls.server.psql(
            f"CREATE TABLE skewed ({listed}); SELECT setseed(0.5);"
            f"INSERT INTO skewed SELECT {made} FROM (SELECT g, random() r FROM generate_series(1, 60000) g OFFSET 0) x;"
            "ANALYZE",
            "skewed",
        )
        with tempfile.TemporaryDirectory() as name:
            files = [str(Path(name) / it) for it in ("catalogue.toml", "workload.sql", "given.sql")]
            given = [f"SELECT {it} FROM skewed WHERE {it} BETWEEN $1 AND $2;\n" for it in COLUMNS]
            Path(files[2]).write_text("".join(given))
            ran = called(cls.server, "export", *files[:2], "--sql", files[2], database="skewed")
            assert ran.returncode == 0, ran.stderr
            cls.document = tomllib.loads(Path(files[0]).read_text())
            cls.schema = read_schema(Path(files[0]).read_bytes())
            cls.workload = Path(files[1]).read_text()

    def bounds(self, name: str) -> list[int]:
        column = next(it for it in self.document["table"][0]["column"] if it["name"] == name)
        return [self.number(it) for it in column["bounds"]]

    @staticmethod
    def number(end: object) -> int:
        return (date.fromisoformat(end) - date(1970, 1, 1)).days if isinstance(end, str) else int(str(end))

    def planned(self, where: str) -> int:
        found = json.loads(self.server.value(f"EXPLAIN (FORMAT JSON) SELECT * FROM skewed WHERE {where}", "skewed"))
        return int(found[0]["Plan"]["Plan Rows"])

    def ends(self, name: str) -> list[tuple[str | None, str | None]]:
        """The ranges of a column, as literals."""
        found = []
        for parts in PARTS:
            asked = [
                self.server.value(
                    f"SELECT percentile_disc({it}) WITHIN GROUP (ORDER BY {name})"
                    + ("::date" if COLUMNS[name][0] in ("date", "timestamptz") else "::bigint")
                    + " FROM skewed",
                    "skewed",
                )
                if it is not None
                else None
                for it in parts
            ]
            found.append((asked[0], asked[1]))
        return found

    def wheres(self, low_operator: str, high_operator: str) -> list[tuple[str, str]]:
        """The columns of the ranges, each with the condition."""
        found = []
        for name in COLUMNS:
            is_date = COLUMNS[name][0] in ("date", "timestamptz")
            for ends in self.ends(name):
                low, high = (None if it is None else f"DATE '{it}'" if is_date else it for it in ends)
                if low_operator == "BETWEEN" and low is not None and high is not None:
                    found.append((name, f"{name} BETWEEN {low} AND {high}"))
                    continue
                operators = (">=", "<=") if low_operator == "BETWEEN" else (low_operator, high_operator)
                pairs = zip(operators, (low, high), strict=True)
                found.append((name, " AND ".join(f"{name} {it} {end}" for it, end in pairs if end is not None)))
        return found

    def rows(self, name: str, where: str) -> int:
        """The rows of a range by the catalogue and by what is written for it."""
        from cophy_pg.bounds import share
        from cophy_pg.rewrite import Rewriter

        written = Rewriter(self.schema).rewrite(f"SELECT {name} FROM skewed WHERE {where}").statements[0]
        found = re.search(
            rf"WHERE {name} (>|<=|BETWEEN) (?:DATE ')?([\d-]+)'?(?: AND (?:DATE ')?([\d-]+)'?)?\Z", written
        )
        assert found is not None, written
        shares = [
            share(self.bounds(name), self.number(it if "DATE" in written else int(it)))
            for it in found.groups()[1:]
            if it
        ]
        part = {">": 1.0 - shares[0], "<=": shares[0], "BETWEEN": shares[-1] - shares[0]}[found[1]]
        return max(1, round(60000 * max(part, 1e-9)))

    def test_forty_ranges_with_each_pair_of_operators(self) -> None:
        lines, near = [], dict[str, int]()
        for operators in ((">", "<="), (">=", "<"), ("BETWEEN", "")):
            for name, where in self.wheres(*operators):
                ours, theirs = self.rows(name, where), self.planned(where)
                ratio = ours / theirs
                near[operators[0]] = near.get(operators[0], 0) + (1 / 1.5 <= ratio <= 1.5)
                lines.append(f"{where:72s} {theirs:6d} {ours:6d} {ratio:6.2f}")
        if os.environ.get("COPHY_TABLE"):
            print("\n".join([f"{'range':72s} {'theirs':>6s} {'ours':>6s} {'ratio':>6s}", *lines, str(near)]))
        self.assertEqual(len(lines), 120)
        for operator, count in near.items():
            with self.subTest(operator=operator):
                self.assertGreaterEqual(count, 36, "\n".join(lines))

    def test_the_catalogue_has_version_2(self) -> None:
        from cophy_text.keys import unknown_keys

        self.assertEqual((self.document["version"], [*unknown_keys(self.document)]), (2, []))
        for name in COLUMNS:
            with self.subTest(column=name):
                bounds = self.bounds(name)
                self.assertEqual(bounds, sorted(bounds))
                self.assertTrue(2 <= len(bounds) <= 257)
        self.assertEqual(self.bounds("heap")[:2], [-1, 0])

    def test_a_range_of_parameters_keeps_half_a_percent_by_share(self) -> None:
        from cophy_pg.bounds import share

        for name in COLUMNS:
            with self.subTest(column=name):
                where = re.search(rf"^WHERE {name} (BETWEEN .*);$", self.workload, re.MULTILINE)
                assert where is not None
                if "?" in where[1]:
                    self.assertEqual(name, "gaps")
                    continue
                low, high = re.findall(r"DATE '([\d-]+)'|(-?\d+)", where[1])
                known = [self.number(it[0] or int(it[1])) for it in (low, high)]
                part = share(self.bounds(name), known[1]) - share(self.bounds(name), known[0])
                self.assertTrue(0.0025 <= part <= 0.01, where[1])


if __name__ == "__main__":
    unittest.main()
