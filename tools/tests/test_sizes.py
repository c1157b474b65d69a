"""The sizes of indexes as PostgreSQL stores them: the formula beside real indexes, and where it is printed.

`run test_sizes.Stored` prints the table of indexes where COPHY_TABLE is set.
"""
from __future__ import annotations

import os
import random
import tempfile
import unittest
from pathlib import Path
from typing import Any

from private_server import PrivateServer
from fixtures import MISSING, called, shop

ROWS = 60000
# By column: its type, and how its values are made of g, which goes from 1 to ROWS.
COLUMNS = {
    "id": ("int4", "g"),
    "big": ("int8", "g * 1000003::int8"),
    "small": ("int2", "g % 300"),
    "flag": ("bool", "g % 7 = 0"),
    "few": ("int4", "floor(20 * random() ^ 2)"),
    "group_": ("int8", "floor(900 * random())"),
    "many": ("int4", "floor(25000 * random())"),
    "price": ("numeric(12, 2)", "round((random() * 5000)::numeric, 2)"),
    "rate": ("float8", "round((random() * 100)::numeric, 1)::float8"),
    "born": ("date", "date '1950-01-01' + floor(20000 * random())::int"),
    "made": ("timestamptz", "timestamptz '2024-01-01' + random() * interval '300 days'"),
    "code": ("varchar(12)", "'C' || lpad((g % 5000)::text, 7, '0')"),
    "name": ("text", "md5(g::text)"),
    "word": ("text", "(array['new', 'paid', 'shipped', 'returned'])[1 + floor(4 * random() ^ 2)::int]"),
    "long": ("text", "repeat(md5(g::text), 5)"),
    "key": ("uuid", "md5(g::text || 'k')::uuid"),
    "host": ("inet", "inet '10.0.0.0' + floor(3000 * random())::int8"),
    "seldom": ("int4", "CASE WHEN random() < 0.8 THEN NULL ELSE g END"),
    "mostly": ("text", "CASE WHEN random() < 0.97 THEN 'shown' ELSE 'waiting' || g % 3 END"),
    "empty": ("text", "CASE WHEN random() < 0.5 THEN NULL ELSE 'v' || g % 400 END"),
}
INDEXES = """
id|big|small|flag|few|group_|many|price|rate|born|made|code|name|word|long|key|host|seldom|empty
id, few|few, id|small, group_|flag, word|word, flag, few|few, group_|group_, many|born, few|made, id|code, word|word, made
key, id|name, flag|price, few|few, price|rate, id|host, small|flag, big|small, flag|few, word, id|born, made, price
word, born|code, small, many|seldom, few|few, empty|big, flag, id, word|word, many|few, born
mostly|many, mostly|group_, mostly, few|mostly, made, id|group_, mostly, id
""".replace(
    "\n", "|"
).split(
    "|"
)


@unittest.skipIf(MISSING, MISSING)
class Filling(unittest.TestCase):
    """The search for a budget, over advice that takes what saves the most a page, one after the other."""

    def filled(self, asked: int, sizes: list[tuple[int, int]]) -> tuple[int, int]:
        """The pages that the picks take on the server, and how often advice was asked for; of each index its pages by the
        model and on the server."""
        from cophy_pg.budget import filled
        from cophy_text.answers import Advice, Candidate

        calls = []

        def advise(budget: int) -> Advice:
            calls.append(budget)
            found = Advice(budget, cost=10**6)
            for at, (model, _) in enumerate(sizes):
                if found.size + model <= budget:
                    found.picks.append(Candidate(at, "t", ("c",), model))
                    found.size, found.cost = found.size + model, found.cost - 1000 + at
            return found

        def size_of(advice: Advice) -> int:
            return sum(sizes[it.number][1] for it in advice.picks)

        advice = filled(asked, advise, size_of)
        return size_of(advice), len(calls)

    def test_the_space_is_filled_and_never_exceeded(self) -> None:
        from cophy_pg.budget import FURTHER

        drawn = random.Random(7)
        for _ in range(300):
            ratio = drawn.choice([0.3, 0.6, 1.0, 1.6])
            models = [drawn.randrange(2, 40) for _ in range(200)]
            sizes = [(it, max(1, round(it * ratio * drawn.uniform(0.8, 1.2)))) for it in models]
            asked = drawn.randrange(800, 2500)
            found, calls = self.filled(asked, sizes)
            self.assertLessEqual(found, asked)
            self.assertLessEqual(calls, 9 + len(FURTHER))
            self.assertGreaterEqual(found, 0.9 * min(asked, sum(it[1] for it in sizes)))

    def test_what_never_fits_and_what_is_all(self) -> None:
        self.assertEqual(self.filled(100, [(90, 150)] * 3)[0], 0)
        self.assertEqual(self.filled(100, [(3, 2), (4, 3)])[0], 5)
        self.assertEqual(self.filled(100, [])[0], 0)
        # The space is full enough with the first one, and both fit.
        self.assertEqual(self.filled(104, [(100, 100), (30, 1)])[0], 101)
        # By the model it is too large, on the server it isn't.
        self.assertEqual(self.filled(100, [(300, 90)])[0], 90)
        self.assertEqual(self.filled(0, [(1, 1)]), (0, 1))


class Skewed(unittest.TestCase):
    """Indexes of a forum with 40500 posts and 67245 votes, by the pages that they had there."""

    def test_a_value_that_nearly_all_rows_have_makes_few_keys(self) -> None:
        from cophy_pg.stored import Part, pages

        member, topic, post = Part(4, 4, 4497), Part(4, 4, 6731), Part(4, 4, 32802)
        number, made, score = Part(4, 4, 40500), Part(8, 8, 40500), Part(4, 4, 90, common=0.225)
        state, value = Part(5, 1, 3, varies=True, common=0.978), Part(4, 4, 3, common=0.833)
        for rows, parts, real in (
            (40500, [member, state], 56),
            (40500, [topic, state, member], 153),
            (40500, [state, made, number, topic, member], 248),
            (40500, [member, state, number, topic, score, made], 248),
            (67245, [post, value], 159),
        ):
            with self.subTest(real=real, columns=len(parts)):
                self.assertTrue(0.95 <= real / pages(rows, parts, True) <= 1.03, pages(rows, parts, True))
        # The rows lie in the order of two days, of which one is soon after the other.
        sent, delivered = (
            Part(4, 4, values, correlation=near) for values, near in ((1036, 0.999996), (1042, 0.999984))
        )
        self.assertTrue(0.9 <= 72 / pages(56389, [sent, delivered], True) <= 1.03)
        self.assertGreater(pages(56389, [sent, Part(4, 4, 1042)], True), 1.8 * 72)
        # Not knowing how common the most common value is, all are taken to be as common as each other.
        blind = [member, Part(5, 1, 3, varies=True)]
        self.assertGreater(pages(40500, blind, True), 1.4 * pages(40500, [member, state], True))


@unittest.skipIf(MISSING, MISSING)
class Columns(unittest.TestCase):
    """What the statistics of a server tell of a column."""

    def test_texts_have_the_sizes_of_the_values_that_are_known(self) -> None:
        from cophy_pg.lengths import PARTS, sizes_of

        self.assertEqual(sizes_of([], [10] * 101), [11])
        self.assertEqual(sizes_of([], []), [])
        self.assertEqual(sizes_of([], [10, 501]), [])
        self.assertEqual(sizes_of([], [126, 127])[:: PARTS - 1], [127, 131])
        found = sizes_of([(5, 0.7), (9, 0.1)], [7, 8])
        self.assertEqual([found.count(it) for it in (6, 8, 9, 10)], [28, 4, 4, 4])

    def test_rows_lie_in_an_order_where_values_are_many_and_none_is_common(self) -> None:
        from cophy_pg.lengths import ordered_by
        from cophy_pg.schema import Column

        days = Column("sent", "sent", "date", 4, distinct=900, common=0.01)
        self.assertEqual([ordered_by(days, it) for it in (0.99998, -1, 0.9, float("nan"))], [0.99998, 1, 0, 0])
        for distinct, common in ((3, 0.01), (900, 0.9)):
            self.assertEqual(ordered_by(Column("role", "role", distinct=distinct, common=common), 0.9999), 0)

    def test_values_that_lie_close_are_counted_by_the_histogram(self) -> None:
        from cophy_pg.schema import Column
        from cophy_pg.sizes import values_of

        def values(known: int, **more: Any) -> int:
            return round(values_of(Column("c", "c", "int", 4, distinct=known, low=1, high=12000, **more), 60000))

        self.assertEqual(values(9700), 11919)
        # Half of the rows have a tenth of the values.
        self.assertEqual(values(9700, bounds=[1, 1200, 12000]), 11328)
        self.assertEqual(values(9700, nulls=0.5), 11015)
        self.assertEqual(values(5000), 5000)
        self.assertEqual(values(1000), 1000)
        self.assertEqual(values_of(Column("c", "c", "text", 4, distinct=700), 60000), 700)

    def test_pages_above_the_leaves_have_fewer_entries_where_the_first_column_is_wide(self) -> None:
        from cophy_pg.stored import Part, pages

        wide = Part(164, 1, 60000, varies=True, sizes=(164,))
        self.assertTrue(0.99 <= 1551 / pages(60000, [wide], True) <= 1.01)


@unittest.skipIf(MISSING, MISSING)
class Stored(unittest.TestCase):
    """Real indexes of several types, as they are freshly made, beside the formula over an exported catalogue."""

    server: PrivateServer

    def setUp(self) -> None:
        self.server = shop()
        self.server.psql("DROP DATABASE IF EXISTS sizes; CREATE DATABASE sizes")
        self.addCleanup(self.server.psql, "DROP DATABASE sizes")
        listed = ", ".join(f"{name} {kind}" for name, (kind, _) in COLUMNS.items())
        made = ", ".join(f"({value})::{kind}" for kind, value in COLUMNS.values())
        self.server.psql(
            f"SELECT setseed(0.5); CREATE TABLE t ({listed});"
            f"INSERT INTO t SELECT {made} FROM generate_series(1, {ROWS}) g; ANALYZE",
            "sizes",
        )

    def test_sizes_are_near_the_real_ones(self) -> None:
        from cophy_pg.catalogue import read_schema
        from cophy_pg.sizes import stored_pages
        from cophy_text.answers import Candidate

        with tempfile.TemporaryDirectory() as name:
            files = [Path(name) / it for it in ("catalogue.toml", "workload.sql", "given.sql")]
            files[2].write_text("SELECT id FROM t;\n")
            ran = called(self.server, "export", *map(str, files[:2]), "--sql", str(files[2]), database="sizes")
            self.assertEqual(ran.returncode, 0, ran.stderr)
            schema = read_schema(files[0].read_bytes())
        lines, near = [], 0
        listed = [it.strip() for it in INDEXES if it.strip()]
        made = "".join(f"CREATE INDEX i{at} ON t ({it});" for at, it in enumerate(listed))
        self.server.psql(made, "sizes")
        for at, columns in enumerate(listed):
            real = int(self.server.value(f"SELECT pg_relation_size('i{at}') / 8192", "sizes"))
            ours = stored_pages(schema, Candidate(at, "t", tuple(columns.split(", ")), 0))
            assert ours is not None
            near += 0.9 <= real / ours <= 1.2
            lines.append(f"{columns:24s} {real:6d} {ours:6d} {real / ours:6.2f}")
        if os.environ.get("COPHY_TABLE"):
            print("\n".join([f"{'index':24s} {'real':>6s} {'ours':>6s} {'ratio':>6s}", *lines, f"near {near}"]))
        self.assertGreaterEqual(len(lines), 40)
        self.assertGreaterEqual(near, 0.9 * len(lines), "\n".join(lines))
        # Where nearly all rows have one value of a text, it neither makes new keys nor do entries differ by it.
        skewed = [float(it.split()[-1]) for it in lines if "mostly" in it]
        self.assertEqual([it for it in skewed if not 0.9 <= it <= 1.08], [], "\n".join(lines))


if __name__ == "__main__":
    unittest.main()
