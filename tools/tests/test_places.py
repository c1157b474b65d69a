"""The numbers of a catalogue: the unit of a column, and what literal ranges are written as over it."""
from __future__ import annotations

import unittest

from fixtures import NO_PARSER

if not NO_PARSER:
    from cophy_pg.catalogue import catalogue_text, read_schema
    from cophy_pg.places import ends, place, set_scale
    from cophy_pg.rewrite import Rewriter
    from cophy_pg.schema import Column, Schema, Table


@unittest.skipIf(NO_PARSER, NO_PARSER)
class Places(unittest.TestCase):
    def test_the_unit_of_a_column(self) -> None:
        table: list[tuple[str, list[object], int, bool]] = [
            ("int", ["1", "700", "-3"], 0, False),
            ("int", ["1.50", "700.25"], 2, False),
            ("int", ["1.50", "700.00"], 1, False),
            ("int", ["0.123456", "0.9"], 7, True),
            ("int", ["0.30000000000000004", "123456789"], 0, True),
            ("int", ["1e17", "0.5"], 0, True),
            ("int", ["NaN", "Infinity"], 0, False),
            ("int", [], 0, False),
            ("date", ["2024-01-01", "2024-05-06"], 0, False),
            ("timestamptz", ["2024-01-01 00:00:00+00", "2024-05-06 07:08:09+02"], 0, False),
            ("timestamptz", ["2024-01-01 00:00:00+00", "2024-05-06 07:08:09.5+02"], 0, True),
            ("text", ["0.5"], 0, False),
        ]
        for kind, values, scale, has_fractions in table:
            with self.subTest(kind=kind, values=values):
                is_moment = kind == "timestamptz"
                column = Column("c", "c", "int" if is_moment else kind, type=kind if is_moment else "")
                set_scale(column, values)
                self.assertEqual((column.scale, column.has_fractions), (scale, has_fractions))

    def test_places_and_ends(self) -> None:
        cents = Column("c", "c", "int", scale=2)
        self.assertEqual([place(cents, it) for it in ("1.5", "-0.005", "x", "1e17")], [150, -0.5, None, None])
        self.assertEqual(ends(cents, ["1.501", "-0.005", "NaN"]), (-1, 151))
        day = Column("d", "d", "date")
        self.assertEqual([place(day, it) for it in ("1970-01-02", "0001-01-01 BC", "infinity")], [1, None, None])
        moment = Column("m", "m", "int", type="timestamp")
        given = ("1970-01-02 01:00:01", "1969-12-31 23:59:59.5+02", "infinity", "0001-01-01 00:00:00 BC")
        self.assertEqual([place(moment, it) for it in given], [90001, -0.5, None, None])
        self.assertEqual(ends(moment, [*given]), (-1, 90001))

    def test_ranges_are_written_as_the_model_counts_them(self) -> None:
        for kind, of, scale, has_fractions, where, written in (
            ("int", "int4", 0, False, "c < 5", "c <= 4"),
            ("int", "int4", 0, False, "c <= 5", "c <= 5"),
            ("int", "int4", 0, False, "c > 5", "c > 5"),
            ("int", "int4", 0, False, "c >= 5", "c > 4"),
            ("int", "int4", 0, False, "5 > c", "c <= 4"),
            ("int", "int4", 0, False, "not c < 5", "c > 4"),
            ("int", "int4", 0, False, "c between 5 and 9", "c BETWEEN 4 AND 9"),
            ("int", "int4", 0, False, "c between 5 and $1", "c BETWEEN 5 AND ?"),
            ("int", "int4", 0, False, "c < 4.5", "c <= 4"),
            ("int", "int4", 0, False, "c <= 4.5", "c <= 4"),
            ("int", "int4", 0, False, "c > 4.5", "c > 4"),
            ("int", "int4", 0, False, "c = 5", "c = 5"),
            ("int", "", 0, False, "c < 4.5", "c < 4.5"),
            ("int", "int8", 0, False, "c < -999999999999999999", "c < -999999999999999999"),
            ("int", "numeric", 2, False, "c < 4.5", "c <= 449"),
            ("int", "numeric", 2, False, "c between 0.05 and 0.07", "c BETWEEN 4 AND 7"),
            ("int", "float8", 2, True, "c < 4.5", "c <= 450"),
            ("int", "float8", 2, True, "c >= 4.5", "c > 450"),
            ("int", "float8", 0, True, "c between 4.2 and 8.7", "c BETWEEN 4 AND 9"),
            ("date", "date", 0, False, "c < date '2024-03-01'", "c <= DATE '2024-02-29'"),
            ("date", "date", 0, False, "c >= '2024-03-01'", "c > DATE '2024-02-29'"),
            ("date", "date", 0, False, "c <= '2024-03-01 12:00:00'", "c <= DATE '2024-03-01'"),
            ("date", "date", 0, False, "c < timestamp '2024-03-01 12:00:00'", "c <= DATE '2024-03-01'"),
            ("date", "date", 0, False, "c < date '0001-01-01'", "c < DATE '0001-01-01'"),
            ("int", "timestamp", 0, False, "c < '1970-01-02'", "c <= 86399"),
            ("int", "timestamp", 0, True, "c < date '1970-01-02'", "c <= 86400"),
            ("int", "timestamp", 0, False, "c <= timestamp '1970-01-02 00:00:01.5'", "c <= 86401"),
            ("int", "timestamp", 0, False, "c = '1970-01-02 00:00:01'", "c = DATE '1970-01-02'"),
            (
                "int",
                "timestamptz",
                0,
                True,
                "c between '1970-01-02' and '1970-01-02 23:59:59.9+00'",
                "c BETWEEN 86400 AND 172800",
            ),
        ):
            with self.subTest(type=of, where=where):
                column = Column("c", "c", kind, 8, 100, 0, 30000, of, scale=scale, has_fractions=has_fractions)
                table = Table("public", "t", "t", 1000, 10, {"c": column, "o": Column("o", "o")})
                found = Rewriter(Schema([table])).rewrite(f"select o from t where {where}")
                self.assertEqual(found.statements, [f"SELECT o\nFROM t\nWHERE {written}"])

    def test_the_unit_is_kept_in_the_catalogue(self) -> None:
        columns = [Column("c", "c", "int", type="numeric", scale=2), Column("d", "d", "date", has_fractions=True)]
        text = catalogue_text(Schema([Table("public", "t", "t", 5, 1, {it.name: it for it in columns})]), {}, [])
        self.assertIn('postgres_type = "numeric"\npostgres_scale = 2\n', text)
        read = read_schema(text.encode()).tables["public", "t"].columns
        self.assertEqual(
            [(it.type, it.scale, it.has_fractions) for it in read.values()], [("numeric", 2, False), ("", 0, True)]
        )


if __name__ == "__main__":
    unittest.main()
