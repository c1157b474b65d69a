"""Values and conditions of WHERE as the rewriter writes them."""
from __future__ import annotations

import unittest

from example_tables import OverTables
from fixtures import NO_PARSER


@unittest.skipIf(NO_PARSER, NO_PARSER)
class Conditions(OverTables):
    def test_values_are_folded_where_they_can_be(self) -> None:
        self.check(
            [
                (
                    "select id from a where d < date '1998-12-01' - interval '90' day",
                    ["SELECT id FROM a WHERE d <= DATE '1998-09-01'"],
                    "value, range end",
                ),
                (
                    "select id from a where d >= '1994-01-31'::date + interval '1 month'",
                    ["SELECT id FROM a WHERE d > DATE '1994-02-27'"],
                    "value, range end",
                ),
                (
                    "select id from a where d = '2024-05-06 07:08:09'::timestamp",
                    ["SELECT id FROM a WHERE d = DATE '2024-05-06'"],
                    "value",
                ),
                ("select id from a where d > now() - interval '7 days'", ["SELECT id FROM a WHERE d > ?"], "value"),
                (
                    "select id from a where k = 2 + 3 * 4 and n = '7'",
                    ["SELECT id FROM a WHERE k = 14 AND n = 7"],
                    "value",
                ),
                (
                    "select id from a where k = $1::int and x = 'q'::varchar",
                    ["SELECT id FROM a WHERE k = ? AND x = 'q'"],
                    "value",
                ),
                (
                    "select id from a where n between 6.5 - 1 and 6.5 + 1",
                    ["SELECT id FROM a WHERE n BETWEEN 5 AND 7"],
                    "value, range end",
                ),
            ]
        )

    def test_or_not_and_functions_keep_their_columns_needed(self) -> None:
        self.check(
            [
                (
                    "select id from a where k = 1 or k in (2, 3)",
                    ["SELECT id FROM a WHERE k IN (1, 2, 3)"],
                    "or of one column",
                ),
                (
                    "select id from a where k = 1 or x = 'q'",
                    ["SELECT id FROM a WHERE k IS NOT NULL AND x IS NOT NULL"],
                    "or",
                ),
                (
                    "select id from a where (k = 1 and x = 'p') or (k = 2 and x = 'q')",
                    ["SELECT id FROM a WHERE k IN (1, 2) AND x IN ('p', 'q')"],
                    "or",
                ),
                (
                    "select a.id from a, b where (a.id = b.a_id and v = 1) or (a.id = b.a_id and v = 2 and k > 3)",
                    ["SELECT a.id FROM a, b WHERE a.id = b.a_id AND b.v IN (1, 2) AND a.k IS NOT NULL"],
                    "common condition, or",
                ),
                (
                    "select id from a where not (k = 1 or x > 'q')",
                    ["SELECT id FROM a WHERE k <> 1 AND x <= 'q'"],
                    "negation",
                ),
                (
                    "select id from a where k not in (1, 2) and x not like 'q%'",
                    ["SELECT id FROM a WHERE k <> 1 AND k <> 2 AND x IS NOT NULL"],
                    "not in, not",
                ),
                (
                    "select id from a where lower(x) = 'q' and x::text = 'r' and k::text = 's'",
                    ["SELECT id FROM a WHERE x LIKE ? AND x = 'r' AND k LIKE ?"],
                    "function of a column, column cast",
                ),
                (
                    "select id from a where k < n and j @> '{}' and j ->> 'q' = 'r'",
                    ["SELECT id FROM a WHERE j LIKE ? AND k IS NOT NULL AND n IS NOT NULL"],
                    "columns compared, expression, function of a column",
                ),
                (
                    "select id from a where k = any($1) and n = any('{1,2}')",
                    ["SELECT id FROM a WHERE k IN (?, ?, ?, ?, ?, ?, ?, ?, ?, ?) AND n IN (1, 2)"],
                    "any array",
                ),
                (
                    "select id from a where (k, n) = (1, 2) and (k, n) > (1, 2)",
                    ["SELECT id FROM a WHERE k = 1 AND n = 2 AND k > 0"],
                    "row, range end, columns compared",
                ),
                (
                    'select id from a where "on" and not "on" and true',
                    ['SELECT id FROM a WHERE "on" = ?'],
                    "boolean, negation, constant condition",
                ),
            ]
        )

    def test_ranges_of_parameters_become_literal_ones(self) -> None:
        self.check(
            [
                (
                    "select id from a where k between $1 and $2",
                    ["SELECT id FROM a WHERE k BETWEEN 0 AND 50"],
                    "parameter range",
                ),
                (
                    "select id from a where d >= $1 and d < $2",
                    ["SELECT id FROM a WHERE d BETWEEN DATE '1990-01-01' AND DATE '1990-02-25'"],
                    "parameter range",
                ),
                (
                    "select id from a where k >= 10 and k < 20",
                    ["SELECT id FROM a WHERE k BETWEEN 9 AND 19"],
                    "range end, bounds",
                ),
                ("select id from a where k > 9 and k <= 19", ["SELECT id FROM a WHERE k BETWEEN 9 AND 19"], "bounds"),
                ("select id from a where k >= 10 and k < $1", ["SELECT id FROM a WHERE k > 9 AND k < ?"], "range end"),
                ("select id from a where x between $1 and $2", ["SELECT id FROM a WHERE x BETWEEN ? AND ?"], ""),
            ]
        )
        found = self.rewritten("select id from a where k between $1 and $2", ranges=False)
        self.assertEqual(found.statements, ["SELECT id\nFROM a\nWHERE k BETWEEN ? AND ?"])


if __name__ == "__main__":
    unittest.main()
