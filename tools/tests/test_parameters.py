"""The types of parameters, as what stands beside them asks for."""
from __future__ import annotations

import unittest

from fixtures import NO_PARSER

COLUMNS = {
    "id": "int4",
    "city": "text",
    "born": "date",
    "made": "timestamptz",
    "placed": "timestamp",
    "long": "interval",
    "tags": "_text",
    "price": "numeric",
}
# Conditions, with the types of their parameters in turn; - is one that isn't told.
ASKED = {
    "id = $1 AND city = $2": "int4 text",
    "born < $1 + $2 AND made > $3 - $4 AND id > $5 * $6 AND city = $7 || $8": "date int4 timestamptz interval int4 int4 text text",
    "placed BETWEEN $1 - $2 AND $3 + $4 AND price > $5 * $6 + $7": "timestamp interval timestamp interval numeric numeric numeric",
    "born = $1 + born": "int4",
    "born = $1 + $2::interval": "date",
    "made > now() - $1 AND made < CURRENT_TIMESTAMP - $2": "interval interval",
    "made - $1 > now() - $2": "- -",
    "made - $1 > long": "timestamptz",
    "long > $1 * $2 AND long < age(born) + $3": "interval float8 interval",
    "made >= date_trunc($1, $2 + $3)": "- timestamptz interval",
    "id IN ($1, $2) AND (id, city) = ($3, $4)": "int4 int4 int4 text",
    "id = ANY (ARRAY[$1, $2]) AND id = ANY ($3)": "int4 int4 -",
    "tags = ARRAY[$1]": "text",
    "city LIKE $1 || $2 AND coalesce($3, city) = $4": "text text text text",
    "CASE WHEN id = $1 THEN city ELSE $2 END = $3": "int4 text text",
    "abs($1 + $2) > $3 AND count(*) > $4": "numeric numeric - int8",
    "profile ->> $1 = $2": "- -",
    "$1::other = $2": "- -",
}


@unittest.skipIf(NO_PARSER, NO_PARSER)
class Asked(unittest.TestCase):
    def test_each_parameter_has_the_type_that_is_asked_for(self) -> None:
        from cophy_pg.expected import Expected, known, own_name
        from pglast import ast, parse_sql

        def type_of(column: ast.ColumnRef) -> str | None:
            name = column.fields[-1].sval
            return known(COLUMNS[name]) if name in COLUMNS else None

        for condition, wanted in ASKED.items():
            with self.subTest(condition=condition):
                found = Expected(parse_sql(f"SELECT 1 FROM t WHERE {condition}")[0].stmt, type_of).types
                shown = [own_name(found.get(at)) or "-" for at in range(1, len(wanted.split()) + 1)]
                self.assertEqual(" ".join(shown), wanted)

    def test_deep_terms_take_no_time(self) -> None:
        from cophy_pg.expected import Expected, known
        from cophy_pg.rewrite.parse import DEEPEST, parsed

        deep = {
            "sums": "$1 " + "+ 1 " * (DEEPEST - 100),
            "cases": "CASE WHEN true THEN " * 400 + "$1" + " END" * 400,
            "sums of comparisons": "$1 " + "+ (1 = $2)::int " * 400,
        }
        for name, text in deep.items():
            with self.subTest(name=name):
                tree = parsed(f"SELECT 1 FROM t WHERE id = {text}")[0].stmt
                asked: list[object] = []
                found = Expected(tree, lambda it: asked.append(it) or known("int4"))  # type: ignore[func-returns-value]
                self.assertEqual((found.types[1], len(asked)), (known("int4"), 1))


if __name__ == "__main__":
    unittest.main()
