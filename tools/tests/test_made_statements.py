"""Statements that are made at random, over all forms at once: each is written so that the program takes it, or skipped."""
from __future__ import annotations

import os
import random
import re
import subprocess
import tempfile
import unittest
from pathlib import Path

from example_tables import schema
from fixtures import COPHY, NO_PARSER
from grammar import accepted
from patience import LONG

if not NO_PARSER:
    from cophy_pg.catalogue import catalogue_text
    from cophy_pg.rewrite import Options, Rewriter

COLUMNS = {
    "a": ["id", "k", "n", "d", "x", "y", '"on"', "j"],
    "b": ["id", "a_id", "c_id", "v", "x", "y"],
    "c": ["id", "z"],
    '"order"': ['"group"'],
    "s3": ["id", "k"],
    "w": ["id", "key"],
}
VALUES = [
    "$1",
    "5",
    "-7",
    "'q'",
    "null",
    "1.5",
    "1e3",
    "true",
    "now()",
    "'2020-01-01'::date",
    "$2::int",
    "current_date - 7",
    "date '1999-12-31' + interval '2 months'",
    "upper('a')",
    "2 * 3 + 1",
    "'it''s'",
    "E'\\\\'",
    "12345678901234567890",
]
TESTS = [
    "{0} = {1}",
    "{0} <> {1}",
    "{0} < {1}",
    "{0} >= {1}",
    "{1} > {0}",
    "{0} between {1} and {2}",
    "{0} not between {1} and {2}",
    "{0} in ({1}, {2})",
    "{0} not in ({1}, {2})",
    "{0} like {1}",
    "{0} not like {1}",
    "{0} ilike {1}",
    "{0} is null",
    "{0} is not null",
    "{0} = any ($1)",
    "{0} <> all (array[{1}, {2}])",
    "lower({0}) = {1}",
    "{0}::text = {1}",
    "{0} + 1 > {1}",
    "{0} is distinct from {1}",
    "({0}, {3}) = ({1}, {2})",
    "({0}, {3}) > ({1}, {2})",
    "({0}, {3}) in (({1}, {2}))",
    "{0} = {3}",
    "{0} < {3}",
    "coalesce({0}, {3}) = {1}",
    "{1} = {2}",
    "{0}",
    "{0} @> {1}",
    "case when {0} = {1} then {3} end = {2}",
    "f({0})",
    "{0} between {3} and {1}",
    "{0} is true",
    "{0} ~ {1}",
    "true",
    "{1} is null",
]
ITEMS = [
    "{0}",
    "{0} as q",
    "count(*)",
    "sum({0})",
    "max({0} + {1})",
    "count(distinct {0})",
    "string_agg({0}, ',' order by {1})",
    "case when {0} = 1 then {1} end",
    "{0} || {1}",
    "rank() over (partition by {0} order by {1})",
    "{0} ->> 'k'",
    "-{0}",
    "'t'",
    "extract(year from {0})",
    "count(*) filter (where {0} = 1)",
    "array[{0}]",
    "({0}, {1})",
    "{0} = {1}",
    "left({0}, 3)",
    "now()",
    "cast({0} as text)",
    "greatest({0}, {1})",
    "sum({0}) over ()",
    "{0} - -1",
    "coalesce(sum({0}), 0)",
    "$1",
    "{0} is null",
]


class Maker:
    """Makes statements of PostgreSQL, which need make no sense but have to be parsed."""

    def __init__(self, seed: int) -> None:
        self.random = random.Random(seed)
        self.names = 0

    def pick(self, listed: list[str]) -> str:
        return self.random.choice(listed)

    def chance(self, percent: int) -> bool:
        return self.random.randrange(100) < percent

    def value(self) -> str:
        return self.pick(VALUES)

    def sources(self, deep: int) -> tuple[str, dict[str, list[str]]]:
        """The text of FROM, and the columns of each name that it has."""
        seen: dict[str, list[str]] = {}
        text = ""
        for at in range(1 + self.random.randrange(4)):
            self.names += 1
            name = f"t{self.names}"
            if deep > 0 and self.chance(20):
                inner, columns = self.select(deep - 1, True)
                source = f"{'lateral ' * self.chance(20)}({inner}) {name}"
            else:
                table = self.pick([*COLUMNS])
                source, columns = f"{table} {name}", COLUMNS[table]
            if not at:
                text = source
            elif self.chance(40):
                text += ", " + source
            elif self.chance(10):
                text += " cross join " + source
            else:
                kind = self.pick(["join", "left join", "right join", "full join", "inner join"])
                text += f" {kind} {source} on {self.tie({**seen}, name, columns)}"
            seen[name] = columns
        return text, seen

    def tie(self, seen: dict[str, list[str]], name: str, columns: list[str]) -> str:
        other = self.pick([*seen])
        tie = f"{other}.{self.pick(seen[other])} = {name}.{self.pick(columns)}"
        return tie + (f" and {name}.{self.pick(columns)} = {self.value()}" if self.chance(20) else "")

    def column(self, seen: dict[str, list[str]]) -> str:
        name = self.pick([*seen])
        return f"{name}.{self.pick(seen[name])}"

    def test(self, seen: dict[str, list[str]], deep: int) -> str:
        if deep > 0 and self.chance(15):
            inner, columns = self.select(deep - 1, True, seen)
            form = self.pick(
                [
                    "exists ({0})",
                    "not exists ({0})",
                    "{1} in (select {2} from ({0}) s)",
                    "{1} not in (select {2} from ({0}) s)",
                    "{1} > (select max({2}) from ({0}) s)",
                    "{1} = all (select {2} from ({0}) s)",
                ]
            )
            return form.format(inner, self.column(seen), "s." + self.pick(columns))
        if deep > 0 and self.chance(25):
            sides = [self.test(seen, deep - 1) for _ in range(2 + self.random.randrange(2))]
            return ("not " * self.chance(25)) + "(" + f" {self.pick(['or', 'and', 'or'])} ".join(sides) + ")"
        return self.pick(TESTS).format(self.column(seen), self.value(), self.value(), self.column(seen))

    def select(
        self, deep: int, is_inner: bool = False, around: dict[str, list[str]] | None = None
    ) -> tuple[str, list[str]]:
        """A query, and the names of its columns."""
        source, seen = self.sources(deep)
        items = [
            self.pick(ITEMS).format(self.column(seen), self.column(seen)) for _ in range(1 + self.random.randrange(3))
        ]
        if is_inner:
            items = [
                f"{self.column(seen) if self.chance(60) else it.removesuffix(' as q')} as c{at}"
                for at, it in enumerate(items)
            ]
        text = f"select {'distinct ' * self.chance(15)}{', '.join(items)} from {source}"
        if self.chance(70):
            text += " where " + " and ".join(
                self.test({**seen, **(around or {})}, deep) for _ in range(1 + self.random.randrange(3))
            )
        if self.chance(25):
            text += " group by " + ", ".join(
                self.pick([self.column(seen), "1", f"lower({self.column(seen)})", f"rollup ({self.column(seen)})"])
                for _ in range(2)
            )
            if self.chance(40):
                text += f" having count(*) > 1 and {self.pick(['sum({0}) < $1', 'bool_or({0})', '{0} is null']).format(self.column(seen))}"
        if not is_inner and self.chance(40):
            text += " order by " + self.pick(
                [self.column(seen), "1", f"lower({self.column(seen)}) desc nulls last", f"{self.column(seen)}, 1 desc"]
            )
        if self.chance(20):
            text += self.pick([" limit 5", " limit $1 offset 2", " offset 3", " fetch first row only", " limit all"])
        return text, [f"c{at}" for at in range(len(items))] if is_inner else []

    def statement(self) -> str:
        """A statement of any kind."""
        table = self.pick(["a", "b", "c"])
        where, kind = {table: COLUMNS[table]}, self.random.randrange(12)
        if kind == 0:
            extra, seen = self.sources(0)
            return (
                f"update {table} set {self.pick(COLUMNS[table])} = {self.value()}{f' from {extra}' if self.chance(50) else ''} "
                f"where {self.test(where, 2)}" + " returning *" * self.chance(20)
            )
        if kind == 1:
            return f"delete from {table} where {self.test(where, 2)}"
        if kind == 2:
            rows = ", ".join(
                f"({self.value()}, {self.pick(['default', self.value()])})"
                for _ in range(1 + self.random.randrange(30))
            )
            columns = self.random.sample(COLUMNS[table], 2)
            return (
                f"insert into {table} ({', '.join(columns)}) values {rows}{' on conflict do nothing' * self.chance(30)}"
            )
        if kind == 3:
            return f"with r as ({self.select(2, True)[0]}), {self.pick(['q', 'r2'])} as ({self.select(1, True)[0]}) select * from r join a on r.c0 = a.id"
        if kind == 4:
            return f"({self.select(1)[0]}) {self.pick(['union', 'except', 'union all'])} select 1 from a"
        return self.select(2)[0]


@unittest.skipIf(NO_PARSER, NO_PARSER)
class Made(unittest.TestCase):
    def test_all_that_is_written_is_accepted(self) -> None:
        tables = {it.shown: [column.shown for column in it.columns.values()] for it in schema().tables.values()}
        maker, written, skipped = Maker(7), [], {}
        for number in range(1500):
            text, options = maker.statement(), Options(ranges=number % 2 == 0, look_ups=number % 3 == 0)
            found = Rewriter(schema(), options).rewrite(text)
            if found.skipped:
                skipped[found.skipped] = text
                continue
            with self.subTest(text=text):
                self.assertEqual(accepted(";\n".join(found.statements), tables), len(found.statements))
                written += found.statements
        self.assertGreater(len(written), 1500)
        unknown = [
            it
            for it in skipped
            if not re.match(r"it has more than 8 sources|it reads no table|no source has the column", it)
        ]
        self.assertEqual(unknown, [], [skipped[it] for it in unknown])

    @unittest.skipUnless(os.access(COPHY, os.X_OK), "the program isn't built: run rt ci, or set COPHY_PROGRAM")
    def test_the_program_accepts_what_is_written(self) -> None:
        maker, written = Maker(11), []
        for _ in range(300):
            written += [
                it for it in Rewriter(schema()).rewrite(maker.statement()).statements if it.startswith("SELECT")
            ]
        rates = {"seq_page": 1000}
        with tempfile.TemporaryDirectory() as folder:
            files = [Path(folder) / it for it in ("c.toml", "l.sql")]
            files[0].write_text(catalogue_text(schema(), rates, []))
            files[1].write_text(";\n".join(written[:900]) + ";\n")
            ran = subprocess.run([COPHY, "cost", *files], capture_output=True, text=True, check=False, timeout=LONG)
            self.assertEqual(
                (ran.returncode, ran.stdout.count("statement ")), (0, min(900, len(written))), ran.stdout[:100]
            )


if __name__ == "__main__":
    unittest.main()
