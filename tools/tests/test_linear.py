"""Reading takes time in proportion to what is read, and no statement is too deep for it."""
from __future__ import annotations

import contextlib
import random
import subprocess
import tempfile
import time
import unittest
from collections.abc import Callable
from pathlib import Path
from unittest import mock

from example_tables import CATALOGUE, two_schemas
from fixtures import NO_PARSER, TOOL
from patience import LONG

if not NO_PARSER:
    from cophy_pg.rewrite import Options, Rewriter, rewriter

# Statements of MySQL and of an attacker, many of which stand one after another.
LINES = {
    "a quote behind a backslash": "INSERT INTO `t` VALUES (1,'it\\'s; a \\\"test\\\"','x');\n",
    "quotes in pairs": 'SELECT `a` FROM t WHERE b = "it\'s";\n',
    "a backslash before the last quote": "SELECT `a` FROM t WHERE b = 'c\\\\';\n",
    "another comment": "# it's a comment;\nSELECT a FROM t WHERE b = 'x';\n",
    "a comment without an end": "SELECT /* a FROM t;\n",
    "comments without an end on one line": "SELECT /* a FROM t; ",
    "tags without an end": "SELECT $a$ FROM t;\n",
    "dashes behind a text with E": "SELECT E'a'" + "-" * 70 + " ",
    "data of COPY": "COPY t FROM stdin;\n1\tit's\n",
    "many statements": "SELECT a FROM t LIMIT 5;\n",
    "comments within a statement": "-- weight 5\n/**/a",
    "variables": "SELECT :a, `b` FROM t WHERE c = :'d' AND e='it\\'s';\n",
}
# By name: a statement of so many levels, some of which hide from who doesn't cut a text as PostgreSQL does.
DEEP = {
    "operators": lambda n: "SELECT a FROM t WHERE a = " + " + ".join(["1"] * n),
    "behind a name with $": lambda n: f"SELECT a$b$ FROM t WHERE a = {' + '.join(['1'] * n)} AND x$b$ = 1",
    "signs without blanks": lambda n: "SELECT " + "+-" * n + "1 FROM t",
    "behind a comment in an operator": lambda n: f"SELECT 1 +/* ' */ 1 {'+ 1 ' * n}, '' FROM t",
    "behind a text with E": lambda n: f"SELECT E'\\'', 1 {'+ 1 ' * n}, E'\\'' FROM t",
    "behind a text that goes on": lambda n: f"SELECT E'a'\n'\\'', 1 {'+ 1 ' * n}, E'\\'' FROM t",
    "behind a carriage return": lambda n: f"SELECT -- '\r 1 {'+ 1 ' * n} , -- '\r a FROM t",
    "behind a comment in a comment": lambda n: f"SELECT /* /* */ ' */ 1 {'+ 1 ' * n}, '' FROM t",
    "set operations": lambda n: "SELECT a FROM t " + "UNION SELECT a FROM t " * n,
    "joins": lambda n: "SELECT 1 FROM t " + "JOIN t x ON true " * n,
    "casts": lambda n: "SELECT a" + "::int" * n + " FROM t",
}


def seconds(work: Callable[[str], object], text: str) -> float:
    """The least processor time of three runs."""
    times = []
    for _ in range(3):
        begun = time.process_time()
        work(text)
        times.append(time.process_time() - begun)
    return min(times)


@unittest.skipIf(NO_PARSER, NO_PARSER)
class Linear(unittest.TestCase):
    def test_the_parser_gets_each_byte_a_few_times(self) -> None:
        from cophy_pg import inputs
        from pglast import parser

        free, size = 1 << 14, 160_000
        for name, line in LINES.items():
            with (
                self.subTest(name=name),
                mock.patch("cophy_pg.pieces.FREE", free),
                mock.patch.object(parser, "split", wraps=parser.split) as split,
            ):
                inputs.from_sql((line * (size // len(line))).encode())
                # What is read beyond a bad statement is read again, once and up to a fixed length.
                self.assertLess(sum(len(it.args[0]) for it in split.call_args_list), 6 * size + 2 * free)

    def test_four_times_the_text_takes_about_four_times_the_time(self) -> None:
        from cophy_pg import inputs
        from cophy_pg.rewrite.parse import depth_of
        from cophy_lint.checks import workload_remarks
        from cophy_text.tokens import tokens
        from cophy_text.workloads import NoWorkload, read_statements

        def statements(text: str) -> None:
            with contextlib.suppress(NoWorkload):
                read_statements(text.encode())

        table: dict[str, Callable[[str], object]] = {
            "cutting": lambda text: inputs.from_sql(text.encode()),
            "depth": depth_of,
            "tokens": lambda text: [*tokens(text.encode())],
            "statements": statements,
            "lint": lambda text: workload_remarks(text.encode(), {}),
        }
        for what, work in table.items():
            for name, line in LINES.items():
                with self.subTest(what=what, name=name):
                    small, large = (line * (size // len(line)) for size in (60_000, 240_000))
                    # A machine with other work may slow down one of the two.
                    close = any(seconds(work, large) < 10 * seconds(work, small) + 0.1 for _ in range(5))
                    self.assertTrue(close, "four times the text takes more than ten times the time")

    def test_no_statement_is_too_deep(self) -> None:
        with tempfile.TemporaryDirectory() as name:
            files = [str(Path(name) / it) for it in ("catalogue.toml", "given.sql", "workload.sql")]
            Path(files[0]).write_text(CATALOGUE)
            listed = [form(count) for form in DEEP.values() for count in (3000, 60000)]
            Path(files[1]).write_text(";\n".join([*listed, "SELECT a FROM t;\n"]))
            ran = subprocess.run([TOOL, "rewrite", *files], capture_output=True, text=True, check=False, timeout=LONG)
            self.assertEqual(ran.returncode, 0, ran.stderr[-500:])
            self.assertIn("SELECT a\nFROM t;", Path(files[2]).read_text())
            self.assertRegex(ran.stderr, rf"{len(listed) + 1} statements, written as 1\n")
            self.assertIn("it nests too deep", ran.stderr)

    def test_what_nests_too_deep_is_told(self) -> None:
        deep = {
            "paren": "SELECT a FROM t WHERE a = " + "(" * 5000 + "1" + ")" * 5000,
            "sum": "SELECT " + "a + " * 30000 + "1 FROM t",
            "call": "SELECT " + "f(" * 4000 + "a" + ")" * 4000 + " FROM t",
            "not": "SELECT a FROM t WHERE " + "NOT " * 9000 + "a = 1",
            "cast": "SELECT a" + "::int" * 30000 + " FROM t",
            "operator": "SELECT a" + " OPERATOR(pg_catalog.+) a" * 30000 + " FROM t",
            "zone": "SELECT a" + " AT TIME ZONE 'x'" * 9000 + " FROM t",
            "element": "SELECT a" + "[1]" * 9000 + " FROM t",
            "case": "SELECT " + "CASE WHEN a = 1 THEN " * 3000 + "1" + " END" * 3000 + " FROM t",
            "union": " UNION ".join(["SELECT a FROM t"] * 9000),
            "sides": "SELECT a FROM t WHERE a = 1" + " AND (a = 2 OR a = 3" * 4000 + ")" * 4000,
            "sources": "SELECT 1 FROM " + "(SELECT * FROM " * 3000 + "t" + ") x" * 3000,
        }
        for name, text in deep.items():
            with self.subTest(name=name):
                self.assertEqual(Rewriter(two_schemas()).rewrite(text).skipped, "it nests too deep")
        joined = "SELECT t.a FROM t " + " ".join(f"JOIN t t{it} ON t.a = t{it}.a" for it in range(100))
        self.assertEqual(Rewriter(two_schemas()).rewrite(joined).skipped, "it has more than 64 sources")

    def test_what_is_long_but_flat_is_taken(self) -> None:
        for text in (
            "SELECT a FROM t WHERE " + " AND ".join(["a = 1"] * 3000),
            "SELECT a FROM t WHERE a IN (" + ", ".join(["-1"] * 5000) + ")",
            "INSERT INTO t VALUES " + ", ".join(["(1, -2)"] * 5000),
        ):
            self.assertEqual(Rewriter(two_schemas()).rewrite(text).skipped, "")

    def test_views_that_double_at_each_level_are_left_out(self) -> None:
        from cophy_pg.catalogue import read_schema

        schema = read_schema(CATALOGUE.encode())
        views = {("public", "v0"): "SELECT a, a AS b FROM t", ("public", "w0"): "SELECT a, a AS b FROM t"}
        for at in range(1, 41):
            views["public", f"v{at}"] = f"SELECT x.a, x.b FROM v{at - 1} x JOIN v{at - 1} y ON x.a = y.a"
            views["public", f"w{at}"] = f"SELECT a + b AS a, a - b AS b FROM w{at - 1}"
        schema.views = views
        found = Rewriter(schema, Options()).rewrite("SELECT a FROM v40")
        self.assertEqual(found.skipped, f"it reads more than {rewriter.MOST_VIEWS} views, views of views among them")
        found = Rewriter(schema, Options()).rewrite("SELECT a FROM w40 WHERE b = 5")
        self.assertLess(max(map(len, found.statements)), 2000)
        self.assertIn("a", found.statements[0])

    def test_no_level_hides(self) -> None:
        from cophy_pg.rewrite.parse import DEEPEST, depth_of

        for name, form in DEEP.items():
            with self.subTest(form=name):
                self.assertGreater(depth_of(form(DEEPEST + 1)), DEEPEST)
                self.assertLess(depth_of(form(3)), 60)

    def test_a_text_is_cut_as_postgresql_does(self) -> None:
        from cophy_pg.rewrite.parse import _tokens
        from pglast.parser import ParseError, scan

        parts = r"""' '' \' \ E' " $$ $a$ a$b$ $1 -- /* */ + - / :: ( ) [ ] , NOT a 1 N' AND CASE END < @ ` ;""".split()
        names = {"(": "open", "[": "open", ")": "close", "]": "close", ",": "apart", ";": "apart", "AND": "apart"}
        names |= {"CASE": "open", "END": "close", "NOT": "more"}
        drawn, compared = random.Random(1), 0
        for _ in range(20000):
            text = "".join(drawn.choice([*parts, " ", "\n", "\r", "\t"]) for _ in range(drawn.randrange(1, 14)))
            try:
                listed = [(it.name, text[it.start : (it.end or it.start) + 1].upper()) for it in scan(text)]
            except (ParseError, UnicodeDecodeError):
                continue
            operators = ("Op", "TYPECAST", "ASCII_42", "ASCII_43", "ASCII_45", "ASCII_47", "ASCII_60")
            theirs = [
                "more" if kind in operators else names[it] for kind, it in listed if kind in operators or it in names
            ]
            ours = [{"element": "close"}.get(kind, kind) for kind, _ in _tokens(text)]
            compared += 1
            self.assertEqual(squeezed(ours), squeezed(theirs), repr(text))
        self.assertGreater(compared, 2000)


def squeezed(kinds: list[str]) -> list[str]:
    """Operators that stand side by side as one."""
    return [it for at, it in enumerate(kinds) if it != "more" or at == 0 or kinds[at - 1] != "more"]


if __name__ == "__main__":
    unittest.main()
