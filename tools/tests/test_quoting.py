"""Names and strings of an attacker do nothing where they are written, sent or shown."""
from __future__ import annotations

import re
import unittest
from pathlib import Path

from attacked_server import OverPrey, as_app, mark
from fixtures import NO_HYPOPG


@unittest.skipIf(NO_HYPOPG, NO_HYPOPG)
class Quoting(OverPrey):
    def run_made(self, *more: str) -> str:
        """Runs what `ddl` prints as a superuser, which leaves no mark; the errors."""
        ran = self.call("ddl", self.files[0], self.files[2], *more)
        self.assertEqual((ran.returncode, ran.stdout.isascii()), (0, True), ran.stderr)
        said = self.server.psql(ran.stdout, "prey", check=False)
        self.assertFalse(self.marks())
        return said.stderr

    def test_strings_end_where_the_parser_says(self) -> None:
        self.server.psql("ALTER DATABASE prey SET standard_conforming_strings TO off")
        self.addCleanup(self.server.psql, "ALTER DATABASE prey RESET standard_conforming_strings")
        ran = self.verify(["SELECT a FROM t WHERE b = '\\' OR a = 1 OR b = ' OR a = strike() --'", "SELECT a FROM t"])
        self.assertEqual(ran.returncode, 0, ran.stderr)
        self.assertNotIn("not explained", ran.stdout)
        self.assertFalse(self.marks())

    def test_odd_names_do_nothing(self) -> None:
        touch = f"touch {mark(self.server)}"
        names = [
            f"x\"; COPY (SELECT 1) TO PROGRAM '{touch}'; --",
            f"new\n\\! {touch}\nline",
            f"`{touch}`",
            "%s %(a)s {0} %",
            ":a :'a' :\"a\" $1 $$",
            "'; SELECT strike(); --",
            "\x1b[2J\x07",
            "back\\slash\\",
        ]
        quoted = ['"' + it.replace('"', '""')[:60] + '"' for it in names]
        as_app(self.server, "".join(f"CREATE TABLE {it} ({it} int, n int);" for it in quoted))
        self.addCleanup(as_app, self.server, "".join(f"DROP TABLE {it};" for it in quoted))
        ran = self.verify([*(f"SELECT n FROM {it} WHERE {it} = 1" for it in quoted), "SELECT a FROM t"])
        self.assertEqual(ran.returncode, 0, ran.stderr)
        self.assertFalse(self.marks())
        first = re.compile(r'\[\[table\]\]\nname = "(\w+)".*?\[\[table.column\]\]\nname = "(\w+)"', re.DOTALL)
        picks = [f"{table}({column})" for table, column in first.findall(Path(self.files[0]).read_text())]
        self.assertGreater(len(picks), len(names))
        self.lay_advice(picks)
        ran = self.verify_again()
        self.assertEqual(ran.returncode, 0, ran.stderr)
        self.assertNotIn("\x1b", ran.stdout + ran.stderr)
        self.run_made()
        # Of a table with a partition key of another role's PostgreSQL would run that role's function.
        self.assertIn("let their owner run the script, not a superuser", self.run_made("--script"))
        ran = self.call("health", "--min-size", "0")
        self.assertIn(ran.returncode, (0, 3), ran.stderr)
        text = ran.stdout
        self.assertTrue(text.isascii() and all(it.startswith("--") or not it for it in text.splitlines()), text)
        self.server.psql(text, "prey")
        self.assertFalse(self.marks())

    def test_no_encoding_of_the_database_opens_a_quote(self) -> None:
        names = ["\u3042", f"x\n\\! touch {mark(self.server)}\n"]
        as_app(self.server, "".join(f'CREATE TABLE "{it}" (a int);' for it in names))
        as_app(self.server, "ALTER DATABASE prey SET client_encoding TO 'SJIS'")
        self.addCleanup(as_app, self.server, "ALTER DATABASE prey RESET client_encoding")
        self.assertEqual(self.verify(["SELECT a FROM t"]).returncode, 0)
        tables = re.findall(r'\nname = "(evil__|evil_x____touch\w+)"', Path(self.files[0]).read_text())
        self.assertEqual(len(tables), 2)
        self.lay_advice(f"{it}(a)" for it in tables)
        self.server.psql("".join(f'COMMENT ON TABLE evil."{it}" IS NULL;\n' for it in names), "prey", check=False)
        self.assertTrue(self.marks(), "names as they are run a command in psql")
        self.run_made()

    def test_names_of_functions_are_told_in_plain_text(self) -> None:
        as_app(
            self.server, "CREATE FUNCTION \"\x1b]0;x\x07\n!\"(int) RETURNS int LANGUAGE sql IMMUTABLE AS 'SELECT 1';"
        )
        ran = self.verify(['SELECT a FROM t WHERE a = "\x1b]0;x\x07\n!"(1)'])
        self.assertIn("evil.\\x1b]0;x\\x07\\n!(integer) of app", ran.stderr)
        self.assertNotIn("\x1b", ran.stdout + ran.stderr)


if __name__ == "__main__":
    unittest.main()
