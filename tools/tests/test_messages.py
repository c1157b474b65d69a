"""No file, word or terminal gives a traceback: what `cophy-pg` can't read is told."""
from __future__ import annotations

import os
import subprocess
import unittest

from example_tables import ADVICE, CATALOGUE
from fixtures import NO_PARSER, TOOL, InFolder
from patience import LONG


@unittest.skipIf(NO_PARSER, NO_PARSER)
class Messages(InFolder):
    def setUp(self) -> None:
        super().setUp()
        (self.folder / "c.toml").write_text(CATALOGUE)
        (self.folder / "q.sql").write_text("SELECT a FROM t;\nSELEC 1;\n")
        (self.folder / "advice").write_text(ADVICE)

    def call(self, *words: str, **environment: str) -> subprocess.CompletedProcess[str]:
        ran = subprocess.run(
            [str(TOOL), *words],
            cwd=self.folder,
            capture_output=True,
            env={**os.environ, **environment},
            check=False,
            timeout=LONG,
            text=True,
            encoding="latin-1",
        )
        self.assertNotIn("Traceback", ran.stderr)
        return ran

    def test_a_bad_statement_is_counted_with_its_line(self) -> None:
        (self.folder / "q.sql").write_text("SELEC 1;\n-- weight 12345\nSELECT a FROM t;\n")
        ran = self.call("rewrite", "c.toml", "q.sql", "w.sql", "--report", "r.txt")
        self.assertIn("2 statements, written as 1", ran.stderr)
        self.assertRegex(ran.stderr, r"1   50\.0 % .*PostgreSQL's parser doesn't take it \(line 1\)")
        report = (self.folder / "r.txt").read_text()
        self.assertIn("\n  statement 1 kept (line 3, calls 12,345): SELECT a FROM t\n", report)
        self.assertIn("\n  skipped (line 1, calls 1): PostgreSQL's parser doesn't take it; SELEC ?\n", report)

    def test_words_that_mean_nothing_are_told(self) -> None:
        for words in (
            ("--budgets", "a"),
            ("--budgets", ""),
            ("--budgets", "1,,2"),
            ("--budgets", "-5"),
            ("--budgets", "9" * 5000),
            ("--steps", "0"),
            ("--steps", "x"),
            ("--nodes", "-1"),
        ):
            with self.subTest(words=[it[:20] for it in words]):
                ran = self.call("curve", "c.toml", "q.sql", *words)
                self.assertEqual(ran.returncode, 2)
                self.assertIn(f"argument {words[0]}:", ran.stderr)

    def test_broken_catalogues_are_told(self) -> None:
        whole = CATALOGUE + '[[table.index]]\nname = "i"\nkeys = ["a"]\n'
        broken = [
            "\x00",
            "version",
            "table = 5",
            "table = [5]",
            "[[table]]",
            "a = " + "[" * 100000,
            whole.replace('"t"', "5"),
            whole.replace("1000", '"many"'),
            whole.replace("1000", "true"),
            whole.replace('"int"', '"float"'),
            whole.replace("width = 4", "width = []"),
            whole.replace('["a"]', '["b"]'),
            whole.replace('["a"]', "5"),
            whole.replace('name = "t"', 'name = "t"\npostgres = 5'),
            whole.replace('name = "t"', 'name = "t"\npostgres = ["a"]'),
            whole.replace('name = "t"', 'name = "t"\npostgres = [1, 2]'),
            whole.replace('name = "t"', 'name = "t"\npostgres_children = [["a"]]'),
            whole.replace("width = 4", 'width = 4\nlow = "x"\nhigh = 5'),
            whole.replace("width = 4", "width = 4\npostgres_no_key = 5"),
            "postgres_taken = [5]\n" + whole,
        ]
        for text in broken:
            with self.subTest(text=text[-60:]):
                (self.folder / "broken").write_text(text)
                for words in (("ddl", "broken", "advice"), ("rewrite", "broken", "q.sql", "w.sql")):
                    ran = self.call(*words)
                    self.assertEqual((ran.returncode, ran.stderr[:40]), (1, "cophy-pg: the catalogue can't be read: c"))

    def test_broken_advice_is_told(self) -> None:
        for text in (
            "",
            "budget x\n",
            ADVICE.replace("t(a)", "t(b)"),
            ADVICE.replace("t(a)", "u(a)"),
            ADVICE.replace("3 pages", "9" * 5000 + " pages"),
            ADVICE.replace("pick 1 t(a)", "pick 1 t(a"),
            "\x00" * 50,
        ):
            with self.subTest(text=text[:40]):
                (self.folder / "broken").write_text(text)
                self.assertEqual(self.call("ddl", "c.toml", "broken").returncode, 1)

    def test_terminals_of_few_letters_are_written_to(self) -> None:
        (self.folder / "c.toml").write_text(
            CATALOGUE.replace('name = "t"', 'name = "t"\npostgres = ["public", "\\u8868 \\u00e9"]').replace(
                "width = 4", 'width = 4\npostgres = "\\u5217"\npostgres_no_key = "\\u5217"'
            )
        )
        for environment in (
            {"PYTHONIOENCODING": "latin-1"},
            {"PYTHONIOENCODING": "ascii"},
            {"LC_ALL": "C"},
            {"LC_ALL": "POSIX", "PYTHONUTF8": "0"},
        ):
            with self.subTest(environment=environment):
                ran = self.call("ddl", "c.toml", "advice", **environment)
                self.assertEqual(ran.returncode, 0)
                self.assertTrue(ran.stdout.isascii())
                ran = self.call("rewrite", "c.toml", "q.sql", "\u8868.sql", **environment)
                self.assertEqual(ran.returncode, 0, ran.stderr)
        (self.folder / "c.toml").write_text(
            CATALOGUE.replace('name = "t"', 'name = "t"\npostgres = ["s", "\\u8868 \\u00e9"]')
        )
        ran = self.call("ddl", "c.toml", "advice", PYTHONIOENCODING="latin-1")
        self.assertIn(r'ON "s".U&"\8868 \00e9" ("a");', ran.stdout)


if __name__ == "__main__":
    unittest.main()
