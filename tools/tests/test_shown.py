"""What is printed of amounts, statements and folders."""
from __future__ import annotations

import argparse
import shlex
import unittest

from cophy_text import answers, shown
from cophy_text.tokens import statements


class Shown(unittest.TestCase):
    def test_amounts_are_pages_or_have_a_unit(self) -> None:
        table = {"0": 0, "12800": 12800, "1 page": 1, "7pages": 7, "100MB": 12800, "2GB": 262144, "1.5 gb": 196608}
        table |= {"8kB": 1, "7kB": 0, "1TB": 134217728, " 64 MB ": 8192, "0.5MB": 64}
        for text, pages in table.items():
            with self.subTest(text=text):
                self.assertEqual(shown.pages_of(text), pages)
        for text in ("", "-1", "1PB", "MB", "1 2", "1e3", "1000000000001", "8000TB", "0x10", "1,000"):
            with self.subTest(text=text):
                self.assertRaises(ValueError, shown.pages_of, text)

    def test_numbers_and_statements(self) -> None:
        self.assertEqual((shown.grouped(1234567), shown.grouped(1234.6)), ("1,234,567", "1,235"))
        self.assertEqual(
            (shown.space(1280), shown.space(1310720), shown.space(262144)), ("10.0 MB", "10.0 GB", "2,048.0 MB")
        )
        self.assertEqual((shown.percent(-0.01), shown.percent(1234.56)), ("0.0 %", "1,234.6 %"))
        self.assertEqual((answers.counted(1, "call"), answers.counted(1000, "call")), ("1 call", "1,000 calls"))
        self.assertEqual(shown.short("-- a\n/* b */ SELECT  a,\n\tb\x1b[2J FROM t"), "SELECT a, b?[2J FROM t")
        self.assertEqual(len(shown.short("SELECT " + "x" * 200)), 60)

    def test_no_name_of_a_folder_ends_a_comment_of_its_commands(self) -> None:
        from cophy_pg.commands import commands_text
        from cophy_pg.folder import Folder
        from cophy_pg.rewrite.options import TEXTS

        given: dict[str, object] = {"nodes": None, "is_trusted": False, **dict.fromkeys(TEXTS, True), "min_calls": 1}
        given |= {"program": "cophy", "sql": None, "log": None, "since": None}
        given |= {"tables": [], "users": [], "may_cluster": [], "include": False}
        text = commands_text(argparse.Namespace(**given), Folder("a\nb '$(c)"), 5, False)
        head, steps = text.split("cophy-pg export", 1)
        self.assertTrue(all(it.startswith("#") for it in head.splitlines()), head)
        self.assertEqual(shlex.split(steps)[0], "a\nb '$(c)/catalogue.toml")

    def test_statements_of_a_workload_by_their_numbers(self) -> None:
        found = statements(b"-- from 1\n-- weight 5\nSELECT ';' FROM t; ; -- x\nSELECT 2\n FROM u")
        self.assertEqual(found, {1: "SELECT ';' FROM t", 2: "SELECT 2\n FROM u"})


if __name__ == "__main__":
    unittest.main()
