"""The script `cophy`: what it answers by itself, and what it hands on."""
from __future__ import annotations

import unittest

from cophy_text import VERSION
from script_copy import OverCopy


class Wrapper(OverCopy):
    def test_help_and_version_go_to_the_standard_output_and_build_nothing(self) -> None:
        helped = (("help",), ("--help",), ("-h",), ("help", "advise"), ("cost", "--help"), ("bench", "-h"))
        versions = (("version",), ("--version",), ("-V",))
        for is_built in (False, True):
            if is_built:
                self.copy.build()
            table = [(it, b"cophy explain CAT") for it in helped]
            table += [(it, b"is built" if is_built else b"isn't built yet") for it in versions]
            table += [(it, b"; catalogue versions 1 and 2, certificate versions 1 and 2\n") for it in versions]
            table += [(it, f"cophy {VERSION}, commit ".encode()) for it in versions]
            for words, told in table:
                with self.subTest(words=words, is_built=is_built):
                    ran = self.copy.call(*words, FAKE_TEXT="its own bytes", FAKE_STATUS="2", COPHY_HINTS="1")
                    self.assertEqual((ran.returncode, ran.stderr), (0, b""))
                    self.assertIn(told, ran.stdout)
        self.assertEqual(self.copy.called(), [])

    def test_no_words_are_faulty_ones_and_build_nothing(self) -> None:
        ran = self.copy.call()
        self.assertEqual((ran.returncode, ran.stdout), (2, b"usage: no command\n"))
        self.assertIn(b"cophy explain CAT", ran.stderr)
        self.assertEqual(self.copy.called(), [])
        self.copy.build()
        ran = self.copy.call(FAKE_TEXT="its own bytes", FAKE_STATUS="2")
        self.assertEqual((ran.returncode, ran.stdout), (2, b"its own bytes"))
        self.assertIn(b"cophy explain CAT", ran.stderr)

    def test_standard_output_and_status_are_the_programs(self) -> None:
        self.copy.build()
        for status in range(8):
            for hints in ("0", "1"):
                with self.subTest(status=status, hints=hints):
                    ran = self.copy.call(
                        "cost", "a", "b", FAKE_TEXT="x\\000\\377y", FAKE_STATUS=str(status), COPHY_HINTS=hints
                    )
                    self.assertEqual((ran.returncode, ran.stdout), (status, b"x\0\xffy"))

    def test_python_is_started_for_a_hint_alone(self) -> None:
        self.copy.build()
        marker = self.copy.folder / "marker"
        self.copy.lay_script("bin/python3", f"#!/bin/sh\ntouch {marker}\n")
        good, catalogue = ("cost", "examples/shop.toml", "examples/shop.sql"), self.copy.root / "c.toml"
        edited = ("retune", *(f"examples/two.{it}" for it in ("toml", "sql", "edits")), "4")
        for words in ((), ("help",), ("version",), ("cost", "--help"), ("bench", "1", "2", "3", "4"), good, edited):
            for status in ("0", "1", "6", "7"):
                self.copy.on_terminal(*words, FAKE_STATUS=status)
        for status in map(str, range(8)):
            self.copy.call("cost", "a", "b", FAKE_STATUS=status)
            self.copy.on_terminal("cost", "a", "b", FAKE_STATUS=status, COPHY_HINTS="0")
        self.assertFalse(marker.exists())
        catalogue.write_text("version = 1\nvresion = 1\n")
        faulty = ("cost", "c.toml", "examples/shop.sql")
        (self.copy.root / "e").write_text("weigh 1 5\n")
        silent = (*edited[:3], "e", "4")
        for words, status in ((good, "2"), (good, "3"), (good, "4"), (good, "5"), (faulty, "0"), (silent, "0")):
            with self.subTest(words=words, status=status):
                self.copy.on_terminal(*words, FAKE_STATUS=status)
                self.assertTrue(marker.exists())
                marker.unlink()

    def test_on_a_terminal_there_are_hints_unless_they_are_off(self) -> None:
        self.copy.build()
        how = {"FAKE_TEXT": "read fault: nowhere.sql\\n", "FAKE_STATUS": "3"}
        words = ("cost", "examples/single.toml", "nowhere.sql")
        self.assertIn(b"there is no such file", self.copy.on_terminal(*words, **how))
        self.assertNotIn(b"there is no such file", self.copy.on_terminal(*words, COPHY_HINTS="0", **how))


if __name__ == "__main__":
    unittest.main()
