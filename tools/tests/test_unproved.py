"""`cophy --unproved`: it is built once, kept, and run as the proved program is."""
from __future__ import annotations

import os
import signal
import subprocess
import unittest
from pathlib import Path

from patience import LONG, until
from script_copy import OverCopy

SAID = b"cophy: UNPROVED: nothing has proved the program that gives this answer\n"
WRITER = """#!/bin/sh
[ "$5" != --cert ] || echo certificate >"$6"
"""
SIGNALS = (signal.SIGTERM, signal.SIGHUP, signal.SIGINT)


class Unproved(OverCopy):
    def setUp(self) -> None:
        super().setUp()
        self.out = self.copy.root / "out" / "unproved"
        self.kept = self.out / "cophy-unproved"

    def unproved(self, *words: str, status: int = 0, **more: str) -> subprocess.CompletedProcess[bytes]:
        ran = self.copy.call("--unproved", *words, **more)
        self.assertEqual((ran.returncode, ran.stderr.startswith(SAID)), (status, True), ran.stderr)
        return ran

    def builds(self) -> int:
        """How many builds there were."""
        return self.copy.called().count("rt try -- try in cophy_cli")

    def test_the_first_call_builds_and_hands_on_text_and_status(self) -> None:
        ran = self.unproved("cost", "a", "b", status=3, FAKE_TEXT="x\\000\\377y", FAKE_STATUS="3")
        self.assertEqual(ran.stdout, b"x\0\xffy")
        self.assertEqual(self.copy.called(), ["rt try -- try in cophy_cli", "program try", "program cost a b"])
        told = f"cophy: kept as {self.kept}; for the tools: export COPHY_PROGRAM={self.kept}\n"
        self.assertTrue(ran.stderr.decode().endswith(told), ran.stderr)
        self.assertEqual(
            sorted(it.name for it in self.out.iterdir()), ["build.lock", "build.log", "built", self.kept.name]
        )

    def test_later_calls_build_nothing_and_say_one_line(self) -> None:
        self.unproved("cost", "a", "b")
        (self.copy.folder / "bin" / "rt").unlink()
        for status in range(8):
            with self.subTest(status=status):
                self.copy.forget()
                ran = self.unproved("cost", "c d", "*", status=status, FAKE_TEXT="done", FAKE_STATUS=str(status))
                self.assertEqual((ran.stdout, ran.stderr), (b"done", SAID))
                self.assertEqual(self.copy.called(), ["program cost c d *"])
        self.assertEqual(self.unproved(FAKE_TEXT="usage: no command").stdout, b"usage: no command")

    def test_a_newer_source_is_built_again(self) -> None:
        self.unproved("cost", "a", "b")
        for count, name in enumerate(("crates/adv_base/src/lib.rt", "crates.txt"), 2):
            source = self.copy.root / name
            source.touch()
            os.utime(source, (2**31, 2**31))
            self.unproved("cost", "a", "b")
            self.assertEqual(self.builds(), count)

    def test_it_is_not_the_proved_program(self) -> None:
        self.unproved("cost", "a", "b")
        self.assertIn(b"isn't built yet", self.copy.call("version").stdout)
        self.copy.build()
        self.copy.forget()
        self.unproved("cost", "a", "b")
        self.assertEqual(self.copy.called(), ["program cost a b"])

    def test_a_certificate_is_written_by_the_first_call_and_by_later_ones(self) -> None:
        self.copy.lay_script("program", WRITER)
        for name in ("first", "second"):
            self.unproved("advise", "a", "b", "9", "--cert", name)
            self.assertEqual((self.copy.root / name).read_text(), "certificate\n")
        self.assertEqual(self.builds(), 1)

    def test_hints_follow_as_after_the_proved_program(self) -> None:
        ran = self.unproved(
            "cost",
            "examples/single.toml",
            "nowhere.sql",
            status=3,
            FAKE_TEXT="read fault: nowhere.sql\\n",
            FAKE_STATUS="3",
            COPHY_HINTS="1",
        )
        self.assertIn(b"there is no such file", ran.stderr)

    def test_what_cannot_be_kept_is_told_and_ends_with_70(self) -> None:
        table = {
            "the build has no end": {"FAKE_RT": "6", "FAKE_ENDS": "run=none proved=no"},
            "the program stands elsewhere": {"FAKE_STANDS": "other"},
            "the program answers otherwise": {"FAKE_ENDS": "run=ended status=9 runners=1 proved=no"},
        }
        for count, (what, how) in enumerate(table.items(), 1):
            with self.subTest(what=what):
                ran = self.unproved("cost", "a", "b", status=70, **how)
                self.assertEqual(ran.stdout, b"")
                self.assertIn(b"the program couldn't be built without its proof, or couldn't be kept; the", ran.stderr)
                self.assertIn(b"proved=no", ran.stderr)
                self.assertEqual(sorted(it.name for it in self.out.iterdir()), ["build.lock", "build.log"])
                self.assertEqual(self.builds(), count)
        self.assertEqual(self.unproved("cost", "a", "b", FAKE_TEXT="done").stdout, b"done")

    def begin(self) -> subprocess.Popen[str]:
        """Begins a call whose build waits, and which takes each signal, whatever this process ignores."""

        def prepare() -> None:
            for number in SIGNALS:
                signal.signal(number, signal.SIG_DFL)

        return subprocess.Popen(
            [self.copy.root / "cophy", "--unproved", "cost", "a", "b"],
            cwd=self.copy.root,
            env=self.copy.environment(FAKE_TEXT="done", FAKE_UNTIL=str(self.copy.goes_on)),
            stdin=subprocess.DEVNULL,
            stdout=subprocess.PIPE,
            stderr=subprocess.PIPE,
            preexec_fn=prepare,
            text=True,
        )

    def test_of_two_calls_at_once_the_second_waits_for_the_first_ones_build(self) -> None:
        first = self.begin()
        until(self.copy.called, "the first one builds")
        second = self.begin()
        assert second.stderr is not None
        lines = [second.stderr.readline(), second.stderr.readline()]
        self.assertEqual(lines, [SAID.decode(), f"cophy: waiting for another build in {self.copy.root}\n"])
        self.copy.goes_on.touch()
        for it in (first, second):
            self.assertEqual((it.communicate(timeout=LONG)[0], it.returncode), ("done", 0))
        self.assertEqual(self.builds(), 1)

    def test_a_call_that_is_told_to_end_leaves_nothing(self) -> None:
        for number in SIGNALS:
            with self.subTest(number=number):
                self.copy.forget()
                started = self.begin()
                until(self.copy.called, "it builds")
                os.kill(started.pid, number)
                self.assertEqual((started.communicate(timeout=LONG)[0], started.returncode), ("", 130))
                self.assertEqual(sorted(it.name for it in Path(self.out).iterdir()), ["build.lock", "build.log"])


if __name__ == "__main__":
    unittest.main()
