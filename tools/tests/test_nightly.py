"""The example of a nightly job by `cophy-pg edits` and `cophy retune`, over a stand-in for the program and over itself."""
from __future__ import annotations

import configparser
import os
import shlex
import shutil
import subprocess
from collections.abc import Iterator
from contextlib import contextmanager
from pathlib import Path
from unittest import skipIf

from fixtures import ADVISOR, COPHY, ROOT, STAND_IN, InFolder, shop
from patience import LONG
from private_server import PrivateServer, missing
from test_daily import MADE

UNITS = ROOT / "examples" / "systemd"
PROGRAMS = [STAND_IN, *([COPHY] if os.access(COPHY, os.X_OK) else [])]
SPACE, PAGES = "1.5MB", 192


@skipIf(missing(), missing())
class Nightly(InFolder):
    server: PrivateServer
    program: Path

    def setUp(self) -> None:
        super().setUp()
        self.server = shop()
        self.home = self.folder / "all nights"
        self.home.mkdir()

    def night(self, *words: str, status: int = 0) -> list[str]:
        """The lines about indexes that a call prints."""
        command = [str(UNITS / "cophy-retune"), str(self.home), *(words or (SPACE, "--table", "t"))]
        ran = subprocess.run(
            command,
            env=self.server.environment("nights", PGUSER="cophy_advisor", COPHY_PROGRAM=str(self.program)),
            capture_output=True,
            text=True,
            check=False,
            timeout=LONG,
        )
        self.assertEqual(ran.returncode, status, ran.stderr)
        self.said = ran.stderr
        self.assertEqual(self.folders()[-1].stat().st_mode & 0o777, 0o700)
        self.assertEqual((self.folders()[-1] / "changes.txt").read_text(), ran.stdout)
        self.assertIn(f"budget {PAGES}\n", (self.folders()[-1] / "advice.txt").read_text())
        self.assertRegex(ran.stdout, r"(\A|\n)size [\d.,]+ MB\ncost [\d,]+\nbound [\d,]+\n\Z")
        return [it for it in ran.stdout.splitlines() if ": " in it]

    def folders(self) -> list[Path]:
        return sorted(self.home.iterdir())

    def edits(self) -> list[str]:
        return (self.folders()[-1] / "edits.txt").read_text().splitlines()

    def run_statements(self, *texts: str) -> None:
        self.server.psql("".join(f"{it};" * 9 for it in texts), "nights")

    @contextmanager
    def over(self, program: Path) -> Iterator[None]:
        """With a program, a database and no night so far."""
        self.program = program
        with self.subTest(program=program.name):
            self.server.psql("CREATE DATABASE nights")
            try:
                self.server.psql(MADE + ADVISOR.read_text(), "nights")
                yield
            finally:
                self.server.psql("DROP DATABASE nights")
                shutil.rmtree(self.home)
                self.home.mkdir()

    def test_night_by_night(self) -> None:
        for program in PROGRAMS:
            with self.over(program):
                self.nights()

    def nights(self) -> None:
        by_b, by_c = ("SELECT a FROM t WHERE b = 5", "SELECT a FROM t WHERE c = 5")
        self.run_statements(by_b)
        [first] = self.night(status=3)
        self.assertRegex(first, r"\Anew: t\(b(, a)?\)\Z")
        self.assertIn("advice starts afresh", self.said)
        self.assertIn("CREATE INDEX CONCURRENTLY", (self.folders()[-1] / "indexes.sql").read_text())
        # The same statements, one of them twice as often.
        self.run_statements(by_b, by_b)
        self.assertEqual(self.night(), [first.replace("new", "as before")])
        self.assertEqual(self.edits(), ["weigh 1 18", "advise"])
        self.assertNotIn("afresh", self.said)
        # Another statement in its place.
        self.run_statements(by_c)
        other, gone = self.night(status=3)
        self.assertEqual(self.edits(), ["remove 1", "add 9 SELECT a FROM t WHERE c = ?", "advise"])
        self.assertRegex(other, r"\Anew: t\(c(, a)?\)\Z")
        self.assertEqual(gone, first.replace("new", "no longer"))
        # The index of before is there.
        columns = other.partition("(")[2][:-1]
        self.server.psql(f"CREATE INDEX ON t ({columns}); ANALYZE t", "nights")
        self.run_statements(by_c)
        self.assertEqual(self.night(status=3), [other.replace("new", "made since, or gone with its table")])
        self.assertEqual(self.edits(), ["advise"])
        # Nothing ran, and the night after something does.
        self.assertEqual(self.night(), [])
        self.run_statements(by_b)
        self.assertEqual(self.night(status=3), [first])

    def test_an_old_statement_over_a_table_that_is_gone(self) -> None:
        for program in PROGRAMS:
            with self.over(program):
                by_b = "SELECT a FROM t WHERE b = 5"
                self.run_statements("SELECT a FROM u WHERE a = 5", by_b)
                before = self.night(SPACE, status=3)
                self.server.psql("DROP TABLE u", "nights")
                self.run_statements(by_b)
                found = self.night(SPACE, status=3 if len(before) > 1 else 0)
                kept = [it.replace("new", "as before") for it in before if "t(b" in it]
                self.assertEqual([it for it in found if "t(b" in it], kept)
                if self.program == COPHY:
                    self.assertIn("cophy retune answers: refused: no table at", self.said)
                    self.assertIn("advice starts afresh", self.said)

    def test_what_is_no_amount_of_space_is_refused(self) -> None:
        for it in ("2PB", "-1", "", "1.5.5GB", "1e3", "1234567890123"):
            with self.subTest(space=it):
                words = [str(UNITS / "cophy-retune"), str(self.home), it]
                ran = subprocess.run(words, capture_output=True, text=True, check=False, timeout=LONG)
                self.assertEqual((ran.returncode, ran.stdout), (2, ""))
                self.assertRegex(ran.stderr, r"\Acophy-retune: .* is (no amount of space|over 1,000,000,000,000 pages)")
        self.assertEqual(self.folders(), [])

    def test_the_example_of_a_timer_calls_it(self) -> None:
        units = {}
        for name in ("cophy-retune@.service", "cophy-retune@.timer"):
            units[name] = configparser.ConfigParser(strict=False, interpolation=None)
            units[name].read(UNITS / name)
        self.assertEqual(units["cophy-retune@.timer"]["Install"]["WantedBy"], "timers.target")
        service = units["cophy-retune@.service"]["Service"]
        self.assertEqual(service["SuccessExitStatus"], "3")
        command = shlex.split(service["ExecStart"])
        script = "/usr/share/cophy-pg/examples/systemd/cophy-retune"
        self.assertEqual(command[:3], [script, "${STATE_DIRECTORY}", "2GB"])
        ran = subprocess.run(
            [str(ROOT / "tools" / "pg" / "cophy-pg"), "export", "a", "b", *command[3:], "--help"],
            stdout=subprocess.DEVNULL,
            check=False,
            timeout=LONG,
        )
        self.assertEqual(ran.returncode, 0)
