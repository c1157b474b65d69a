"""Nothing of the current folder, of the environment or of the user's own packages is run by the scripts.

Each of them is called in a folder that has a file by the name of each module there is, which leaves a marker if it is
loaded; the environment and the home folder name the same ones. Settings of matplotlib there would give a warning.
"""
from __future__ import annotations

import importlib.util
import os
import re
import subprocess
import sys
import unittest
from pathlib import Path

from fixtures import NO_PARSER
from patience import LONG
from script_copy import ROOT, OverCopy

TOOLS = ROOT / "tools"
FOLDERS = ("tools", "bench", ".ci")
PYTHON = re.compile(rb"#![^\n]*python3")
OURS = ("cophy_text", "cophy_wrapper", "cophy_lint", "cophy_pg", "cophy_fleet", "grammar", "private_server")
STARTED = ("sitecustomize", "usercustomize", "encodings", "site", "matplotlib", "psycopg", "pglast", "numpy")
CATALOGUE = 'version = 1\n[[table]]\nname = "t"\nrows = 1\npages = 1\nrowz = 2\n'
HAS_CLUSTER = importlib.util.find_spec("distributed") is not None


def scripts() -> list[Path]:
    """All files whose first line names Python."""
    listed = [it for folder in FOLDERS for it in (ROOT / folder).rglob("*")]
    return sorted(it for it in (*listed, *ROOT.glob("*")) if it.is_file() and PYTHON.match(it.read_bytes()))


class Isolated(OverCopy):
    def setUp(self) -> None:
        super().setUp()
        self.marker = self.copy.folder / "marker"
        self.here = self.copy.folder / "here"
        user = self.copy.folder / "home" / ".local" / "lib" / f"python3.{sys.version_info[1]}" / "site-packages"
        for place in (self.here, user):
            place.mkdir(parents=True)
            self.lay(place)
        (user / "start.pth").write_text(f"import os; open({str(self.marker)!r}, 'a').write('pth')\n")
        (self.here / "c.toml").write_text(CATALOGUE)
        (self.here / "l.sql").write_text("SELECT c FROM t LIMIT 5;\n")
        (self.here / "a").write_text("budget 0\nsize 0\ncost 0\nbound 0\ngap 0\nnodes 0 of 1\nfinished\n")

    def lay(self, place: Path) -> None:
        """Lays a file for each module that there is."""
        trap = f"import posix; posix.close(posix.open({str(self.marker)!r}, posix.O_CREAT, 0o600))\n"
        for name in {*sys.stdlib_module_names, *OURS, *STARTED}:
            (place / f"{name}.py").write_text(trap)

    def call(self, *words: str | Path, **more: str) -> subprocess.CompletedProcess[str]:
        """Calls a script in that folder, and sees that no file of it was run."""
        environment = self.copy.environment(
            HOME=str(self.copy.folder / "home"),
            PYTHONPATH=f":{self.here}:.",
            PYTHONSTARTUP=str(self.here / "json.py"),
            PYTHONUSERBASE=str(self.copy.folder / "home" / ".local"),
            PYTHONINSPECT="",
            COPHY_HINTS="1",
            **more,
        )
        ran = subprocess.run(
            [str(it) for it in words],
            cwd=self.here,
            env=environment,
            stdin=subprocess.DEVNULL,
            capture_output=True,
            text=True,
            check=False,
            timeout=LONG,
        )
        self.assertFalse(self.marker.exists())
        return ran

    def test_the_folder_would_be_run_otherwise(self) -> None:
        with self.assertRaises(AssertionError):
            self.call(sys.executable, "-c", "import json")

    def test_every_script(self) -> None:
        found = scripts()
        names = {str(it.relative_to(ROOT)) for it in found}
        self.assertLessEqual({"tools/pg/cophy-pg", "tools/pg/measure/agree.py", "tools/tests/run"}, names)
        self.assertEqual(len([it for it in names if it.startswith("bench/")]), 17)
        for it in found:
            with self.subTest(script=it.name):
                self.assertRegex(it.read_bytes().split(b"\n")[0], rb"python3 -I\w*\Z")
                self.assertTrue(os.access(it, os.X_OK))
                if it.name == "fleet.py" and not HAS_CLUSTER:
                    self.skipTest("python3-distributed isn't installed")
                ran = self.call(it, "--help")
                if it.name not in ("run", "cophy-wrapper"):
                    self.assertNotIn("Traceback", ran.stderr)
                    self.assertEqual(ran.returncode, 0)

    def test_what_bench_starts(self) -> None:
        started = [
            it for it in (ROOT / "bench").glob("*.py") if re.search(r"sys\.executable(?!, \"-I)", it.read_text())
        ]
        self.assertEqual(started, [])

    def test_hints(self) -> None:
        self.copy.build()
        table = [("refused: bad byte at 8\\n", "5", "column 8"), ("", "0", "rowz means nothing")]
        table += [("read fault: nowhere/l.sql\\n", "3", "no folder nowhere")]
        for text, status, hint in table:
            with self.subTest(status=status):
                ran = self.call(self.copy.root / "cophy", "cost", "c.toml", "l.sql", FAKE_TEXT=text, FAKE_STATUS=status)
                self.assertEqual(ran.returncode, int(status))
                self.assertIn(hint, ran.stderr)

    def test_build(self) -> None:
        for jobs in ("1", "4"):
            with self.subTest(jobs=jobs):
                self.copy.forget()
                ran = self.call(self.copy.root / "cophy", "cost", "c.toml", "l.sql", FAKE_TEXT="done", COPHY_JOBS=jobs)
                self.assertEqual((ran.returncode, ran.stdout), (0, "done"))
                self.assertIn("built, in", ran.stderr)

    def test_unproved(self) -> None:
        ran = self.call(self.copy.root / "cophy", "--unproved", "cost", "c", "l", FAKE_TEXT="done")
        self.assertEqual((ran.returncode, ran.stdout), (0, "done"))

    def test_help_and_version(self) -> None:
        for word in ("help", "version"):
            self.assertEqual(self.call(self.copy.root / "cophy", word).returncode, 0)

    def test_lint(self) -> None:
        self.assertIn("rowz", self.call(TOOLS / "lint" / "cophy-lint", "c.toml", "l.sql").stdout)

    def test_pg(self) -> None:
        tool = TOOLS / "pg" / "cophy-pg"
        self.assertEqual(self.call(tool, "--help").returncode, 0)
        server = ("--dsn", f"host={self.here}")
        for words in (
            ("ddl", "c.toml", "a"),
            ("export", "x", "y", *server),
            ("verify", "c.toml", "l.sql", "a", *server),
        ):
            with self.subTest(words=words):
                ran = self.call(tool, *words)
                self.assertRegex(ran.stderr, r"\A(cophy-pg: .*\n)+\Z")

    def test_fleet(self) -> None:
        """Its workers' processes, too."""
        self.copy.build()
        fleet = (
            'version = 1\nsteps = 1\nretries = 0\n[[database]]\nname = "a"\ncatalogue = "c.toml"\nworkload = "l.sql"\n'
        )
        (self.here / "fleet.toml").write_text(fleet)
        tool = TOOLS / "fleet" / "cophy-fleet"
        self.assertEqual(self.call(tool, "--help").returncode, 0)
        for it in ("distributed", "rich", "scipy"):
            if importlib.util.find_spec(it) is None:
                self.skipTest(f"python3-{it} isn't installed")
        self.assertIn("no results", self.call(tool, "share", "5", "fleet.toml").stderr)
        program = self.copy.root / "crates" / "cophy_cli" / "out" / "cophy_cli"
        ran = self.call(tool, "run", "fleet.toml", "--workers", "1", "--program", program, FAKE_STATUS="7")
        self.assertIn('"fault": "cophy fold stopped with status 7"', ran.stdout)

    @unittest.skipIf(NO_PARSER, NO_PARSER)
    def test_rewriting(self) -> None:
        ran = self.call(TOOLS / "pg" / "cophy-pg", "rewrite", "c.toml", "l.sql", "out.sql")
        self.assertNotIn("Traceback", ran.stderr)

    @unittest.skipIf(importlib.util.find_spec("matplotlib") is None, "python3-matplotlib isn't installed")
    def test_drawing(self) -> None:
        self.copy.build()
        (self.here / "matplotlibrc").write_text("nothing: 1\n")
        text = (self.here / "a").read_text().replace("\n", "\\n")
        words = ("curve", "c.toml", "l.sql", "--budgets", "0", "--png", "curve.png", "--program")
        program = self.copy.root / "crates" / "cophy_cli" / "out" / "cophy_cli"
        ran = self.call(TOOLS / "pg" / "cophy-pg", *words, program, FAKE_TEXT=text)
        # On a slow machine it says that it builds its cache of fonts, and how long it takes.
        said = [it for it in ran.stderr.splitlines() if "building the font cache" not in it and "s so far" not in it]
        self.assertEqual((ran.returncode, said), (0, []))
        self.assertTrue((self.here / "curve.png").exists())

    def test_tests(self) -> None:
        ran = self.call(
            TOOLS / "tests" / "run", "test_documents.Documents.test_code_of_the_documents_stands_in_the_sources"
        )
        self.assertEqual(ran.stdout, "1 passed, 0 failed\n")


if __name__ == "__main__":
    unittest.main()
