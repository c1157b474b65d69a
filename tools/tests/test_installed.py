"""The tools as pip installs them, and where they find the program."""
from __future__ import annotations

import importlib.util
import os
import re
import shutil
import subprocess
import sys
import tempfile
import unittest
from pathlib import Path
from unittest import mock

from cophy_text import VERSION
from fixtures import ROOT
from patience import LONG

TOOLS = ROOT / "tools"
MISSING = next(
    (f"python3-{it} isn't installed" for it in ("pip", "setuptools", "pglast") if importlib.util.find_spec(it) is None),
    "",
)
LACKS = any(importlib.util.find_spec(it) is None for it in ("psycopg", "rich", "jinja2", "matplotlib"))
PROGRAM = '#!/bin/sh\necho \'size 0\'; echo "statement 1 weight 1 cost ${FAKE_COST:-5}"; echo "total ${FAKE_COST:-5}"\n'
ADVICE = "budget 0\nsize 0\ncost 5\nbound 5\ngap 0\nnodes 0 of 1\nfinished\n"


def lay(file: Path, text: str) -> Path:
    """Lays a script."""
    file.parent.mkdir(exist_ok=True)
    file.write_text(text)
    file.chmod(0o755)
    return file


@unittest.skipIf(MISSING, MISSING)
class Installed(unittest.TestCase):
    here: Path

    @classmethod
    def setUpClass(cls) -> None:
        folder = tempfile.TemporaryDirectory()
        cls.addClassCleanup(folder.cleanup)
        cls.here = Path(folder.name)
        # What is built is laid beside the source.
        shutil.copytree(TOOLS, cls.here / "tools", ignore=shutil.ignore_patterns("__pycache__", "tests"))
        words = (
            "install --quiet --no-deps --no-build-isolation --no-index --disable-pip-version-check --no-compile".split()
        )
        ran = subprocess.run(
            [sys.executable, "-Im", "pip", *words, "--target", str(cls.here / "there"), str(cls.here / "tools")],
            capture_output=True,
            text=True,
            check=False,
            timeout=LONG,
        )
        assert ran.returncode == 0, ran.stderr

    def call(self, command: str, *words: str, status: int = 0, **more: str) -> str:
        kept = {it: value for it, value in os.environ.items() if not it.startswith("COPHY")}
        ran = subprocess.run(
            [str(self.here / "there" / "bin" / command), *words],
            cwd=self.here,
            env={**kept, "PYTHONPATH": str(self.here / "there"), **more},
            capture_output=True,
            text=True,
            check=False,
            timeout=LONG,
        )
        self.assertEqual(ran.returncode, status, ran.stderr)
        return ran.stdout + ran.stderr

    def test_versions(self) -> None:
        self.assertEqual(self.call("cophy-pg", "--version"), f"cophy-pg {VERSION}\n")
        self.assertEqual(self.call("cophy-lint", "--version"), f"cophy-lint {VERSION}\n")
        self.assertEqual(self.call("cophy-fleet", "--version"), f"cophy-fleet {VERSION}\n")

    @unittest.skipIf(LACKS, "a package isn't installed")
    def test_debians_packages_suffice(self) -> None:
        words = "install --dry-run --quiet --no-index --no-build-isolation --break-system-packages".split()
        command = [sys.executable, "-Im", "pip", *words, str(self.here / "tools")]
        ran = subprocess.run(command, capture_output=True, text=True, check=False, timeout=LONG)
        self.assertEqual(ran.returncode, 0, ran.stderr)

    def test_all_files_are_there(self) -> None:
        modules = [it.relative_to(TOOLS / "pg") for it in (TOOLS / "pg" / "cophy_pg").rglob("*") if it.is_file()]
        wanted = {it for it in modules if "__pycache__" not in it.parts}
        self.assertGreater(len(wanted), 50)
        self.assertEqual({it for it in wanted if not (self.here / "there" / it).exists()}, set())

    def test_the_program_is_the_named_one_or_that_of_the_variable_or_of_the_path(self) -> None:
        for name, text in (("c.toml", "version = 1\n"), ("l.sql", "SELECT 1;\n"), ("advice", ADVICE)):
            (self.here / name).write_text(text)
        for place in ("path", "variable", "named"):
            lay(
                self.here / place / "cophy",
                PROGRAM.replace(":-5", {"path": ":-1", "variable": ":-2", "named": ":-3"}[place]),
            )
        words = ("why", "c.toml", "l.sql", "advice")
        path = f"{self.here / 'path'}:{os.environ['PATH']}"
        self.assertIn("costs 1, with", self.call("cophy-pg", *words, PATH=path))
        variable = str(self.here / "variable" / "cophy")
        self.assertIn("costs 2, with", self.call("cophy-pg", *words, PATH=path, COPHY_PROGRAM=variable))
        named = ("--program", str(self.here / "named" / "cophy"))
        self.assertIn("costs 3, with", self.call("cophy-pg", *words, *named, PATH=path, COPHY_PROGRAM=variable))
        # A folder of the path that isn't named whole is passed over, such as the current one.
        lay(self.here / "cophy", PROGRAM)
        said = self.call("cophy-pg", *words, status=1, PATH=f":.:{os.environ['PATH']}")
        self.assertIn("the program cophy isn't there: name it by --program or COPHY_PROGRAM", said)


class Program(unittest.TestCase):
    def test_the_version_is_that_of_the_changes(self) -> None:
        found = re.search(r"^## (\S+?),? ", (ROOT / "CHANGELOG.md").read_text(), re.MULTILINE)
        self.assertEqual(found and found[1], VERSION)

    @unittest.skipIf(MISSING, MISSING)
    def test_in_the_repository_it_is_the_script(self) -> None:
        from cophy_pg import program

        with mock.patch.dict(os.environ, PATH="/nowhere"):
            os.environ.pop("COPHY_PROGRAM", None)
            self.assertEqual(program.found_program(), str(ROOT / "cophy"))
            os.environ["COPHY_PROGRAM"] = "/elsewhere/cophy"
            self.assertEqual(program.found_program(), "/elsewhere/cophy")

    @unittest.skipIf(MISSING, MISSING)
    def test_one_on_the_path_comes_before_a_build(self) -> None:
        from cophy_pg import program

        with tempfile.TemporaryDirectory() as folder, mock.patch.dict(os.environ, PATH=folder):
            os.environ.pop("COPHY_PROGRAM", None)
            installed, built = Path(folder, "cophy"), Path(folder, "built")
            installed.write_text("#!/bin/sh\n")
            installed.chmod(0o755)
            with mock.patch.object(program, "BUILT", built):
                self.assertEqual(program.found_program(), "cophy")
                built.write_text("")
                self.assertEqual(program.found_program(), str(ROOT / "cophy"))


if __name__ == "__main__":
    unittest.main()
