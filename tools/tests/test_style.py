"""The form of the code: `black`, `mypy --strict` and `shellcheck`, with the settings of `pyproject.toml`."""
from __future__ import annotations

import os
import shutil
import subprocess
import unittest
from pathlib import Path

TOOLS = Path(__file__).resolve().parents[1]
ROOT = TOOLS.parent


def scripts(interpreter: bytes) -> list[str]:
    """The files without an ending whose first line names an interpreter."""
    found = [
        it
        for it in (*TOOLS.rglob("*"), *ROOT.glob("*"), *ROOT.glob(".ci/*"), *ROOT.glob("examples/*/*"))
        if it.is_file() and not it.suffix
    ]
    first = {it: it.read_bytes().split(b"\n", 1)[0] for it in found}
    return sorted(str(it) for it, line in first.items() if line.startswith(b"#!") and interpreter in line)


def missing(command: str, version: str = "") -> str:
    """Why a command, or one of this version, can't be run; nothing where it can."""
    if shutil.which(command) is None:
        return f"{command} isn't installed"
    said = subprocess.run([command, "--version"], stdout=subprocess.PIPE, text=True, check=False).stdout
    return "" if version in said else f"{command}{version} isn't installed"


# Each year's black has a form of its own.
BLACK = missing("black", " 23.")
MYPY, SHELLCHECK = missing("mypy"), missing("shellcheck")


class Style(unittest.TestCase):
    def passes(self, *words: str) -> None:
        ran = subprocess.run(
            words, cwd=TOOLS, stdout=subprocess.PIPE, stderr=subprocess.STDOUT, text=True, check=False, timeout=900
        )
        self.assertEqual(ran.returncode, 0, ran.stdout)

    def test_scripts_are_found(self) -> None:
        names = {os.path.relpath(it, ROOT) for it in scripts(b"python3")}
        wanted = {
            "tools/pg/cophy-pg",
            "tools/lint/cophy-lint",
            "tools/fleet/cophy-fleet",
            "tools/wrapper/cophy-wrapper",
            "tools/docs/crates_drawing",
            "tools/tests/run",
        }
        self.assertLessEqual(wanted, names)
        names = {os.path.relpath(it, ROOT) for it in scripts(b"bash")}
        wanted = {"cophy", ".ci/run", "tools/package", "tools/wrapper/cophy-installed", "examples/systemd/cophy-retune"}
        self.assertLessEqual(wanted, names)

    @unittest.skipIf(BLACK, BLACK)
    def test_black_changes_nothing(self) -> None:
        self.passes("black", "--check", "--quiet", "--diff", ".", *scripts(b"python3"))

    @unittest.skipIf(MYPY, MYPY)
    def test_mypy_finds_no_fault_of_types(self) -> None:
        self.passes("mypy", "--cache-dir", os.devnull, "--scripts-are-modules", ".", *scripts(b"python3"))

    @unittest.skipIf(SHELLCHECK, SHELLCHECK)
    def test_shellcheck_has_nothing_to_say(self) -> None:
        self.passes("shellcheck", *scripts(b"bash"), *map(str, TOOLS.rglob("*.bash")))


if __name__ == "__main__":
    unittest.main()
