"""The script of the merge gate, and what is typed and read beside `cophy`: the completion, the help and the manual."""
from __future__ import annotations

import os
import re
import shutil
import subprocess
import tempfile
import unittest
from pathlib import Path

from fixtures import NO_PARSER, TOOL
from script_copy import ROOT


class Gate(unittest.TestCase):
    """The script of the merge gate, over an `rt` and tests that are scripts of a line."""

    def ended(self, proof: str, proof_status: int, tools: str, tools_status: int) -> tuple[int, list[str]]:
        with tempfile.TemporaryDirectory() as name:
            folder = Path(name)
            for path, text, status in (("bin/rt", proof, proof_status), ("r/tools/tests/run", tools, tools_status)):
                (folder / path).parent.mkdir(parents=True)
                (folder / path).write_text(
                    f"#!/bin/sh\necho \"$0 $*\" >>{folder}/calls\nprintf '{text}'\nexit {status}\n"
                )
                (folder / path).chmod(0o755)
            (folder / "r" / ".ci").mkdir()
            shutil.copy(ROOT / ".ci" / "run", folder / "r" / ".ci" / "run")
            environment = {**os.environ, "PATH": f"{folder / 'bin'}:{os.environ['PATH']}"}
            ran = subprocess.run(
                [folder / "r" / ".ci" / "run"], env=environment, capture_output=True, text=True, check=False
            )
            self.assertEqual((folder / "calls").read_text().splitlines()[0], f"{folder}/bin/rt ci")
            return ran.returncode, ran.stdout.splitlines()

    def test_the_last_line_sums_both_and_the_status_is_that_of_either(self) -> None:
        table = [
            (("a\\n5 passed, 0 failed\\n", 0, "3 passed, 0 failed\\n", 0), 0, "8 passed, 0 failed"),
            (("5 passed, 1 failed\\n", 1, "3 passed, 0 failed\\n", 0), 1, "8 passed, 1 failed"),
            (("5 passed, 0 failed\\n", 0, "3 passed, 2 failed\\n", 1), 1, "8 passed, 2 failed"),
            (("5 passed, 0 failed (more words)\\n", 0, "a fault\\n", 3), 3, "5 passed, 1 failed"),
            (("", 2, "3 passed, 0 failed\\n", 0), 2, "3 passed, 1 failed"),
            (("5 passed, 0 failed\\n", 4, "3 passed, 0 failed\\n", 0), 4, "8 passed, 1 failed"),
        ]
        for given, status, last in table:
            with self.subTest(given=given):
                ended, lines = self.ended(*given)
                self.assertEqual((ended, lines[-1]), (status, last))
                self.assertEqual([it for it in lines if it.split(" ")[1:2] == ["passed,"]], [last])


class Completion(unittest.TestCase):
    """The completion for bash, as bash itself would ask it."""

    def completed(self, function: str, *words: str) -> list[str]:
        script = (
            f'source {ROOT}/tools/wrapper/cophy.bash; COMP_WORDS=("$@"); COMP_CWORD=$((${{#COMP_WORDS[@]}} - 1)); '
            f"{function}; printf '%s\\n' \"${{COMPREPLY[@]}}\""
        )
        ran = subprocess.run(
            ["bash", "-c", script, "bash", *words], cwd=ROOT, capture_output=True, text=True, check=True
        )
        return sorted(ran.stdout.split())

    def test_each_place_is_completed_by_what_may_stand_there(self) -> None:
        files = sorted(str(it.relative_to(ROOT)) for it in ROOT.glob("examples/shop.*"))
        table = [
            ("_cophy", ("cophy", "c"), ["candidates", "check", "check-ruled", "cost"]),
            ("_cophy", ("cophy", "--u"), ["--unproved"]),
            ("_cophy", ("cophy", "--unproved", "ex"), ["explain"]),
            ("_cophy", ("cophy", "cost", "examples/shop."), files),
            ("_cophy", ("cophy", "advise", "a", "b", "9", "--c"), ["--cert"]),
            ("_cophy", ("cophy", "cost", "a", "b", ""), []),
            ("_cophy", ("cophy", "advise", "a", "b", "9", "--cert", "examples/shop."), files),
            ("_cophy", ("cophy", "ruled", "a", "b", "9", "examples/shop."), files),
            ("_cophy", ("cophy", "ruled", "a", "b", "9", "r", "--n"), ["--nodes"]),
            ("_cophy", ("cophy", "sweep", "a", "examples/shop."), files),
            ("_cophy", ("cophy", "sweep", "a", "b", "0", "1", ""), []),
            ("_cophy", ("cophy", "sweep", "a", "b", "0", "1", "2", "--n"), ["--nodes"]),
            ("_cophy", ("cophy", "sweep", "a", "b", "0", "1", "2", "--nodes", "9", "--cert", "examples/shop."), files),
            ("_cophy", ("cophy", "retune", "a", "b", "examples/shop."), files),
            ("_cophy", ("cophy", "retune", "a", "b", "e", ""), []),
            ("_cophy", ("cophy", "retune", "a", "b", "e", "9", "--"), ["--nodes"]),
            ("_cophy_pg", ("cophy-pg", "ed"), ["edits"]),
            ("_cophy_pg", ("cophy-pg", "edits", "-"), ["--advise", "--help", "--output"]),
            ("_cophy_pg", ("cophy-pg", "ex"), ["export"]),
            ("_cophy_pg", ("cophy-pg", "curve", "--e"), ["--even"]),
            ("_cophy_pg", ("cophy-pg", "rules", "--s"), ["--skip-unknown"]),
            ("_cophy_pg", ("cophy-pg", "export", "--s"), ["--since", "--sql"]),
            ("_cophy_lint", ("cophy-lint", "examples/shop."), files),
            ("_cophy_lint", ("cophy-lint", "--e"), ["--edits"]),
            ("_cophy_lint", ("cophy-lint", "--v"), ["--version"]),
        ]
        for function, words, wanted in table:
            with self.subTest(words=words):
                self.assertEqual(self.completed(function, *words), wanted)

    @unittest.skipIf(NO_PARSER, NO_PARSER)
    def test_each_command_and_option_of_cophy_pg_is_completed(self) -> None:
        def listed(form: str, *words: str) -> list[str]:
            ran = subprocess.run([str(TOOL), *words, "--help"], stdout=subprocess.PIPE, text=True, check=True)
            return sorted(set(re.findall(form, ran.stdout, re.MULTILINE)))

        commands = listed("^    ([a-z]+) ")
        self.assertEqual([it for it in self.completed("_cophy_pg", "cophy-pg", "") if it.isalpha()], commands)
        for it in commands:
            with self.subTest(command=it):
                options = listed("^  (?:-[a-z](?: [A-Z]+)?, )?(--[a-z-]+)", it)
                self.assertEqual(self.completed("_cophy_pg", "cophy-pg", it, "--"), options)

    def test_help_and_manual_name_every_command(self) -> None:
        for file in ("help.txt", "cophy.1"):
            text = (ROOT / "tools" / "wrapper" / file).read_text()
            for word in (
                "cost",
                "explain",
                "whatif",
                "candidates",
                "advise",
                "check",
                "sweep",
                "retune",
                "ruled",
                "fold",
                "bench",
                "unproved",
                "COPHY_HINTS",
                "COPHY_JOBS",
            ):
                with self.subTest(file=file, word=word):
                    self.assertIn(word, text)


if __name__ == "__main__":
    unittest.main()
