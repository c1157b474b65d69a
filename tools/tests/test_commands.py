"""Each command that a document shows in a block is run here, or its block is marked with what it needs.

Marks stand behind the word `sh` of a block: `needs-root`, `needs-server` and `needs-kit`; behind `sql` the second.
"""
from __future__ import annotations

import importlib.util
import os
import re
import shlex
import subprocess
import tempfile
import unittest
from collections.abc import Iterator
from pathlib import Path

from private_server import PrivateServer
from fixtures import COPHY, NO_HYPOPG, ROOT, STAND_IN, TOOL, shop
from patience import LONG

MISSING = NO_HYPOPG or ("" if importlib.util.find_spec("jinja2") else "python3-jinja2 isn't installed")
BLOCK = re.compile(r"^```([^\n]*)\n(.*?)^```$", re.MULTILINE | re.DOTALL)
COMMAND = re.compile(
    r"(?:\./cophy|cophy-[a-z]+|(?:tools|bench)/|apt|cd|sudo|service|su|useradd|psql|export|rt|pip|python3|make)\b"
)
STATEMENTS = """SELECT id, name FROM customer WHERE city = 'City 3';
SELECT id FROM sales.orders WHERE total = 17.75 ORDER BY id;
UPDATE customer SET name = 'Name 9' WHERE id = 12;
DELETE FROM line WHERE order_id = 7;"""
MARKS = {"sh", "sh needs-root", "sh needs-server", "sh needs-kit"}


def documents() -> list[str]:
    """All documents of the repository."""
    found = (it.relative_to(ROOT) for it in ROOT.rglob("*.md"))
    return sorted(str(it) for it in found if not {"out", ".git"} & {*it.parts})


def blocks(document: str) -> list[tuple[str, str]]:
    """The blocks of a document, each with what stands behind its first mark."""
    return BLOCK.findall((ROOT / document).read_text())


def commands(document: str) -> Iterator[str]:
    """The commands of the blocks that are to be run."""
    for mark, text in blocks(document):
        if mark == "sh":
            yield from (shlex.join(shlex.split(it, comments=True)) for it in text.splitlines())


class OfLint(unittest.TestCase):
    def test_what_the_documents_show_beside_a_block_finds_no_fault(self) -> None:
        text = "\n".join((ROOT / it).read_text() for it in documents())
        found = set(re.findall(r"`(tools/lint/cophy-lint examples/[^`]+)`", text))
        self.assertTrue(found)
        for line in sorted(found):
            with self.subTest(line=line):
                ran = subprocess.run(shlex.split(line), cwd=ROOT, capture_output=True, check=False, timeout=LONG)
                self.assertEqual(ran.returncode, 0, ran.stdout + ran.stderr)


class Marks(unittest.TestCase):
    def test_each_block_with_commands_is_run_or_marked(self) -> None:
        found = 0
        for document in documents():
            for mark, text in blocks(document):
                with self.subTest(document=document, text=text[:60]):
                    if COMMAND.match(text):
                        self.assertIn(mark, MARKS)
                        found += 1
                    else:
                        self.assertFalse(mark.startswith("sh"), mark)
        self.assertGreater(found, 15)

    def test_statements_are_those_of_the_examples_or_marked(self) -> None:
        files = "".join(it.read_text() for it in (ROOT / "examples").rglob("*.sql"))
        shown = [(document, mark, text) for document in documents() for mark, text in blocks(document)]
        for document, mark, text in shown:
            if mark.startswith("sql") and mark != "sql needs-server":
                with self.subTest(document=document, text=text[:60]):
                    self.assertIn(text, files)

    def test_all_that_is_to_be_run_is_in_a_document_whose_commands_are(self) -> None:
        run = {"README.md", "docs/POSTGRES.md", "examples/README.md"}
        self.assertLessEqual({it for it in documents() if [*commands(it)]}, run)
        of_tools = {it for it in commands("README.md") if it.startswith("tools/")}
        self.assertLessEqual(of_tools, {*commands("docs/POSTGRES.md")}, "the walk runs those of POSTGRES.md alone")


@unittest.skipUnless(os.access(COPHY, os.X_OK), "the program isn't built")
class OfTheProgram(unittest.TestCase):
    def run_one(self, words: list[str], folder: str) -> str:
        ran = subprocess.run(
            [str(COPHY), *words], cwd=folder, stdout=subprocess.PIPE, text=True, check=False, timeout=LONG
        )
        self.assertIn(ran.returncode, (0, 1), ran.stdout)
        return ran.stdout

    def test_what_the_examples_print_is_what_stands_behind_them(self) -> None:
        waiting = list[list[str]]()
        for mark, text in blocks("examples/README.md"):
            if mark == "sh":
                waiting += [shlex.split(it)[1:] for it in text.splitlines()]
            elif waiting and not mark and not text.startswith("$"):
                words = waiting.pop(0)
                with self.subTest(words=words):
                    self.assertEqual(self.run_one(words, str(ROOT)), text)
        self.assertEqual(waiting, [])

    def test_the_program_takes_the_words_of_the_documents(self) -> None:
        given = {
            "catalogue.toml": "shop.toml",
            "workload.sql": "shop.sql",
            "my.conf": "shop.conf",
            "rules.txt": "shop.rules",
            "edits.txt": "shop.edits",
        }
        text = "\n".join((ROOT / it).read_text() for it in ("README.md", "docs/POSTGRES.md"))
        found = set(re.findall(r"^\./cophy ([a-z][a-z-]* [^#>\n]*)", text, re.MULTILINE))
        found |= {" ".join(it.split()) for it in re.findall(r"`\./cophy ([a-z][a-z-]*\s[^`]+)`", BLOCK.sub("", text))}
        self.assertGreater(len(found), 6)
        with tempfile.TemporaryDirectory() as folder:
            (Path(folder) / "examples").symlink_to(ROOT / "examples")
            shown = ("shop.toml", "shop.sql", "shop.rules")
            catalogue, workload, rules = (str(ROOT / "examples" / it) for it in shown)
            self.run_one(["ruled", catalogue, workload, "12800", rules, "--cert", f"{folder}/ruled.cert"], folder)
            for line in sorted(found):
                words = line.split()
                for at, word in enumerate(words):
                    name = word.split("/")[-1]
                    if name in given:
                        words[at] = str(ROOT / "examples" / given[name])
                    elif name == "ruled.cert":
                        words[at] = name
                with self.subTest(line=line):
                    self.run_one(words, folder)

    def test_faulty_words_are_told_as_the_formats_say(self) -> None:
        text = (ROOT / "docs" / "FORMATS.md").read_text()
        rows = re.findall(r"^\| `(usage: [^`]+)` \| .* \| ([^|]+) \|$", text, re.MULTILINE)
        self.assertGreater(len(rows), 6)
        for told, shown in rows:
            for words, number in re.findall(r"`cophy ?([^`]*)`(?: gives (?:word )?(\d+))?", shown):
                with self.subTest(words=words):
                    ran = subprocess.run(
                        [str(COPHY), *words.split()], capture_output=True, text=True, check=False, timeout=LONG
                    )
                    self.assertEqual((ran.returncode, ran.stdout), (2, f"{told.replace('W', number)}\n"))


@unittest.skipIf(MISSING, MISSING)
class Walk(unittest.TestCase):
    """The walk of POSTGRES.md as it stands there, by the role that it makes, over a stand-in for the program."""

    server: PrivateServer

    @classmethod
    def setUpClass(cls) -> None:
        cls.server = shop()
        # Few statements, so that the walk takes little time; each ran twice, since those that ran once are left out.
        cls.server.psql("SELECT pg_stat_statements_reset()", "shop")
        cls.server.psql(STATEMENTS + STATEMENTS, "shop")

    def setUp(self) -> None:
        folder = tempfile.TemporaryDirectory()
        self.addCleanup(folder.cleanup)
        self.here = Path(folder.name)
        (self.here / "tools").symlink_to(ROOT / "tools")
        (self.here / "cophy").symlink_to(STAND_IN)
        # As a package lays it.
        (self.here / "bin").mkdir()
        (self.here / "bin" / TOOL.name).symlink_to(TOOL)

    def bash(self, line: str, **more: str) -> subprocess.CompletedProcess[str]:
        path = f"{self.here / 'bin'}:{os.environ['PATH']}"
        given = {"PGUSER": "cophy_advisor", "HOME": str(self.here), "COPHY_PROGRAM": str(STAND_IN), "PATH": path}
        environment = self.server.environment("shop", **given | more)
        return subprocess.run(
            ["bash", "-c", line],
            cwd=self.here,
            env=environment,
            capture_output=True,
            text=True,
            check=False,
            timeout=LONG,
        )

    def test_each_command_does_what_it_says(self) -> None:
        shown = [(mark, line) for mark, text in blocks("docs/POSTGRES.md") for line in text.splitlines()]
        # Of the block for root the advice needs none.
        lines = [line for mark, line in shown if mark == "sh" or line.startswith("cophy-pg advise shop ")]
        self.assertGreater(len(lines), 10)
        for line in (it for it in lines if not it.startswith("export ")):
            with self.subTest(line=line):
                is_owner = "OWNER" in line
                ran = self.bash(line.replace("OWNER", "cophy"), **({"PGUSER": "cophy"} if is_owner else {}))
                # Three says that there are indexes to look at, or others than before.
                self.assertIn(ran.returncode, (0, 3) if {"health", "daily"} & {*line.split()} else (0,), ran.stderr)
        # The first command names no folder, and makes one.
        self.assertEqual(len([*self.here.glob("cophy-advice-*/report.html")]), 1)
        for it in "report.html advice.txt kept.txt indexes.sql summary.txt".split():
            self.assertTrue((self.here / "advice" / it).stat().st_size, it)
        # Where a person would be asked.
        ran = self.bash(f"cophy-pg make ~/advice --undo --yes --psql 'psql -h {self.server.folder} -U cophy'")
        self.assertEqual(ran.returncode, 0, ran.stderr)
        self.assertIn(" is dropped", ran.stdout)


if __name__ == "__main__":
    unittest.main()
