"""What the documents show is what the program prints, what they name is there, and they stay short enough to be read."""
from __future__ import annotations

import os
import re
import subprocess
import sys
import tempfile
import unittest
from pathlib import Path

from fixtures import COPHY, ROOT
from patience import LONG

STORED = ROOT / "crates" / "cophy_cli"
BLOCK = re.compile(r"^```\n(\$ \./cophy .*?)^```$", re.MULTILINE | re.DOTALL)
CALL = re.compile(r"^\$ \./cophy (.*)$", re.MULTILINE)
FENCED = re.compile(r"^```.*?^```$", re.MULTILINE | re.DOTALL)
LINK = re.compile(r"\]\(([^)\s]+)\)")
HEADING = re.compile(r"^#+ (.*)$", re.MULTILINE)
PATH = re.compile(r"`((?:crates|tools|docs|bench|examples)/[\w./-]+)`")
EVIDENCE = ROOT / "tools" / "docs" / "evidence"
TABLE = re.compile(r"<!-- tools/docs/evidence -->\n(.*?)<!-- -->", re.DOTALL)
MOST_WORDS = {"docs/ARCHITECTURE.md": 2500, "docs/MYSQL.md": 600, "docs/PROOFS.md": 1500, "bench/README.md": 800}

# What a newcomer asks, as the README has it; where that leads to; the end of the answer there.
ASKED = (
    ("the price of a hash join", "docs/MODEL.md#operators", "| hash join, of which the right input is hashed |"),
    ("what proves that a bound is one", "docs/PROOFS.md#what-proves-that-a-bound-is-one", "exactly what is `IsProof`"),
    ("where a new command goes", "docs/CHANGING.md#to-add-a-command", "ends with `0 failed`"),
    ("advice for MySQL", "docs/MYSQL.md", "The rest is for looking up."),
    ("what isn't proved", "docs/PROOFS.md#not-proved", "true of a database."),
)


def documents() -> list[Path]:
    """All documents of the repository."""
    return sorted(it for it in ROOT.rglob("*.md") if not {"out", ".git"} & {*it.relative_to(ROOT).parts})


def sources() -> list[Path]:
    """The files of the crates, of the tools and the benchmarks, and the script."""
    kinds = ("crates/*/*/**/*.rt", "crates/*/*/**/*.antt", "crates/*/*/*.edit", "tools/**/*.py", "bench/**/*.py")
    found = [it for kind in kinds for it in ROOT.glob(kind) if "out" not in it.relative_to(ROOT).parts]
    scripts = ("cophy", ".ci/run", "tools/tests/run", "tools/docs/crates_drawing", "tools/docs/evidence")
    return [*found, *(ROOT / it for it in scripts)]


def anchors(text: str) -> set[str]:
    """What links may name of a document: its headings in small letters, with `-` for spaces."""
    headings = HEADING.findall(FENCED.sub("", text))
    return {re.sub(r"[^\w -]", "", it.lower()).replace(" ", "-") for it in headings}


def shown(document: Path) -> list[tuple[list[str], str]]:
    """The calls that a document shows, each with the output behind it."""
    found = []
    for block in BLOCK.findall(document.read_text()):
        parts = CALL.split(block)[1:]
        found += [(words.split(), output.lstrip("\n")) for words, output in zip(parts[::2], parts[1::2], strict=True)]
    return found


class Documents(unittest.TestCase):
    def test_the_stored_run_is_the_main_job_of_the_readme(self) -> None:
        words, output = shown(ROOT / "README.md")[0]
        self.assertEqual([Path(it).name for it in words], (STORED / "args").read_text().split())
        self.assertEqual(output, (STORED / "stdout").read_text())
        for name in ("shop.toml", "shop.sql"):
            self.assertEqual((STORED / "data" / name).read_bytes(), (ROOT / "examples" / name).read_bytes())

    @unittest.skipUnless(COPHY.exists(), "the program isn't built")
    def test_the_program_prints_what_the_documents_show(self) -> None:
        with tempfile.TemporaryDirectory() as folder:
            os.symlink(ROOT / "examples", Path(folder) / "examples")
            for document in documents():
                for words, output in shown(document):
                    with self.subTest(document=str(document.relative_to(ROOT)), words=words):
                        ran = subprocess.run(
                            [str(COPHY), *words], cwd=folder, capture_output=True, text=True, check=False, timeout=LONG
                        )
                        if output:
                            self.assertEqual(ran.stdout, output)

    def test_code_of_the_documents_stands_in_the_sources(self) -> None:
        for document, least in (("docs/CRATES.md", 5), ("docs/PROOFS.md", 2)):
            text = (ROOT / document).read_text()
            files = [(ROOT / it).read_text() for it in re.findall(r"`(crates/\S+\.(?:rt|antt))`", text)]
            blocks = re.findall(r"^```(?:rust|antt)\n(.*?)^```$", text, re.MULTILINE | re.DOTALL)
            self.assertGreaterEqual(len(blocks), least)
            for block in blocks:
                with self.subTest(document=document, block=block[:60]):
                    self.assertTrue(any(block in it for it in files))

    def test_the_example_of_the_formats_stands_in_the_examples(self) -> None:
        text = (ROOT / "docs" / "FORMATS.md").read_text()
        for mark, name in (("toml", "two.toml"), ("sql", "two.sql"), ("", "two.cert"), ("", "two.edits")):
            with self.subTest(name=name):
                self.assertIn(f"```{mark}\n{(ROOT / 'examples' / name).read_text()}```\n", text)


class ByHand(unittest.TestCase):
    """MYSQL.md: what it shows of both files stands in them, and what it makes are the picks that it shows."""

    def test_what_it_shows_of_the_files_stands_in_them(self) -> None:
        text = (ROOT / "docs" / "MYSQL.md").read_text()
        for mark, least in (("toml", 5), ("sql", 1)):
            file = (ROOT / "examples" / f"mysql.{mark}").read_text()
            blocks = re.findall(rf"^```{mark}\n(.*?)^```$", text, re.MULTILINE | re.DOTALL)
            parts = [it.strip() for block in blocks for it in block.split("\n\n")]
            self.assertGreaterEqual(len(parts), least)
            for part in parts:
                with self.subTest(part=part[:60]):
                    self.assertIn(f"{part}\n", file)

    def test_its_statements_make_what_was_picked(self) -> None:
        text = (ROOT / "docs" / "MYSQL.md").read_text()
        picks = re.findall(r"^pick \d+ (\w+)\((.*)\) \d+ pages$", text, re.MULTILINE)
        made = re.findall(r"^CREATE INDEX \w+ ON (\w+) \((.*)\);$", text, re.MULTILINE)
        self.assertTrue(made)
        self.assertEqual(made, picks)


@unittest.skipUnless(COPHY.exists(), "the program isn't built")
class Savings(unittest.TestCase):
    def asked(self, *words: str, line: str) -> int:
        """The number behind that word in what the program prints."""
        ran = subprocess.run([str(COPHY), *words], cwd=ROOT, capture_output=True, text=True, check=False, timeout=LONG)
        found = re.search(rf"^{line} (\d+)$", ran.stdout, re.MULTILINE)
        assert found is not None, ran.stdout
        return int(found[1])

    def saved(self, catalogue: str, workload: str, budget: int) -> tuple[int, float]:
        """What the workload costs without new indexes, and how many percent of that the best ones save."""
        before = self.asked("cost", catalogue, workload, line="total")
        return before, 100 - 100 * self.asked("advise", catalogue, workload, str(budget), line="cost") / before

    def test_the_readme_says_what_the_example_saves(self) -> None:
        text = " ".join((ROOT / "README.md").read_text().split())
        files = ("examples/shop.toml", "examples/shop.sql")
        before, percent = self.saved(*files, 500)
        space = self.asked("advise", *files, "500", line="size") * 8192 / 2**20
        self.assertIn(f"costs {before} thousandths", text)
        self.assertIn(f"two indexes of {space:.1f} MB save {percent:.1f} percent", text)

    def test_the_readme_says_what_its_picture_shows(self) -> None:
        text = " ".join((ROOT / "README.md").read_text().split())
        found = re.search(r"(\d+) MB of indexes save (\d+) percent of its cost by the model, (\d+) MB half", text)
        assert found is not None
        parts = re.split(r"(?=^-- weight )", (ROOT / "examples/tpch/workload.sql").read_text(), flags=re.MULTILINE)
        with tempfile.TemporaryDirectory() as folder:
            workload = Path(folder) / "workload.sql"
            workload.write_text("".join(it for it in parts if it.startswith("-- weight 1\n")))
            for space, told in ((found[1], int(found[2])), (found[3], 50)):
                pages = int(space) * 2**20 // 8192
                percent = self.saved("examples/tpch/catalogue.toml", str(workload), pages)[1]
                self.assertAlmostEqual(percent, told, delta=1)


class FirstPage(unittest.TestCase):
    """What a person has to read of POSTGRES.md: little, with all commands in their order."""

    def test_it_is_read_in_a_minute_and_has_all_commands(self) -> None:
        page, _ = (ROOT / "docs/POSTGRES.md").read_text().split("\nThat is all that is needed.")
        self.assertLessEqual(len(page.partition("```\n")[0].split()), 100)
        self.assertLessEqual(len(page.split()), 200)
        places = [page.index(it) for it in ("apt install", "cophy-pg setup", "advise shop", "cophy-pg make", "--undo")]
        self.assertEqual(places, sorted(places))

    def test_the_readme_leads_an_administrator_there_at_once(self) -> None:
        first = (ROOT / "README.md").read_text().split("\n\n")[1]
        self.assertIn("(docs/POSTGRES.md)", first)
        self.assertLessEqual(len(first.split()), 50)

    def test_no_line_is_wider_than_a_screen(self) -> None:
        text = FENCED.sub("", (ROOT / "docs/POSTGRES.md").read_text())
        self.assertEqual([it for it in text.splitlines() if len(it) > 120 and not it.startswith("|")], [])


class Named(unittest.TestCase):
    def test_links_lead_somewhere(self) -> None:
        for document in documents():
            text = document.read_text()
            for link in LINK.findall(FENCED.sub("", text)):
                if link.startswith("http"):
                    continue
                with self.subTest(document=str(document.relative_to(ROOT)), link=link):
                    file, _, anchor = link.partition("#")
                    target = document.parent / file if file else document
                    self.assertTrue(target.exists())
                    if anchor:
                        self.assertIn(anchor, anchors(target.read_text()))

    def test_files_that_are_named_are_there(self) -> None:
        for document in documents():
            for name in PATH.findall(document.read_text()):
                with self.subTest(document=str(document.relative_to(ROOT)), name=name):
                    self.assertTrue("/out/" in name or (ROOT / name).exists())

    def test_laws_and_wrong_changes_are_those_of_the_sources(self) -> None:
        ran = subprocess.run(
            [sys.executable, "-ISB", str(EVIDENCE)], capture_output=True, text=True, check=True, timeout=LONG
        )
        found = TABLE.findall((ROOT / "docs" / "PROOFS.md").read_text())
        self.assertEqual(found, [ran.stdout], "run tools/docs/evidence --write")

    def test_names_of_the_proofs_are_those_of_the_sources(self) -> None:
        text = (ROOT / "docs" / "PROOFS.md").read_text()
        parts = {it.split("\n", 1)[0]: it for it in text.split("\n## ")}
        top = (ROOT / "crates" / "cophy_core" / "src" / "top.rt").read_text().split("pub fn run", 1)[1]
        rows = re.findall(r"^\| (`.*?`) \|", parts["What the program promises"], re.MULTILINE)
        told = [name for row in rows for name in re.findall(r"`(\w+)`", row)]
        self.assertEqual(sorted(told), sorted(re.findall(r"^    ensures (\w+) ", top, re.MULTILINE)))

    def test_names_of_documents_for_developers_are_those_of_the_sources(self) -> None:
        files = sources()
        known = {it for file in files for it in re.findall(r"\w+", file.read_text())}
        known |= {it.stem for it in files} | {part for it in files for part in it.parts}
        paths = [f"/{it.relative_to(ROOT).with_suffix('')}/" for it in files]
        for document in ("ARCHITECTURE", "CHANGING", "CRATES", "PROOFS"):
            text = FENCED.sub("", (ROOT / "docs" / f"{document}.md").read_text())
            named = {*re.findall(r"`(\w+)`", text)}
            ways = {it.strip("/") for it in re.findall(r"`([\w.]*/[\w./]*)`", text) if "NAME" not in it}
            with self.subTest(document=document):
                self.assertEqual(named - known, set())
                gone = [it for it in ways if not any(f"/{Path(it).with_suffix('')}/" in path for path in paths)]
                self.assertEqual(gone, [])


class Short(unittest.TestCase):
    def test_what_a_newcomer_asks_is_found_within_five_minutes(self) -> None:
        readme = (ROOT / "README.md").read_text()
        for asked, place, end in ASKED:
            with self.subTest(asked=asked):
                row = next(it for it in readme.splitlines() if it.startswith("|") and asked in it)
                self.assertIn(f"({place})", row)
                file, _, anchor = place.partition("#")
                text = (ROOT / file).read_text()
                heads = (it.start() for it in HEADING.finditer(text) if not anchor or anchor in anchors(it[0]))
                rest = text[next(heads) :]
                self.assertIn(end, rest)
                words = f"{readme.partition(row)[0]}{row} {rest.partition(end)[0]}".split()
                self.assertLess(len(words), 5 * 200)

    def test_what_to_do_is_told_in_five_lines(self) -> None:
        for document, heading in (("docs/CHANGING.md", "## To add a command\n"), ("docs/MYSQL.md", "")):
            with self.subTest(document=document):
                text = (ROOT / document).read_text().partition(heading)[2] if heading else (ROOT / document).read_text()
                lines = re.findall(r"^\d\. (.*?)(?=^\d\. |^$)", text.partition("\n## ")[0], re.MULTILINE | re.DOTALL)
                self.assertEqual(len(lines), 5)
                self.assertEqual([it for it in lines if len(it.split()) > 25], [])
        first = (ROOT / "docs/MYSQL.md").read_text().partition("\n## ")[0]
        self.assertLessEqual(len(first.split()), 150)

    def test_documents_are_short_enough_to_be_read(self) -> None:
        self.assertLess(len((ROOT / "README.md").read_text().splitlines()), 150)
        for document, most in MOST_WORDS.items():
            with self.subTest(document=document):
                self.assertLessEqual(len(TABLE.sub("", (ROOT / document).read_text()).split()), most)


if __name__ == "__main__":
    unittest.main()
