"""`cophy-lint` on small files."""
from __future__ import annotations

import subprocess
import tempfile
import unittest
from pathlib import Path

ROOT = Path(__file__).resolve().parents[2]
HEAD = 'version = 1\n[[table]]\nname = "t"\nrows = 100\npages = 2\n'
COLUMN = '[[table.column]]\nname = "c"\nkind = "int"\nwidth = 4\ndistinct = 50\n'
TEXT = '[[table.column]]\nname = "x"\nkind = "text"\nwidth = 9\ndistinct = 9\n'


class Lint(unittest.TestCase):
    def linted(self, catalogue: str, workload: str = "SELECT c FROM t") -> tuple[int, str]:
        with tempfile.TemporaryDirectory() as folder:
            for name, text in (("c", catalogue), ("l", workload)):
                (Path(folder) / name).write_text(text)
            ran = subprocess.run(
                [ROOT / "tools/lint/cophy-lint", "c", "l"], cwd=folder, capture_output=True, text=True, check=False
            )
        self.assertEqual(ran.stderr, "")
        return ran.returncode, ran.stdout

    def test_good_files_have_no_warnings(self) -> None:
        self.assertEqual(self.linted(HEAD + COLUMN), (0, ""))
        self.assertEqual(self.linted(HEAD + COLUMN, "SELECT c FROM t WHERE c = ? AND c > 5"), (0, ""))

    def test_each_version_has_its_keys(self) -> None:
        catalogue = HEAD + "may_cluster = true\n" + COLUMN + "bounds = [1, 2]\n"
        status, text = self.linted(catalogue)
        self.assertEqual(status, 1)
        for path in ("table[1].may_cluster", "table[1].column[1].bounds"):
            self.assertIn(f"c: {path}: means nothing and is passed over: version 2 has it", text)
        self.assertEqual(self.linted(catalogue.replace("version = 1", "version = 2")), (0, ""))
        misspelt = catalogue.replace("version = 1", "version = 2").replace("bounds", "bound")
        self.assertIn(
            "table[1].column[1].bound: means nothing and is passed over: did you mean bounds?", self.linted(misspelt)[1]
        )

    def test_each_warning_has_its_place_and_its_reason(self) -> None:
        table = [
            (
                HEAD + COLUMN.replace("distinct", "distnct"),
                "c: table[1].column[1].distnct: means nothing and is passed over: did you mean distinct?",
            ),
            (
                HEAD.replace("version = 1", "version = 1\nrand_page = 5") + COLUMN,
                "c: rand_page: means nothing and is passed over: it belongs under [rates]",
            ),
            (
                HEAD + COLUMN + '[[index]]\nname = "i"\nkeys = ["c"]\n',
                "c: index: means nothing and is passed over: write [[table.index]]",
            ),
            (
                HEAD + 'postgres = ["public", "t", "never analysed"]\n' + COLUMN,
                "'t' was never analysed when it was exported",
            ),
            (HEAD.replace("100", "0") + COLUMN, "'t' has no rows and counts as one row on one page"),
            (HEAD.replace("pages = 2", "pages = 0") + COLUMN, "has rows but no pages"),
            (HEAD + COLUMN.replace("50", "500"), "more distinct values than its table has rows"),
            (HEAD + COLUMN + "low = 5\n", "one end alone"),
            (HEAD + COLUMN + "low = \n", "c: catalogue: not TOML: at line 11"),
        ]
        for catalogue, warning in table:
            with self.subTest(warning=warning):
                status, text = self.linted(catalogue)
                self.assertEqual(status, 1)
                self.assertIn(warning, text)

    def test_a_guess_is_a_note_and_no_fault(self) -> None:
        table = [
            (
                "SELECT c FROM t;\n\nSELECT c FROM t WHERE c BETWEEN ? AND ?",
                "a range of parameters is taken to keep a quarter of the rows: statement 2, line 3 ('c'): SELECT c FROM t WHERE c",
            ),
            (
                "SELECT c FROM t WHERE c >= $1",
                "a bound that is a parameter is taken to keep a third of the rows: statement 1",
            ),
            ("SELECT c FROM t WHERE t.x > 'q'", "a bound of a column of kind text is taken"),
            ("SELECT c FROM t WHERE x LIKE 'q%'", "LIKE with a prefix"),
            (
                "SELECT c FROM t LIMIT 5",
                "LIMIT costs and saves nothing, the whole statement is priced: statement 1, line 1: SELECT c FROM t LIMIT 5\n",
            ),
        ]
        for workload, note in table:
            with self.subTest(workload=workload):
                status, text = self.linted(HEAD + COLUMN + TEXT, workload)
                self.assertEqual((status, text.count("\n")), (0, 1))
                self.assertTrue(text.startswith(f"l: note: {note}"), text)
        for catalogue, note in (
            (HEAD + COLUMN.replace("distinct = 50\n", ""), "an equality is taken to keep a tenth of the rows: 't.c'\n"),
            (HEAD + COLUMN + '[[table.index]]\nname = "i"\nkeys = ["c", "c", "c", "c", "c"]\n', "four keys"),
        ):
            with self.subTest(catalogue=catalogue):
                status, text = self.linted(catalogue)
                self.assertEqual(status, 0)
                self.assertIn(note, text)

    def test_a_column_without_a_limit_is_noted(self) -> None:
        long = TEXT + "postgres_most = 1073741824\n" + TEXT.replace('"x"', '"y"') + "postgres_most = 84\n"
        note = "c: note: an INSERT of more than 2704 bytes fails where an index has the column: 't.x'\n"
        self.assertEqual(self.linted(HEAD + COLUMN + long, "SELECT x, y FROM t"), (0, note))
        self.assertEqual(self.linted(HEAD + COLUMN + long), (0, ""))

    def test_notes_of_a_kind_are_one_line(self) -> None:
        statements = ["SELECT c FROM t WHERE c < ? AND x > ? LIMIT 5;", "SELECT c FROM t WHERE c > ? LIMIT 5;\n"] * 15
        status, text = self.linted(HEAD + COLUMN + TEXT, "\n".join(statements))
        self.assertEqual((status, text.count("\n")), (0, 2))
        bounds, limits = text.splitlines()
        first, second = (it.rstrip(";\n") for it in statements[:2])
        self.assertIn(f"statement 1, line 1 ('c' and 'x'): {first}; statement 2, line 2 ('c'): {second}; s", bounds)
        self.assertTrue(limits.endswith(f"statement 30, line 44: {second}"), limits)
        self.assertEqual(limits.count("statement "), 31)

    def test_what_no_statement_names_counts_for_nothing(self) -> None:
        other = '[[table]]\nname = "other"\nrows = 0\npages = 0\n' + COLUMN.replace("distinct = 50\n", "")
        catalogue = HEAD + COLUMN + TEXT.replace("distinct = 9\n", "") + other
        self.assertEqual(self.linted(catalogue), (0, ""))
        self.assertIn("'t.x'", self.linted(catalogue, "SELECT X FROM t")[1])
        status, text = self.linted(catalogue, 'SELECT c FROM "Other"')
        self.assertEqual((status, "'other' has no rows" in text, "'other.c'" in text), (1, True, True))
        # A key that means nothing is told of any table.
        self.assertIn("table[2].row: means nothing", self.linted(catalogue.replace("rows = 0", "row = 0"))[1])

    def test_warnings_come_first_and_give_the_status(self) -> None:
        status, text = self.linted(HEAD + COLUMN.replace("distinct", "distnct"), "SELECT TOP (5) c FROM t LIMIT 5")
        self.assertEqual(status, 1)
        starts = [
            "c: table[1].column[1].distnct: means",
            "c: note: without",
            "l: statement 1, line 1: TOP",
            "l: note: LIMIT",
        ]
        for line, start in zip(text.splitlines(), starts, strict=True):
            self.assertTrue(line.startswith(start), line)

    def test_an_empty_workload_is_a_warning(self) -> None:
        self.assertEqual(
            self.linted(HEAD + COLUMN, " ; -- weight 5\n"),
            (1, "l: workload: it holds no statement: every total is 0\n"),
        )

    def test_the_version_is_that_of_the_tools(self) -> None:
        ran = subprocess.run([ROOT / "tools/lint/cophy-lint", "--version"], capture_output=True, text=True, check=True)
        self.assertRegex(ran.stdout, r"\Acophy-lint \d+\.\d+\.\d+\n\Z")


class Rules(unittest.TestCase):
    """Files of rules."""

    SECOND = HEAD.replace("version = 1", "version = 2") + "may_cluster = true\n"
    CATALOGUE = SECOND + COLUMN + TEXT + '[[table.index]]\nname = "i"\nkeys = ["c"]\n'

    def linted(self, rules: str, workload: str = "SELECT c FROM t") -> tuple[int, list[str]]:
        with tempfile.TemporaryDirectory() as folder:
            for name, text in (("c", self.CATALOGUE), ("l", workload), ("r", rules)):
                (Path(folder) / name).write_text(text)
            words = [str(ROOT / "tools/lint/cophy-lint"), "c", "l", "--rules", "r"]
            ran = subprocess.run(words, cwd=folder, capture_output=True, text=True, check=False)
        self.assertEqual(ran.stderr, "")
        return ran.returncode, [it for it in ran.stdout.splitlines() if it.startswith("r: ")]

    def test_good_rules_have_no_warnings(self) -> None:
        rules = "# none of them\n\nmust t(x, c)\nnever t(x)\nmust t(x) clustered\nnever T(C, X)\n"
        self.assertEqual(self.linted(rules), (0, []))
        self.assertEqual(self.linted(""), (0, []))

    def test_each_warning_has_its_line_and_its_reason(self) -> None:
        table = [
            ("must t\n", "r: line 1: is no rule: what must be is an index"),
            ("never t", "r: line 1: is no rule: the last line ends with a line feed too"),
            ("never s\n", "r: line 1: the catalogue has no table 's'"),
            ("#\nnever t.cc\n", "r: line 2: the table 't' has no column 'cc': did you mean c?"),
            ("never t(x, y)\n", "r: line 1: the table 't' has no column 'y'"),
            ("must t(C)\n", "r: line 1: the index exists already, as 'i', so it is no candidate"),
            ("never t(x)\nnever T(X)\n", "r: line 2: it says again what line 1 says"),
            ("never t(x)\nmust t(x)\n", "r: line 2: it says the contrary of what line 1 says"),
            ("never t\nnever t.x\n", "r: line 2: line 1 leaves it out already"),
            ("never t\nmust t(x)\n", "r: line 2: line 1 leaves it out, and it must be"),
            ("never t.X\nnever t(c, x)\n", "r: line 2: line 1 leaves it out already"),
        ]
        for rules, line in table:
            with self.subTest(rules=rules):
                status, lines = self.linted(rules)
                self.assertEqual((status, len(lines)), (1, 1))
                self.assertIn(line, lines[0])

    def test_a_rule_over_what_no_statement_names_is_noted(self) -> None:
        status, lines = self.linted("never t\nnever t(x)\n", "SELECT c FROM s")
        self.assertEqual(status, 0)
        self.assertEqual(
            lines,
            [
                "r: note: no statement names the table of a rule, so the rule changes nothing: line 1 ('t'); line 2 ('t')"
            ],
        )


class Edits(unittest.TestCase):
    """Files of edits."""

    OTHER = '[[table]]\nname = "u"\nrows = 0\npages = 0\n' + COLUMN

    def linted(
        self, edits: str, workload: str = "SELECT c FROM t;\n-- weight 7\nSELECT c FROM t"
    ) -> tuple[int, list[str]]:
        with tempfile.TemporaryDirectory() as folder:
            for name, text in (("c", HEAD + COLUMN + self.OTHER), ("l", workload), ("e", edits)):
                (Path(folder) / name).write_text(text)
            words = [str(ROOT / "tools/lint/cophy-lint"), "c", "l", "--edits", "e"]
            ran = subprocess.run(words, cwd=folder, capture_output=True, text=True, check=False)
        self.assertEqual(ran.stderr, "")
        return ran.returncode, ran.stdout.splitlines()

    def test_good_edits_have_no_warnings(self) -> None:
        edits = (
            "advise\nremove 1\nweigh 1 5\nadd 7 SELECT c FROM t WHERE c = ?\nweigh 2 6\nremove 2\nremove 1\nadvise\n"
        )
        self.assertEqual(self.linted(edits), (0, []))
        self.assertEqual(self.linted("add 1 SELECT c FROM t\nadvise\n", ""), (0, []))
        # Numbers over what isn't a workload aren't looked at.
        self.assertEqual(self.linted("remove 9\nadvise\n", "SELECT c FROM t; #"), (0, []))

    def test_each_warning_has_its_line_and_its_reason(self) -> None:
        for edits, line in (
            ("advis\nadvise\n", "e: line 1: is no edit: a line is one of add W SQL, remove N, weigh N W and advise"),
            ("advise", "e: line 1: is no edit: the last line ends with a line feed too"),
            ("remove 2\nweigh 2 1\nadvise\n", "e: line 2: there is no statement 2 here, but 1"),
            ("weigh 2 7\nadvise\n", "e: line 1: statement 2 has the weight 7 already"),
            (
                "add 1 SELECT c FROM t\n" * 998 + "add 1 SELECT c FROM t\nadvise\n",
                "e: line 999: there are 1000 statements already",
            ),
            (
                "advise\nremove 1\nremove 1\n",
                "e: line 2: changes nothing that is printed: no line behind it asks for advice",
            ),
            ("remove 1\n", "e: edits: no line asks for advice, so nothing is printed"),
            ("", "e: edits: no line asks for advice"),
            ("add 1 SELECT c FROM u\nadvise\n", "c: table[2]: 'u' has no rows"),
        ):
            with self.subTest(edits=edits[:60]):
                status, lines = self.linted(edits)
                self.assertEqual(status, 1)
                self.assertTrue(lines[0].startswith(line), lines)

    def test_what_is_a_guess_in_an_added_statement_is_noted(self) -> None:
        status, lines = self.linted(
            "add 1 SELECT c FROM t WHERE c > ?\nadvise\nadd 1 SELECT c FROM t WHERE c < $1 LIMIT 5\nadvise\n"
        )
        self.assertEqual(status, 0)
        first, second = "SELECT c FROM t WHERE c > ?", "SELECT c FROM t WHERE c < $1 LIMIT 5"
        self.assertTrue(lines[0].endswith(f": line 1 ('c'): {first}; line 3 ('c'): {second}"), lines[0])
        self.assertIn("LIMIT costs and saves nothing, the whole statement is priced: line 3", lines[1])


if __name__ == "__main__":
    unittest.main()
