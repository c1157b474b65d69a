"""The hints that the script `cophy` gives: what an answer of the program may come from."""
from __future__ import annotations

import os
import re
import subprocess
import unittest
from unittest import mock

from cophy_text import keys
from cophy_wrapper import hints, outputs
from fixtures import InFolder
from grammar import Refused, accepted
from script_copy import ROOT, OverCopy


class Hints(OverCopy):
    """Hints on given answers, as lines on the standard error."""

    CATALOGUE = (
        'version = 1\n[[table]]\nname = "orders"\nrows = 1\npages = 1\n'
        '[[table.column]]\nname = "city"\nkind = "int"\nwidth = 4\ndistnct = 5\n'
    )

    def setUp(self) -> None:
        super().setUp()
        self.copy.build()

    def hinted(self, text: str, workload: str, catalogue: str = CATALOGUE, words: tuple[str, ...] = ()) -> str:
        (self.copy.root / "c.toml").write_text(catalogue)
        (self.copy.root / "l.sql").write_text(workload)
        status = "3" if text.startswith("read") else "2" if text.startswith("usage") else "5" if text else "0"
        shown = text.replace("\\", "\\\\").replace("%", "%%") + "\\n"
        ran = self.copy.call(
            *(words or ("cost", "c.toml", "l.sql")), FAKE_TEXT=shown, FAKE_STATUS=status, COPHY_HINTS="1"
        )
        self.assertEqual(ran.stdout, (text + "\n").encode())
        return ran.stderr.decode()

    def test_a_place_is_told_by_line_column_and_statement(self) -> None:
        hints = self.hinted(
            "refused: unsupported at 52", "SELECT city FROM orders;\nSELECT city FROM orders\nOR city = 1"
        )
        self.assertIn("l.sql, line 3, column 3, statement 2", hints)
        hints = self.hinted("refused: syntax at 14", "SELECT city\n\tFROM; SELECT")
        self.assertIn("\ncophy:    FROM; SELECT\ncophy:    ^\n", hints)

    def test_each_form_has_its_hint(self) -> None:
        table = [
            ("SELECT city::text FROM orders", 12, "bad byte", "casts"),
            ("\ufeffSELECT 1", 1, "bad byte", "byte-order mark"),
            ("SELECT `city` FROM orders", 8, "bad byte", 'write "city"'),
            ("SELECT `a b` FROM orders", 8, "bad byte", 'names are quoted with "'),
            ("SELECT [city] FROM orders", 8, "bad byte", 'write "city"'),
            ("SELECT city FROM orders WHERE city = ARRAY[city]", 43, "bad byte", "c IN (.., ..)"),
            ("SELECT city FROM orders WHERE city = @p1", 38, "bad byte", "write ? for a parameter"),
            ("SELECT city FROM orders WHERE city @> 1", 36, "bad byte", "IS NOT NULL"),
            ("SELECT TOP 5 city FROM orders", 12, "syntax", "write LIMIT 5 at the end"),
            ("SELECT city FROM orders LIMIT 5, 10", 32, "syntax", "write LIMIT 10 OFFSET 5"),
            ("SELECT city FROM orders WITH (NOLOCK)", 25, "unsupported", "leave WITH (NOLOCK)"),
            ("SELECT city FROM orders (NOLOCK)", 25, "syntax", "leave WITH (NOLOCK)"),
            ("WITH a AS (SELECT 1) SELECT city FROM a", 1, "unsupported", "queries as statements of their own"),
            ('SELECT city FROM orders WHERE city = "Lund"', 38, "no column", "write 'Lund'"),
            ('SELECT city FROM orders WHERE city > "it\'s"', 38, "syntax", "write 'it''s'"),
            ('SELECT city FROM orders WHERE city LIKE "L%"', 41, "syntax", "write 'L%'"),
            ("SELECT city FROM orders WHERE city IN ('a', \"b\")", 45, "syntax", "write 'b'"),
            ('INSERT INTO orders VALUES ("b")', 28, "no column", "write 'b'"),
            ('SELECT "citi" FROM orders', 8, "no column", "did you mean city?"),
            ("SELECT city FROM orders WHERE city == 1", 37, "syntax", "write one ="),
            ("SELECT city FROM orders\nGO\nSELECT city FROM orders", 28, "unsupported", "is one missing"),
            ("INSERT INTO orders (city) SELECT city FROM orders", 27, "unsupported", "INSERT .. SELECT isn't read"),
            ("SELECT city FROM orders USE INDEX (i)", 29, "syntax", "hints on indexes"),
            ("SELECT city FROM orders FETCH FIRST 5 ROWS ONLY", 31, "syntax", "write LIMIT n"),
            ("SELECT city FROM orders WHERE city = :id", 38, "bad byte", "parameter"),
            ("SELECT city FROM orders WHERE city = 1e3", 39, "bad byte", "exponents"),
            ("SELECT city FROM orders WHERE city = 'a", 38, "open text", "never closed"),
            ("SELECT city FROM orders WHERE city = 1 OR city = 2", 40, "unsupported", "IN (.., ..)"),
            ("SELECT city FROM orders LEFT JOIN t ON a = b", 25, "unsupported", "write JOIN"),
            ("SELECT city FROM (SELECT city FROM orders) s", 18, "syntax", "subqueries"),
            ("SELECT city FROM public.orders", 24, "syntax", "schema"),
            ("SELECT city FROM orders WHERE lower(city) = 1", 36, "syntax", "c LIKE ?"),
            ("SELECT city FROM orders WHERE city = 1 + 2", 40, "syntax", "arithmetic"),
            ("BEGIN; SELECT city FROM orders", 1, "syntax", "no statement that is priced"),
            ("SELECT city FROM orders FOR UPDATE", 29, "syntax", "locks cost nothing"),
            ("SELECT city FROM orders ORDER city", 31, "syntax", "docs/FORMATS.md"),
            ("SELECT city FROM orders ORDER BY city NULLS LAST", 39, "syntax", "NULLS"),
            ("SELECT city FROM", 17, "syntax", "ends within"),
            ("SELECT city FROM order_", 18, "no table", "did you mean orders?"),
            ("SELECT citty FROM orders", 8, "no column", "did you mean city?"),
            ("SELECT city FROM orders a, orders b WHERE a.city = b.city", 8, "ambiguous", "TABLE.city"),
            ("SELECT a.city FROM orders a, orders b", 1, "unjoined", "no cross products"),
        ]
        for workload, place, fault, hint in table:
            with self.subTest(workload=workload):
                if fault in ("syntax", "unsupported") and place <= len(workload):
                    with self.assertRaisesRegex(Refused, f"syntax at {place}:"):
                        accepted(workload, {"orders": ["city"], "public": ["city"]})
                self.assertIn(hint, self.hinted(f"refused: {fault} at {place}", workload).splitlines()[-1])

    def test_swapped_files_are_told(self) -> None:
        swapped = "comes first"
        self.assertIn(swapped, self.hinted("refused: not toml", self.CATALOGUE, "SELECT city FROM orders"))
        self.assertIn(swapped, self.hinted("refused: bad byte at 9", self.CATALOGUE))

    def test_a_path_of_the_catalogue_is_told_by_names(self) -> None:
        hints = self.hinted("refused: missing table[1].column[1].width", "", self.CATALOGUE.replace("width", "widht"))
        self.assertIn("in table 'orders', column 'city'", hints)
        self.assertIn("the key widht means nothing; did you mean width?", hints)
        self.assertIn("from 1 to 1000", hints)

    def test_files_that_cannot_be_read_are_told_apart(self) -> None:
        (self.copy.root / "folder").mkdir()
        for name, hint in (("nowhere", "no such file"), ("folder", "is a directory"), ("c.tom", "c.toml is there")):
            with self.subTest(name=name):
                self.assertIn(hint, self.hinted(f"read fault: {name}", "", words=("cost", name, "l.sql")))
        words = ("explain", "c.toml", "l.sql", "nowhere", "1")
        self.assertIn("/dev/null", self.hinted("read fault: nowhere", "", words=words))

    def test_what_passes_in_silence_is_told(self) -> None:
        hints = self.hinted("", " ;; -- weight 5\n")
        self.assertIn("holds no statement", hints)
        self.assertIn("table[1].column[1].distnct means nothing and was passed over: did you mean distinct?", hints)

    def test_faulty_words_are_told_the_form(self) -> None:
        self.assertIn("CONF N", self.hinted("usage: missing word 5", "", words=("explain", "c.toml", "l.sql", "x")))
        self.assertIn(
            "did you mean explain?", self.hinted("usage: unknown command at word 1", "", words=("explian", "x"))
        )

    def test_a_file_that_is_read_once_gets_no_hints(self) -> None:
        os.mkfifo(self.copy.root / "pipe")
        self.assertEqual(self.hinted("refused: not toml", "", words=("cost", "pipe", "l.sql")), "")

    def test_no_hint_holds_what_a_terminal_might_obey(self) -> None:
        """Of names that try to speak to the terminal."""
        odd = "\x1b]0;x\x07\x1b[2J\r\u202e\u009b"
        edits = f'advise\nadd 5 SELECT city FROM "{odd}"\nodd {odd}\n'
        (self.copy.root / "e").write_text(edits)
        for fault, words in (
            ("no table at 18", ("cost", "c.toml", "l.sql")),
            ("no column at 18", ("cost", "c.toml", "l.sql")),
            ("edit line 2: no table at 18", ("retune", "c.toml", "l.sql", "e", "9")),
            ("edit line 2: ambiguous at 18", ("retune", "c.toml", "l.sql", "e", "9")),
            ("edit line 3: bad line", ("retune", "c.toml", "l.sql", "e", "9")),
        ):
            with self.subTest(fault=fault):
                said = self.hinted(f"refused: {fault}", f'SELECT city FROM "{odd}"', words=words)
                self.assertTrue(said.replace("\n", "").isprintable(), ascii(said))
                self.assertTrue(all(it.startswith("cophy: ") for it in said.splitlines()))
                self.assertGreater(said.count("\n"), 2)


class OfRules(InFolder):
    """Hints on refusals of a file of rules, without a call of the script."""

    def hinted(self, text: str, rules: str, command: str = "ruled") -> str:
        (self.folder / "c.toml").write_text(Hints.CATALOGUE)
        (self.folder / "r").write_text(rules)
        catalogue, load, file = self.in_folder("c.toml", "l.sql", "r")
        words = [command, catalogue, load, *(["9", file] if command == "ruled" else [file, "cert"])]
        return "\n".join(hints.hints(hints.Call(5 if text.startswith("ref") else 2, words, text)))

    def test_a_line_is_shown_with_what_is_wrong_there(self) -> None:
        table = [
            ("rules line 2", "#\nmust orders\n", "line 2: must orders", "must TABLE(COLUMN, COLUMN)"),
            ("rules line 1", "never orders", "line 1: never orders", "ends with a line feed"),
            ("rules line 1", "never orders\r\n", "line 1: never orders\\r", "no carriage return"),
            ("rules line 3", "#\n#\nnever t clustered\n", "line 3: ", "the forms are"),
            ("rules no table at line 1", "never order\n", "line 1: never order", "did you mean orders?"),
            ("rules no table at line 1", "never zzz(a)\n", "line 1: never zzz(a)", "cophy-pg rules"),
            ("rules no column at line 1", "never orders.cty\n", "line 1: never orders.cty", "did you mean city?"),
            (
                "rules no candidate at line 1",
                "must orders(city)\n",
                "line 1: must orders(city)",
                "cophy candidates lists",
            ),
            ("rules line 2 contradicts on 7", "never orders\nmust orders(city)\n", "line 2: must", "the contrary"),
            ("rules need 70 over 4", "must orders(city)\n", "", "greater budget"),
            ("rules clash on 1 and 2", "", "", "clustered by one index"),
        ]
        for text, rules, place, hint in table:
            for command in ("ruled", "check-ruled"):
                with self.subTest(text=text, command=command):
                    said = self.hinted(f"refused: {text}", rules, command)
                    self.assertIn(place, said)
                    self.assertIn(hint, said)

    def test_an_older_program_is_told(self) -> None:
        self.assertEqual(self.hinted("usage: unknown command at word 1", ""), "this program is older than ruled")
        self.assertIn("usage: cophy ruled CAT LOAD BUDGET RULES", self.hinted("usage: missing word 5", ""))


class OfEdits(InFolder):
    """Hints on refusals of edits, without a call of the script."""

    def hinted(self, text: str, edits: str, status: int = 5) -> list[str]:
        (self.folder / "c.toml").write_text(Hints.CATALOGUE.replace("distnct", "distinct"))
        (self.folder / "l.sql").write_text("")
        (self.folder / "e").write_bytes(edits.encode("latin-1"))
        words = ["retune", *self.in_folder("c.toml", "l.sql", "e"), "9"]
        return [*hints.hints(hints.Call(status, words, text))]

    def test_a_line_is_shown_with_what_is_wrong_there(self) -> None:
        for fault, edits, hint in (
            ("1: bad line", "advis\n", "a line is one of add W SQL, remove N, weigh N W and advise"),
            ("2: bad line", "advise\n# a comment\n", "no line is empty or a comment"),
            ("1: bad line", "add 0 SELECT city FROM orders\n", "W is 1 to 1000000"),
            ("1: bad line", "remove 1001\n", "N is 1 to 1000"),
            ("1: bad line", "weigh 1\n", "the form is weigh N W"),
            ("1: bad line", "advise\r\n", "no carriage return"),
            ("1: bad line", "advise", "the last line ends with a line feed too"),
            ("1001: bad line", "remove 1\n" * 1001, "at most 1000 lines"),
            ("17: bad line", "advise\n" * 17, "at most 16 lines ask for advice"),
            ("1: bad line", "add 1 SELECT city FROM orders; SELECT city FROM orders\n", "here are 2"),
            ("1: no statement 7", "remove 7\n", "a removal moves later ones down"),
            ("1: more than 1000 statements", "add 1 SELECT city FROM orders\n", "remove some before"),
            ("1: more than 2000 slots", "add 1 SELECT city FROM orders\n", "at most 2000 tables"),
            ("1: statement 3 has 4225 combinations", "add 1 SELECT city FROM orders\n", "more than 4096 combinations"),
        ):
            with self.subTest(fault=fault, edits=edits[:40]):
                number = int(fault.split(":")[0])
                said = self.hinted(f"refused: edit line {fault}", edits)
                self.assertEqual(said[0], f"{self.folder}/e, line {number}")
                shown = "".join(it if it >= " " else " " for it in edits.split("\n")[number - 1][:60])
                self.assertEqual(said[1], f"  {shown}")
                self.assertIn(hint, said[2])
                self.assertEqual(len(said), 3)

    def test_a_place_in_a_statement_is_shown_in_its_line(self) -> None:
        for fault, sql, hint in (
            ("syntax at 25", "SELECT city FROM orders  ORDER city", ""),
            ("no table at 18", "SELECT city FROM order_", "did you mean orders?"),
            ("no column at 8", "SELECT citty FROM orders", "did you mean city?"),
            ("bad byte at 12", "SELECT city::text FROM orders", "casts"),
            ("open text at 38", "SELECT city FROM orders WHERE city = 'a", "never closed"),
            ("unsupported at 40", "SELECT city FROM orders WHERE city = 1 OR city = 2", "IN (.., ..)"),
            ("more than 8 slots at 18", "SELECT city FROM orders", "at most 8 tables"),
        ):
            with self.subTest(fault=fault):
                at = int(fault.rsplit(" ", 1)[1])
                for begin in ("add 5 ", "add 1000000 "):
                    said = self.hinted(f"refused: edit line 2: {fault}", f"advise\n{begin}{sql}\n")
                    self.assertEqual(said[0], f"{self.folder}/e, line 2, column {len(begin) + at}")
                    self.assertEqual(
                        said[1].removeprefix("  ")[said[2].index("^") - 2 :], (begin + sql)[len(begin) + at - 1 :]
                    )
                    self.assertIn(hint, "".join(said[3:]))

    def test_edits_that_ask_for_no_advice_are_told(self) -> None:
        [said] = self.hinted("", "weigh 1 1\n", status=0)
        self.assertIn("asks for no advice, so nothing was printed", said)
        self.assertEqual(self.hinted("", "add 1 SELECT city FROM orders\nadvise\n", status=0), [])

    def test_edits_in_the_place_of_the_workload_are_told(self) -> None:
        (self.folder / "e").write_text("add 5 SELECT city FROM orders\n")
        words = ["cost", *self.in_folder("c.toml", "e")]
        said = [*hints.hints(hints.Call(5, words, "refused: syntax at 1"))]
        self.assertEqual(said, [f"{self.folder}/e looks like edits: cophy retune takes them behind the workload"])

    def test_an_older_program_is_told(self) -> None:
        said = self.hinted("usage: unknown command at word 1", "", status=2)
        self.assertEqual(said, ["this program is older than retune"])
        said = self.hinted("usage: bad number at word 5", "", status=2)
        self.assertIn("usage: cophy retune CAT LOAD EDITS BUDGET [--nodes N]", said)
        self.assertIn("BUDGET is pages from 0 to 10^12", said[1])


class Unwritten(OverCopy):
    """Hints on why an answer couldn't be written."""

    def hinted(self, file: str | None, output: str | None = None) -> str:
        self.copy.build()
        words = ("advise", "c.toml", "l.sql", "9", *(("--cert", file) if file else ()))
        with open(output or os.devnull, "w") as out:
            ran = subprocess.run(
                [self.copy.root / "cophy", *words],
                cwd=self.copy.root,
                env=self.copy.environment(FAKE_STATUS="4", COPHY_HINTS="1"),
                stdin=subprocess.DEVNULL,
                stdout=out,
                stderr=subprocess.PIPE,
                check=False,
                text=True,
            )
        self.assertEqual(ran.returncode, 4)
        self.assertEqual(len([it for it in self.copy.called() if it.startswith("program")]), 1, "it is run once")
        self.copy.forget()
        return ran.stderr

    def test_file_and_cause_are_named(self) -> None:
        root = self.copy.root
        (root / "folder").mkdir()
        (root / "link").symlink_to("nowhere/cert")
        (root / "file").write_text("old")
        table = [
            ("/dev/full", "/dev/full, which takes nothing"),
            ("nowhere/cert", "there is no folder nowhere"),
            ("file/cert", "file is no folder"),
            ("folder", "Is a directory"),
            ("link", "a link to a file that can't be made"),
            ("x" * 300, "File name too long"),
        ]
        for file, cause in table:
            with self.subTest(file=file):
                told = f"cophy: {file}: the certificate can't be written: "
                self.assertRegex(self.hinted(file), rf"\A{re.escape(told)}.*{re.escape(cause)}\n\Z")
        self.assertEqual((root / "file").read_text(), "old")
        self.assertFalse((root / "cert").exists())

    def test_the_file_of_each_command_is_named(self) -> None:
        for words, told in (
            (["fold", "c", "l", "nowhere/out"], "nowhere/out: the folded workload can't be written"),
            (["sweep", "c", "l", "0", "1", "2", "--cert", "nowhere/k"], "nowhere/k1: the certificate can't be written"),
            (["ruled", "c", "l", "9", "r", "--cert", "nowhere/k"], "nowhere/k: the certificate can't be written"),
        ):
            with self.subTest(words=words):
                self.assertEqual([*outputs.unwritten(words)], [f"{told}: there is no folder nowhere"])

    def test_the_first_certificate_of_a_sweep_with_a_cause_is_named(self) -> None:
        prefix = str(self.copy.root / "k")
        for it in ("2", "4", "5"):
            (self.copy.root / f"k{it}").mkdir()
        for first, told in (("1", []), ("2", [f"{prefix}2: the certificate can't be written: Is a directory"])):
            words = ["sweep", "c", "l", "0", "1", first, "--nodes", "4", "--cert", prefix]
            self.assertEqual([it for it in outputs.unwritten(words) if "output" not in it], told)

    def test_an_output_that_takes_nothing_is_named(self) -> None:
        told = "cophy: the standard output can't be written: it is /dev/full, which takes nothing\n"
        self.assertEqual(self.hinted(None, "/dev/full"), told)
        self.assertEqual(self.hinted("cert", "/dev/full"), told)
        self.assertEqual(self.hinted("cert"), "")

    def test_a_full_disk_and_one_that_is_only_read_are_told(self) -> None:
        whole = os.statvfs(self.copy.folder)
        file, new = str(self.copy.root / "crates.txt"), str(self.copy.root / "new")
        for change, cause in (({3: 0, 4: 0}, "no space is left"), ({7: 0}, "no more files")):
            numbers = [change.get(at, max(int(it), 10**6)) for at, it in enumerate(whole)]
            with mock.patch("os.statvfs", return_value=os.statvfs_result(numbers)):
                self.assertIn(cause, str(outputs.file_cause(new)))
                self.assertEqual(cause in str(outputs.file_cause(file)), cause == "no space is left")
        numbers = [*whole[:8], os.ST_RDONLY, *whole[9:]]
        with mock.patch("os.statvfs", return_value=os.statvfs_result(numbers)), mock.patch(
            "os.access", return_value=False
        ):
            self.assertIn("can only be read", str(outputs.file_cause(new)))

    def test_a_right_that_is_missing_is_told(self) -> None:
        with mock.patch("os.access", return_value=False):
            self.assertIn("no right to write into", str(outputs.file_cause(str(self.copy.root / "new"))))
        with mock.patch("os.open", side_effect=PermissionError(13, "Permission denied")):
            self.assertEqual(outputs.file_cause(str(self.copy.root / "crates.txt")), "Permission denied")


class Plain(unittest.TestCase):
    """The catalogues of which no hint is looked for."""

    def is_plain(self, text: str) -> bool:
        awk = ["awk", "-f", str(ROOT / "tools" / "wrapper" / "plain.awk")]
        return subprocess.run(awk, input=text, text=True, check=False).returncode == 0

    def test_every_key_that_means_something_is_plain(self) -> None:
        heads = {
            "": "",
            "rates": "[rates]",
            "table": "[[table]]",
            "column": "[[table.column]]",
            "index": "[[table.index]]",
        }
        self.assertEqual(set(heads), set(keys.KNOWN))
        parts = {"rates", "table", "column", "index"}
        listed = {it for part in heads for it in keys.known(part, 2)} - parts
        for version in (1, 2):
            for part, head in heads.items():
                for key in sorted(listed | {"postgres", "wdth"}):
                    with self.subTest(version=version, part=part, key=key):
                        is_known = key in keys.known(part, version) or key == keys.OURS
                        text = f"version = {version} # note\n{head}\n  {key}= 5 # note\n"
                        self.assertEqual(self.is_plain(text), is_known)

    def test_other_forms_are_looked_at(self) -> None:
        for line in ("[rate]", "[table.x]", "[[column]]", "rates.x = 1", '"version" = 1', "table = [{rowz = 1}]"):
            with self.subTest(line=line):
                self.assertFalse(self.is_plain(line + "\n"))

    def test_the_examples_are_plain(self) -> None:
        for file in (ROOT / "examples").glob("*.toml"):
            self.assertTrue(self.is_plain(file.read_text()), file)


if __name__ == "__main__":
    unittest.main()
