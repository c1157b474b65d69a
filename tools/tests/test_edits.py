"""`cophy-pg edits`: beside a plain model of edits over drawn workloads, and a search for the fewest over all small ones."""
from __future__ import annotations

import os
import pty
import random
import subprocess
import unittest
from collections import Counter
from itertools import combinations_with_replacement

from cophy_text.edits import Edit, edits_in, read_edit
from cophy_text.workloads import NoWorkload, Statement, read_statements
from edits_model import FORMS, applied, drawn, fewest, plain, written
from fixtures import NO_PARSER, TOOL, InFolder
from patience import LONG

if not NO_PARSER:
    from cophy_pg.edits import AFRESH, between


class Reading(unittest.TestCase):
    def test_statements_have_their_weights_and_forms(self) -> None:
        draw = random.Random(1)
        for turn in range(300):
            listed = drawn(draw, draw.randrange(12))
            with self.subTest(turn=turn):
                found = read_statements(written(listed, draw))
                self.assertEqual([(plain(it.text.decode()), it.weight) for it in found], listed)
                self.assertNotRegex(b"".join(it.text for it in found), rb"[\n\t]|/\*\*|-- it's|  ")
                forms = {it.form: text for it, (text, _) in zip(found, listed)}
                self.assertEqual(len(forms), len({text for text, _ in listed}))

    def test_what_the_program_tells_apart_has_another_form(self) -> None:
        same = [
            ("SELECT c FROM t", 'select"C"from/**/T'),
            ("a != $12", "A<>?"),
            ('"count"(c)', "COUNT(c)"),
            ("'a''b' \"a b\"", "'a''b'\n\"A B\""),
        ]
        other = [
            ("'a'", "'A'"),
            ("'a b'", "'a  b'"),
            ('"order"', "order"),
            ('"date"', "date"),
            ("a.b", "a . c"),
            ("- -1", "+ 1"),
            ("1.5.5", "1.55"),
            ("'a' 'b'", "'a''b'"),
            ('"a""b"', '"a" b c'),
            ("5", "05"),
        ]
        for pairs, is_same in ((same, True), (other, False)):
            for texts in pairs:
                with self.subTest(texts=texts):
                    one, two = (read_statements(it.encode())[0].form for it in texts)
                    self.assertEqual(one == two, is_same)

    def test_faulty_workloads_are_told_with_their_line(self) -> None:
        for text, said in (
            ("SELECT 'a\n", "line 1: it goes on with what is no token"),
            ("a;\n/* x\n", "line 2: it goes on"),
            ("a;\nb # c", "line 2: it goes on"),
            ("a;\n-- weight 0\n", "line 2: a weight is 1 to 1000000"),
            ("a\n;-- weight 1000001\nb", "line 2: a weight"),
            (f"-- weight {'9' * 5000}\na", "line 1: a weight"),
            ("a;\n" * 1000 + "b", "line 1001: a workload has at most 1000 statements"),
            (" " * 16777217, "it has more than 16777216 bytes"),
        ):
            with self.subTest(text=text[:40]):
                with self.assertRaisesRegex(NoWorkload, f"^{said}"):
                    read_statements(text.encode())
        self.assertEqual(len(read_statements(b"a;\n" * 1000 + b"; -- b")), 1000)
        self.assertEqual(read_statements(b""), [])

    def test_lines_of_edits(self) -> None:
        good = [
            Edit("add", 0, 1000000, b"SELECT \r'\x00\xff' "),
            Edit("add", 0, 1, b" "),
            Edit("remove", 1000),
            Edit("weigh", 7, 1000000),
            Edit("advise"),
        ]
        for edit in good:
            self.assertEqual(read_edit(edit.line()), edit)
        bad = (
            "|add 5 |add 5|add 0 S|add 01 S|add 1000001 S|add  5 S|ADD 5 S|remove 0|remove 1001|remove 1 |remove +1|remove|"
            "weigh 1|weigh 1 0|weigh 0 1|weigh 1  1|weigh 1 1000001|advise | advise|advise\r|Advise|# a|reweigh 1 1"
        )
        for line in bad.split("|"):
            with self.subTest(line=line):
                self.assertIsNone(read_edit(line.encode()))
                [(number, _, why)] = edits_in(line.encode() + b"\n")
                self.assertEqual(number, 1)
                self.assertIsInstance(why, str)

    def test_the_limits_of_edits(self) -> None:
        for text, line, said in (
            ("remove 7\n" * 1001, 1001, "at most 1000 lines"),
            ("advise\n" * 17, 17, "at most 16 lines ask for advice"),
            ("advise\nadvise", 2, "ends with a line feed"),
            ("add 1 a; b\n", 1, "here are 2"),
            ("add 1 -- a\n", 1, "here are 0"),
        ):
            faulty = [(number, why) for number, _, why in edits_in(text.encode()) if isinstance(why, str)]
            self.assertEqual([it[0] for it in faulty], [line])
            self.assertIn(said, faulty[0][1])
        for text in ("", "advise\n" * 16 + "weigh 1 1\n" * 984, "add 1 'a\n", "add 1 a;\n"):
            self.assertFalse([why for _, _, why in edits_in(text.encode()) if isinstance(why, str)])


@unittest.skipIf(NO_PARSER, NO_PARSER)
class Fewest(unittest.TestCase):
    def test_edits_lead_from_any_workload_to_any_other(self) -> None:
        draw = random.Random(2)
        for turn in range(400):
            old = drawn(draw, draw.randrange(14))
            new = [*draw.sample(old, draw.randrange(len(old) + 1)), *drawn(draw, draw.randrange(6))]
            draw.shuffle(new)
            with self.subTest(turn=turn):
                change = between(*(read_statements(written(it, draw)) for it in (old, new)))
                lines = [it.line() for it in change.edits()]
                self.assertEqual(Counter(applied(b"".join(it + b"\n" for it in lines), old)), Counter(new))
                self.assertEqual(len(lines), fewest(old, new))
                verbs = [it.split(b" ")[0] for it in lines]
                self.assertEqual(verbs, sorted(verbs, key=[b"remove", b"weigh", b"add"].index))

    def test_no_fewer_edits_do(self) -> None:
        kinds = [(form, weight) for form in "ab" for weight in (1, 2)]
        states = [it for count in range(4) for it in combinations_with_replacement(kinds, count)]
        for start in states:
            steps, edge = {start: 0}, [start]
            while edge:
                now = edge.pop(0)
                removed = [now[:at] + now[at + 1 :] for at in range(len(now))]
                others = [(form, 3 - weight) for form, weight in now]
                weighed = [tuple(sorted((*rest, it))) for rest, it in zip(removed, others)]
                added = [tuple(sorted((*now, it))) for it in kinds] if len(now) < 4 else []
                for it in [*removed, *weighed, *added]:
                    if it not in steps:
                        steps[it] = steps[now] + 1
                        edge.append(it)
            for end in states:
                old, new = ([Statement(weight, b"", 1, form.encode()) for form, weight in it] for it in (start, end))
                self.assertEqual(len(between(old, new).edits()), steps[end], (start, end))

    def test_a_thousand_of_one_form(self) -> None:
        draw = random.Random(3)
        old, new = ([(FORMS[0].format(1), draw.randrange(1, 900)) for _ in range(1000)] for _ in range(2))
        change = between(*(read_statements(written(it, draw)) for it in (old, new)))
        text = b"".join(it.line() + b"\n" for it in change.edits())
        self.assertEqual(Counter(applied(text, old)), Counter(new))
        self.assertEqual(text.count(b"\n"), fewest(old, new))


@unittest.skipIf(NO_PARSER, NO_PARSER)
class Command(InFolder):
    def call(
        self, old: str, new: str, *words: str, given: str | None = None, status: int = 0
    ) -> subprocess.CompletedProcess[bytes]:
        for name, text in (("old.sql", old), ("new.sql", new)):
            (self.folder / name).write_bytes(text.encode("latin-1"))
        listed = words if given is not None else ("old.sql", "new.sql", *words)
        ran = subprocess.run(
            [str(TOOL), "edits", *listed],
            cwd=self.folder,
            input=(given or "").encode(),
            capture_output=True,
            check=False,
            timeout=LONG,
        )
        self.assertNotIn(b"Traceback", ran.stderr)
        self.assertEqual(ran.returncode, status, ran.stderr)
        return ran

    def test_a_night(self) -> None:
        old = "-- weight 10\nSELECT c FROM t ORDER BY c;\n-- weight 11\nSELECT d, e FROM v ORDER BY d, e;\n"
        new = '-- weight 12\nselect D,/* x; */e\nFROM "v"\nORDER BY d,e;\nDELETE\nFROM t -- all\nWHERE c = 5;\n'
        ran = self.call(old, new, "--advise")
        self.assertEqual(ran.stdout, b"remove 1\nweigh 1 12\nadd 1 DELETE FROM t WHERE c = 5\nadvise\n")
        self.assertEqual(ran.stderr, b"cophy-pg: 4 lines: 1 removed, 1 weighed, 1 added, 0 as before\n")
        self.assertEqual(self.call(old, new, "-o", "edits").stdout, b"")
        self.assertEqual((self.folder / "edits").read_bytes(), ran.stdout.removesuffix(b"advise\n"))
        self.assertEqual((self.folder / "edits").stat().st_mode & 0o777, 0o600)
        self.assertEqual(self.call(old, old).stdout, b"")
        self.assertEqual(self.call(old, "", "--advise").stdout, b"remove 2\nremove 1\nadvise\n")
        self.assertEqual(self.call(old, new, "-", "new.sql", "--advise", given=old).stdout, ran.stdout)

    def test_where_no_edits_lead_advice_starts_afresh(self) -> None:
        def many(count: int, weight: int = 1, first: int = 0) -> str:
            return "".join(f"-- weight {weight}\nSELECT c FROM t WHERE c = {first + it};\n" for it in range(count))

        kept = "the old ones"
        for old, new, words, said in (
            (
                many(1000),
                many(501, first=1000) + many(499),
                (),
                b"they would be 1,002 lines, and there are at most 1,000",
            ),
            (many(1000), many(1000, 2), ("--advise",), b"they would be 1,001 lines"),
            ("", f"SELECT '{'x' * 16777201}'", (), b"they would be 16,777,217 bytes"),
            ("", "SELECT\n c FROM t\nWHERE n = 'a\n;b'", (), b"in the statement of line 1 a text holds a line feed"),
        ):
            with self.subTest(said=said):
                (self.folder / "edits").write_text(kept)
                ran = self.call(old, new, *words, "-o", "edits", status=AFRESH)
                self.assertIn(b"no edits lead to new.sql: " + said, ran.stderr)
                self.assertIn(b"start afresh: cophy advise", ran.stderr)
                self.assertEqual((self.folder / "edits").read_text(), kept)
        for old, new, words in (
            (many(1000), many(500, first=1000) + many(500), ()),
            (many(1000), many(1000, 2), ()),
            (many(1000), many(999, 2) + many(1, first=999), ("--advise",)),
            ("SELECT 'a\nb'", "-- weight 5\nselect\n'a\nb'", ()),
        ):
            text = self.call(old, new, *words).stdout
            self.assertLessEqual(text.count(b"\n"), 1000)
            if "'a" not in old:
                model = (
                    [(plain(it.text.decode()), it.weight) for it in read_statements(side.encode())]
                    for side in (old, new)
                )
                one, other = model
                self.assertEqual(Counter(applied(text, one)), Counter(other))

    def test_faulty_files_are_told(self) -> None:
        for old, new, said in (
            ("SELECT 'a", "", b"old.sql: line 1: it goes on with what is no token"),
            ("", "\n-- weight 0\nSELECT 1", b"new.sql: line 2: a weight is 1 to 1000000"),
            ("", "SELECT 1;" * 1001, b"new.sql: line 1: a workload has at most 1000 statements"),
        ):
            ran = self.call(old, new, "-o", "edits", status=1)
            self.assertIn(said, ran.stderr)
            self.assertFalse((self.folder / "edits").exists())
        self.assertIn(b"isn't there", self.call("", "", "nowhere", "new.sql", given="", status=1).stderr)
        self.assertIn(b"the same file", self.call("a", "b", "-o", "old.sql", status=1).stderr)
        self.assertEqual((self.folder / "old.sql").read_text(), "a")
        (self.folder / "link").symlink_to("old.sql")
        self.assertIn(b"symbolic link", self.call("a", "b", "-o", "link", status=1).stderr)

    def test_nothing_breaks_out_of_its_line(self) -> None:
        """Comments, names and texts that look like edits, or like the end of what they stand in."""
        hostile = (
            "SELECT c FROM t -- x\radvise\n",
            "SELECT c FROM t /* \nadvise\nremove 1\n*/",
            "SELECT c FROM t WHERE n = 'x\radvise' /*'*/",
            "SELECT c FROM t WHERE n = '\x85advise\x0b\x0cremove 1\x1c\x00'",
            'SELECT "c\radvise" FROM "t\x0badd 1 x"',
            "SELECT c FROM t WHERE n = '--' -- '\n AND c = '/*' /* ' */",
            "SELECT 5-- -- weight 7\n-5 FROM t WHERE c = -/**/-1",
            "SELECT c FROM t\u00a0".replace("\u00a0", "\r\n\t\x20"),
        )
        for it in hostile:
            with self.subTest(text=it):
                text = self.call("", it).stdout
                self.assertEqual(text.count(b"\n"), 1)
                edit = read_edit(text[:-1])
                assert edit is not None
                [statement] = read_statements(edit.sql)
                self.assertEqual(
                    (statement.form, statement.text), (read_statements(it.encode("latin-1"))[0].form, edit.sql)
                )
                self.assertNotIn(b"weight", edit.sql)
        self.call("", 'SELECT "c\nadvise" FROM t', status=1)

    def test_a_terminal_is_sent_nothing_that_it_might_obey(self) -> None:
        for literal, is_shown in (
            ("Lund\t\u00e5".encode(), True),
            (b"\x1b[2J", False),
            (b"\x9b2J", False),
            (b"a\rb", False),
        ):
            with self.subTest(literal=literal):
                (self.folder / "old.sql").write_text("")
                (self.folder / "new.sql").write_bytes(b"SELECT c FROM t WHERE n = '" + literal + b"'")
                ours, its = pty.openpty()
                ran = subprocess.run(
                    [str(TOOL), "edits", "old.sql", "new.sql"],
                    cwd=self.folder,
                    stdin=subprocess.DEVNULL,
                    stdout=its,
                    stderr=subprocess.PIPE,
                    check=False,
                    timeout=LONG,
                )
                os.close(its)
                shown = b""
                while not shown.endswith(b"'\r\n"):
                    try:
                        shown += os.read(ours, 4096)
                    except OSError:
                        break
                os.close(ours)
                self.assertEqual((ran.returncode, literal in shown), (0, True) if is_shown else (1, False))
                self.assertEqual(b"name a file" in ran.stderr, not is_shown)
        # A message shows a name on one line of ASCII.
        name = "new\x1b[2J\n.sql"
        (self.folder / name).write_text("SELECT 'a\n'")
        said = self.call("", "", "old.sql", name, given="", status=AFRESH).stderr
        self.assertIn(rb"'new\x1b[2J\n.sql'", said)


if __name__ == "__main__":
    unittest.main()
