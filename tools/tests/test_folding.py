"""Statements beyond the limits of a workload: which stand for others, and that their weight comes in."""
from __future__ import annotations

import random
import re
import subprocess
import unittest
from pathlib import Path

from fixtures import NO_PARSER, STAND_IN, TOOL, InFolder
from patience import LONG

if not NO_PARSER:
    from cophy_pg.folding import BITS, Batches, Folding
    from cophy_pg.inputs import Input
    from cophy_pg.outcomes import texts_in
    from cophy_pg.report import summary
    from cophy_pg.rewrite import Rewriter
    from cophy_pg.schema import Column, Schema, Table
    from cophy_pg.workload import form_of, forms_in, made
    from cophy_text.answers import NoAnswer

    class Counted(Batches):
        """Statements `SELECT cX FROM tY WHERE cX = N`, of which those of one class are alike, whatever their forms are."""

        def __init__(self, classes: dict[str, int]) -> None:
            self.classes, self.calls = classes, 0

        def fold(self, listed: list[tuple[str, int]]) -> dict[str, int]:
            self.calls += 1
            firsts, found = dict[int, str](), dict[str, int]()
            for it, weight in listed:
                first = firsts.setdefault(self.classes[it], it)
                found[first] = found.get(first, 0) + weight
            assert len(listed) <= 1000 and max(found.values()) <= 10**6
            return found


CATALOGUE = 'version = 2\n[[table]]\nname = "t"\nrows = 100000\npages = 900\n' + "".join(
    f'[[table.column]]\nname = "c{it}"\nkind = "int"\nwidth = 4\n' for it in range(5)
)


@unittest.skipIf(NO_PARSER, NO_PARSER)
class Alike(unittest.TestCase):
    def found(self, classes: dict[str, int]) -> tuple[dict[str, str], int]:
        batches = Counted(classes)
        return batches.of(dict.fromkeys(classes, 1), lambda _: None), batches.calls

    def test_each_statement_is_found_with_its_like(self) -> None:
        chance = random.Random(5)
        for forms, classes_of, strays in (
            (1, 1, 0.0),
            (4, 1, 0.0),
            (40, 1, 0.01),
            (5, 3, 0.1),
            (3, 20, 0.5),
            (60, 2, 1.0),
        ):
            with self.subTest(forms=forms, classes=classes_of, strays=strays):
                classes: dict[str, int] = {}
                for number in range(1200):
                    at = chance.randrange(forms)
                    own = at * classes_of + chance.randrange(classes_of)
                    # Some are like those of another form.
                    other = chance.randrange(forms * classes_of)
                    classes[f"SELECT c{at}\nFROM t WHERE c{at} = {number}"] = other if chance.random() < strays else own
                found, calls = self.found(classes)
                first: dict[int, str] = {}
                for it in classes:
                    self.assertEqual(found[it], first.setdefault(classes[it], it))
                if classes_of == 1 and not strays:
                    self.assertEqual(calls, 3)

    def test_firsts_beyond_those_that_are_compared_stand_for_themselves(self) -> None:
        classes = {f"SELECT c{at}\nFROM t WHERE d = {at}": at % 1500 for at in range(3000)}
        found, _ = self.found(classes)
        firsts = set(found.values())
        self.assertTrue(all(classes[it] == classes[first] for it, first in found.items()))
        self.assertEqual({found[it] for it in list(classes)[1500:1900]}, set(list(classes)[:400]))
        self.assertLess(len(firsts), 2501)

    def test_an_answer_that_fits_no_statement_is_none(self) -> None:
        class Other(Counted):
            def fold(self, listed: list[tuple[str, int]]) -> dict[str, int]:
                found = super().fold(listed)
                # A weight is lost.
                return found if self.calls > 1 else {it: max(1, weight - 1) for it, weight in found.items()}

        classes = {f"SELECT c\nFROM t WHERE c = {at}": 0 for at in range(50)}
        self.assertEqual(
            set(Other(classes).of(dict.fromkeys(classes, 1), lambda _: None).values()), {next(iter(classes))}
        )
        classes |= {f"SELECT d\nFROM t WHERE d = {at}": at for at in range(2)}

        class Wrong(Counted):
            def fold(self, listed: list[tuple[str, int]]) -> dict[str, int]:
                return {it: 1 for it, _ in listed[:1]}

        with self.assertRaises(NoAnswer):
            Wrong(classes).of(dict.fromkeys(classes, 1), lambda _: None)

    def test_bits_of_a_weight_stay_within_it(self) -> None:
        self.assertLessEqual(1 + sum(2**bit for bit in range(1, BITS + 1)), 10**6)


@unittest.skipIf(NO_PARSER, NO_PARSER)
class Made(unittest.TestCase):
    """A workload of more statements than it may have, over the stand-in for the program."""

    def setUp(self) -> None:
        columns = {f"c{it}": Column(f"c{it}", f"c{it}", "int", 4) for it in range(5)}
        self.schema = Schema([Table("public", "t", "t", 100000, 900, columns)])
        self.given = [Input(f"select c{at % 5} from t where c{at % 5} = {at}", at % 7 + 1) for at in range(2500)]

    def folding(self, program: str) -> Folding:
        return Folding(lambda: CATALOGUE.encode(), program, lambda _: None)

    def test_the_whole_weight_comes_in_and_inputs_are_found_again(self) -> None:
        workload = made(self.given, Rewriter(self.schema), lambda _: None, self.folding(str(STAND_IN)))
        self.assertEqual(len(workload.statements), 5)
        self.assertEqual(sum(weight for _, weight in workload.statements), sum(it.calls for it in self.given))
        self.assertEqual(workload.remarks, ["2,500 forms were folded into 5, of the same costs under all indexes"])
        self.assertEqual(summary(workload)[-1], workload.remarks[0])
        text = workload.text()
        forms, texts = forms_in(text), texts_in(text)
        for it, record in zip(self.given, workload.records):
            self.assertEqual(dict.fromkeys(record.numbers, 1.0), forms[form_of(it.text)])
            self.assertEqual(len(record.numbers), 1)
            self.assertIn(re.findall(r"c\d", it.text)[0], texts[record.numbers[0]])

    def test_within_the_limits_nothing_is_folded(self) -> None:
        workload = made(self.given[:900], Rewriter(self.schema), lambda _: None, self.folding("/nowhere/cophy"))
        self.assertEqual((len(workload.statements), workload.remarks), (900, []))

    def test_an_older_program_leaves_out_what_is_beyond(self) -> None:
        program = self.folding("/bin/false")
        workload = made(self.given, Rewriter(self.schema), lambda _: None, program)
        self.assertEqual(len(workload.statements), 1000)
        self.assertIn("aren't folded", workload.remarks[0])


@unittest.skipIf(NO_PARSER, NO_PARSER)
class Command(InFolder):
    def rewritten(self, program: str) -> tuple[str, str]:
        (self.folder / "c.toml").write_text(CATALOGUE)
        lines = (f"-- weight {at % 3 + 1}\nselect c1 from t where c2 = {at};\n" for at in range(1500))
        (self.folder / "in.sql").write_text("".join(lines))
        words = [str(TOOL), "rewrite", *self.in_folder("c.toml", "in.sql", "out.sql"), "--program", program]
        ran = subprocess.run(words, capture_output=True, text=True, check=False, timeout=LONG)
        self.assertEqual(ran.returncode, 0, ran.stderr)
        return (self.folder / "out.sql").read_text(), ran.stderr

    def test_a_file_of_many_statements_comes_in_whole(self) -> None:
        text, said = self.rewritten(str(STAND_IN))
        self.assertEqual(re.findall(r"^-- weight (\d+)$", text, re.MULTILINE), ["3000"])
        self.assertIn("1,500 forms were folded into 1", said)

    def test_a_program_without_the_command_is_told(self) -> None:
        program = self.lay_program('#!/bin/sh\necho "usage: unknown command at word 1"\nexit 2\n')
        text, said = self.rewritten(program)
        self.assertEqual(len(re.findall(r"^-- weight", text, re.MULTILINE)), 1000)
        self.assertIn("the program is older than fold", said)
        self.assertTrue(Path(program).exists())


if __name__ == "__main__":
    unittest.main()
