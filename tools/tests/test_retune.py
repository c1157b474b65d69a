"""`retune` of the program itself, on edits that `cophy-pg edits` writes and on faulty ones; its text, taken apart."""
from __future__ import annotations

import os
import random
import subprocess
import unittest
from unittest import mock

from cophy_text.answers import NoAnswer, read_advice, read_retuned
from edits_model import FORMS, drawn, written
from fixtures import COPHY, NO_PARSER, ROOT, TOOL, InFolder
from patience import LONG

CATALOGUE = str(ROOT / "examples" / "shop.toml")


def called(*words: str) -> tuple[int, str]:
    """The status and the text of the program."""
    ran = subprocess.run([str(COPHY), *words], stdout=subprocess.PIPE, text=True, check=False, timeout=LONG)
    return ran.returncode, ran.stdout


class Answers(unittest.TestCase):
    ADVICE = "budget 4\ncandidates 2 left over 0\npick {0}\nsize 3\ncost {1}\nbound {1}\ngap 0\nnodes 1 of 20000\n{2}\n"

    def test_the_text_of_retune_is_a_list_of_advice(self) -> None:
        texts = [
            self.ADVICE.format(*it) for it in (("2 v(d, e) 4 pages", 9, "finished"), ("1 t(c) 3 pages", 7, "stopped"))
        ]
        text = "".join(f"advice {at}\n{it}" for at, it in enumerate(texts, 1))
        self.assertEqual(read_retuned(text), [*map(read_advice, texts)])
        self.assertEqual([it.is_finished for it in read_retuned(text)], [True, False])
        self.assertEqual(read_retuned(""), [])
        for faulty in (
            texts[0],
            text.replace("advice 2", "advice 3"),
            text.replace("advice 1\n", ""),
            text.replace("stopped\n", ""),
            text.replace("finished\n", ""),
            "refused: edit line 1: bad line\n",
            "advice 1\n",
        ):
            with self.subTest(text=faulty):
                with self.assertRaises(NoAnswer):
                    read_retuned(faulty)

    @unittest.skipIf(NO_PARSER, NO_PARSER)
    def test_ddl_takes_the_last_advice_and_why_none(self) -> None:
        from cophy_pg.ddl import advice_of

        with mock.patch("cophy_text.files.read") as read:
            text = "".join(
                f"advice {it}\n{self.ADVICE.format(f'{it} t(c) 3 pages', it, 'finished')}" for it in (1, 2, 3)
            )
            read.return_value = text.encode()
            self.assertEqual(advice_of("advice", may_be_retuned=True).cost, 3)
            with self.assertRaisesRegex(NoAnswer, "numbers the candidates of the edited statements"):
                advice_of("advice")


@unittest.skipUnless(os.access(COPHY, os.X_OK), "the program isn't built")
class OfTheProgram(InFolder):
    def lay(self, **texts: bytes) -> None:
        for name, text in texts.items():
            (self.folder / name).write_bytes(text)

    def test_the_example_of_the_formats(self) -> None:
        words = (str(ROOT / "examples" / it) for it in ("two.toml", "two.sql", "two.edits"))
        status, text = called("retune", *words, "4")
        found = read_retuned(text)
        self.assertEqual((status, [it.cost for it in found]), (0, [954000, 130000, 234000]))
        self.assertEqual([[pick.number for pick in it.picks] for it in found], [[2], [1], [2]])

    def test_one_gap_gives_the_status(self) -> None:
        catalogue, workload, edits = (str(ROOT / "examples" / f"two.{it}") for it in ("toml", "sql", "edits"))
        status, text = called("retune", catalogue, workload, edits, "4", "--nodes", "1")
        self.assertEqual((status, [it.is_finished for it in read_retuned(text)]), (1, [False, True, False]))
        self.lay(edits=b"remove 2\nadvise\n")
        status, text = called("retune", catalogue, workload, *self.in_folder("edits"), "4", "--nodes", "1")
        self.assertEqual((status, [it.is_finished for it in read_retuned(text)]), (0, [True]))

    @unittest.skipIf(NO_PARSER, NO_PARSER)
    def test_edits_lead_to_the_advice_on_the_later_workload(self) -> None:
        draw = random.Random(4)
        files = self.in_folder("old", "new", "edits")
        for turn in range(12):
            old, new = (drawn(draw, draw.randrange(1, 9)) for _ in range(2))
            new += draw.sample(old, draw.randrange(len(old) + 1))
            self.lay(old=written(old, draw), new=written(new, draw))
            subprocess.run(
                [str(TOOL), "edits", *files[:2], "--advise", "-o", files[2]], check=True, capture_output=True
            )
            budget = draw.choice(("0", "300", "3000"))
            status, text = called("retune", CATALOGUE, files[0], files[2], budget)
            afresh = called("advise", CATALOGUE, files[1], budget)
            with self.subTest(turn=turn, budget=budget):
                self.assertEqual((status, afresh[0]), (0, 0), text + afresh[1])
                [one], other = read_retuned(text), read_advice(afresh[1])
                self.assertEqual((one.cost, one.bound), (other.cost, other.bound))

    def test_statements_of_one_form_cost_the_same(self) -> None:
        draw = random.Random(5)
        forms = [it.format(at) for at, it in enumerate(FORMS)]
        for turn in range(5):
            twice = [(it, 1) for it in forms for _ in range(3)]
            self.lay(load=written(twice, draw))
            text = called("fold", CATALOGUE, *self.in_folder("load", "out"))[1]
            self.assertRegex(text, rf"\Astatements {len(twice)} folded {len(forms)} total ")

    def test_each_refusal_names_its_line(self) -> None:
        self.lay(load=b"SELECT name FROM customer;", edits=b"")
        for edits, told in (
            ("advise\nadvis\n", "2: bad line"),
            ("advise", "1: bad line"),
            ("add 1 SELECT 1; SELECT 2\n", "1: syntax at 9"),
            ("add 1 SELECT id FROM orders; SELECT id FROM line\n", "1: bad line"),
            ("add 1 -- x\n", "1: bad line"),
            ("add 1 SELECT id FROM ordrs\n", "1: no table at 16"),
            ("add 1 SELECT 'a\n", "1: open text at 8"),
            ("remove 1\nremove 1\n", "2: no statement 1"),
            ("weigh 2 5\n", "1: no statement 2"),
            ("add 1 SELECT id FROM orders\n" * 1000, "1000: more than 1000 statements"),
        ):
            with self.subTest(edits=edits[:40]):
                self.lay(edits=edits.encode())
                found = called("retune", CATALOGUE, *self.in_folder("load", "edits"), "9")
                self.assertEqual(found, (5, f"refused: edit line {told}\n"))
        self.lay(edits=b"weigh 1 5\n")
        self.assertEqual(called("retune", CATALOGUE, *self.in_folder("load", "edits"), "9"), (0, ""))


if __name__ == "__main__":
    unittest.main()
