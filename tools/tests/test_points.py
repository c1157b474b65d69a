"""The points of a fleet's database: by one sweep or by one advice after the other, over folded statements or all."""
from __future__ import annotations

import json
import os
import sqlite3
import subprocess
import unittest
import zlib
from dataclasses import replace
from typing import Any

from cophy_fleet.calls import Failed, NoCommand, Refused, Settings, said
from cophy_fleet.outcomes import Point
from cophy_fleet.points import fault_of, fold, sweep
from cophy_text.answers import read_candidates
from fixtures import STAND_IN, InFolder
from patience import LONG
from test_fleet import MISSING as MISSING_FLEET
from test_fleet import TOOL

TABLE = """[[table]]
name = "{name}"
rows = 1000
pages = {pages}
column = [
    {{ name = "a", kind = "int", width = 4 }},
    {{ name = "b", kind = "int", width = 4 }},
]
"""
CATALOGUE = "version = 1\n" + "".join(TABLE.format(name=f"t{it}", pages=40 * it) for it in (1, 2, 3))
STATEMENTS = [f"select a from t{it % 3 + 1}\nwhere {'ab'[it % 2]} = {it}" for it in range(12)]
WORKLOAD = "".join(f"-- weight {it}\n{text};\n" for it, text in enumerate(STATEMENTS, 1))
OLDER = """#!/bin/sh
# A program that doesn't have some commands, and counts its calls.
echo "$*" >>{here}/calls
case " {without} " in *" $1 "*) echo "usage: unknown command at word 1" && exit 2 ;; esac
exec {program} "$@"
"""


class Points(InFolder):
    def setUp(self) -> None:
        super().setUp()
        (self.folder / "catalogue.toml").write_text(CATALOGUE)
        (self.folder / "workload.sql").write_text(WORKLOAD)

    def program(self, without: str = "") -> str:
        text = OLDER.format(here=self.folder, without=without, program=STAND_IN)
        (self.folder / "calls").write_text("")
        return self.lay_program(text)

    def settings(self, without: str = "", steps: int = 4) -> Settings:
        return Settings(self.program(without), "", steps, 20000, 600)

    def commands(self) -> list[str]:
        return [it.split()[0] for it in (self.folder / "calls").read_text().splitlines()]

    def swept(self, settings: Settings) -> tuple[Point, ...]:
        found = sweep(str(self.folder), settings)
        self.assertEqual(fault_of(str(self.folder), found, settings), "")
        return found

    def test_a_sweep_has_the_points_of_one_advice_after_the_other(self) -> None:
        at_once = self.swept(self.settings())
        self.assertEqual(self.commands()[:3], ["advise", "candidates", "sweep"])
        one_by_one = self.swept(self.settings("sweep"))
        self.assertEqual(self.commands()[:7], ["advise", "candidates", "sweep", *4 * ["advise"]])
        self.assertEqual(at_once, one_by_one)
        self.assertEqual([it.budget for it in at_once], [0, 33, 66, 99, 10**12])
        self.assertEqual([len(it.numbers.picks) for it in at_once], [0, 2, 3, 4, 6])

    def test_clustered_picks_are_those_of_one_advice_after_the_other(self) -> None:
        text = CATALOGUE.replace("version = 1", "version = 2").replace(
            "rows = 1000\n", "rows = 1000\nmay_cluster = true\n", 1
        )
        (self.folder / "catalogue.toml").write_text(text)
        found = self.swept(self.settings())
        listed = [[it.shown() for it in point.numbers.picks] for point in found]
        self.assertIn("t1(a) clustered", listed[-1])
        self.assertEqual(
            listed, [[it.shown() for it in point.numbers.picks] for point in self.swept(self.settings(without="sweep"))]
        )

    def test_more_points_than_a_sweep_has_take_several(self) -> None:
        found = self.swept(self.settings(steps=40))
        self.assertEqual(self.commands()[:5], ["advise", "candidates", "sweep", "sweep", "sweep"])
        self.assertEqual([it.budget for it in found[:-1]], [4 * it for it in range(33)])

    def test_where_nothing_helps_there_are_two_points(self) -> None:
        (self.folder / "workload.sql").write_text("-- weight 1\nselect a from t1;\n")
        for without in ("", "sweep"):
            self.assertEqual([it.budget for it in self.swept(self.settings(without))], [0, 10**12])

    def test_a_sweep_that_ends_early_or_misses_a_certificate_is_tried_again(self) -> None:
        for answer in ("echo point", "echo finished", "{program} sweep $2 $3 $4 $5 $6 --nodes 1 --cert other-"):
            text = f'#!/bin/sh\n[ "$1" = sweep ] || exec {STAND_IN} "$@"\n' + answer.format(program=STAND_IN) + "\n"
            settings = replace(self.settings(), program=self.lay_program(text, "liar"))
            with self.assertRaises(Failed):
                sweep(str(self.folder), settings)

    def test_alike_statements_become_one(self) -> None:
        settings = self.settings()
        before = said(str(self.folder), settings, "cost").splitlines()
        fold(str(self.folder), settings)
        after = said(str(self.folder), settings, "cost").splitlines()
        self.assertEqual((len(before), len(after)), (14, 8))
        self.assertEqual(before[-1], after[-1])
        self.assertEqual(len(read_candidates(said(str(self.folder), settings, "candidates"))), 6)

    def test_the_workload_stays_where_nothing_folds_it(self) -> None:
        too_long = '#!/bin/sh\n[ "$1" = fold ] || exit 9\necho "refused: folded workload too long 1 2"\nexit 5\n'
        settings = self.settings("fold")
        for it in (
            settings,
            replace(settings, fold=False),
            replace(settings, program=self.lay_program(too_long, "long")),
        ):
            fold(str(self.folder), it)
            self.assertEqual((self.folder / "workload.sql").read_text(), WORKLOAD)
        refusing = '#!/bin/sh\necho "refused: syntax at 8"\nexit 5\n'
        with self.assertRaises(Refused):
            fold(str(self.folder), replace(settings, program=self.lay_program(refusing, "refusing")))
        with self.assertRaises(NoCommand):
            said(str(self.folder), settings, "fold", "folded.sql")


@unittest.skipIf(MISSING_FLEET, MISSING_FLEET)
class Order(InFolder):
    def test_what_is_new_and_what_took_long_is_begun_first(self) -> None:
        from cophy_fleet.run import Run
        from cophy_fleet.settings import Database, Fleet
        from cophy_fleet.store import Answer, opened

        fleet = [Database(it, service="x") for it in ("refused", "short", "long", "failed", "new")]
        for name, statements in (("small", 10), ("large", 100)):
            (self.folder / name).write_text("SELECT a FROM t;\n" * statements)
            fleet.append(Database(name, catalogue="none", workload=str(self.folder / name)))
        with opened(str(self.folder / "fleet.sqlite"), is_new=True) as store:
            store.keep(Answer("refused", "digest", "refused: syntax at 8"))
            for name, seconds in (("short", 1.0), ("long", 9.0)):
                store.keep(Answer(name, "digest", "", "one", "two", seconds, seconds))
            store.fail("failed", "nothing listens there")
            settings = Settings("", "", 8, 20000, 600)
            nobody: Any = None
            run = Run(nobody, Fleet(tuple(fleet)), settings, store, print)
            found = [it.name for it in run.longest_first()]
        self.assertEqual(found, ["large", "small", "failed", "new", "long", "short", "refused"])


@unittest.skipIf(MISSING_FLEET, MISSING_FLEET)
class Kept(InFolder):
    """The whole way by a stand-in for the program: what certificates are of is kept with them."""

    def run_fleet(self, *words: str, settings: str = "") -> list[dict[str, object]]:
        (self.folder / "a.toml").write_text(CATALOGUE)
        (self.folder / "a.sql").write_text(WORKLOAD)
        entry = '[[database]]\nname = "a"\ncatalogue = "a.toml"\nworkload = "a.sql"\n'
        (self.folder / "fleet.toml").write_text(f"version = 1\nsteps = 2\n{settings}{entry}")
        kept = {it: value for it, value in os.environ.items() if not it.startswith(("PG", "DASK_"))}
        ran = subprocess.run(
            [str(TOOL), words[0], *words[1:-1], str(self.folder / "fleet.toml"), *words[-1:]],
            env=kept | {"COPHY_PROGRAM": str(STAND_IN), "DASK_CONFIG": str(self.folder / "none")},
            stdin=subprocess.DEVNULL,
            capture_output=True,
            text=True,
            check=False,
            timeout=LONG,
        )
        self.assertEqual(ran.returncode, 0, ran.stderr)
        return [json.loads(it) for it in ran.stdout.splitlines() if it.startswith("{")]

    def rows(self) -> list[tuple[bytes, bytes]]:
        with sqlite3.connect(self.folder / "fleet.sqlite") as store:
            return store.execute("SELECT catalogue, workload FROM input").fetchall()

    def test_inputs_are_kept_folded_and_written_with_the_advice(self) -> None:
        self.assertTrue(self.run_fleet("run", "--workers=2")[0]["new"])
        ((catalogue, workload),) = self.rows()
        self.assertEqual(zlib.decompress(catalogue).decode(), CATALOGUE)
        self.assertEqual(zlib.decompress(workload).count(b"-- weight"), 6)
        self.run_fleet("share", "60", f"--advice={self.folder}/advice")
        where = self.folder / "advice"
        self.assertEqual(sorted(it.name for it in where.iterdir()), ["a.cert", "a.sql", "a.toml", "a.txt"])
        files = [str(where / f"a{it}") for it in (".toml", ".sql", ".cert")]
        checked = subprocess.run([str(STAND_IN), "check", *files], stdout=subprocess.PIPE, text=True, check=True).stdout
        cost = next(it for it in (where / "a.txt").read_text().splitlines() if it.startswith("cost "))
        self.assertIn(f"proved {cost} ", checked)
        self.assertFalse(self.run_fleet("run", "--workers=1")[0]["new"])
        # With other settings it is another answer, and these keep no inputs.
        self.assertTrue(self.run_fleet("run", "--workers=1", settings="fold = false\nkeep_inputs = false\n")[0]["new"])
        self.assertEqual(self.rows(), [])


if __name__ == "__main__":
    unittest.main()
