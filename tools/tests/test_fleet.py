"""`cophy-fleet run` with the program itself, on clusters of Dask's of two processes.

The program is called through a script that writes down each call with the process that makes it, and that kills this process
where a test asks for that.
"""
from __future__ import annotations

import importlib.util
import json
import logging
import os
import sqlite3
import subprocess
import tempfile
import unittest
import zlib
from pathlib import Path
from typing import Any

from fixtures import COPHY, ROOT
from patience import LONG
from private_server import PrivateServer
from private_server import missing as missing_server

PACKAGES = ("dask", "distributed", "rich")
MISSING = next((f"python3-{it} isn't installed" for it in PACKAGES if importlib.util.find_spec(it) is None), "")
if not MISSING:
    from distributed import LocalCluster

TOOL = ROOT / "tools" / "fleet" / "cophy-fleet"
MANY, UNREACHABLE = 37, 2
DIED = "its workers died while they were at it"
NO_DEATH = {"DASK_DISTRIBUTED__SCHEDULER__ALLOWED_FAILURES": "0"}
"""A setting by which a task is given up at the first death of its worker."""
PROGRAM = """#!/bin/sh
# Kills the process that calls it, once at each of the calls with the numbers in the file 'deaths', and each time where the
# catalogue is that of 'poison', or that of 'late' and a certificate is checked; some others by their names do something else.
here={here}
echo "$1 $PPID $(cksum <catalogue.toml)" >>"$here/calls"
number=$(wc -l <"$here/calls")
for it in $(cat "$here/deaths"); do
    if [ "$number" -ge "$it" ] && mkdir "$here/death$it" 2>/dev/null; then
        kill -9 "$PPID"
        exit 1
    fi
done
for it in poison late stops recovers lies; do
    cmp -s catalogue.toml "$here/$it.toml" || continue
    case $it:$1 in
        poison:* | late:check) kill -9 "$PPID" && exit 1 ;;
        stops:advise) exit 7 ;;
        recovers:*) [ -e "$here/first" ] && [ -e "$here/second" ] || { mkdir "$here/first" || mkdir "$here/second"; exit 7; } ;;
        lies:check) echo "not proved: no candidate 7" && exit 6 ;;
    esac
done
exec {program} "$@"
"""
EXPORTER = """#!/bin/sh
# In the place of cophy-pg: it copies the files of the service, and notes when it begins and ends.
echo begin >>{here}/exports
sleep 0.2
cp "{here}/$PGSERVICE.toml" "$2" && cp "{here}/$PGSERVICE.sql" "$3"
echo end >>{here}/exports
"""


def generator() -> Any:
    """The texts of the generator."""
    spec = importlib.util.spec_from_file_location("generator", ROOT / "bench" / "generator.py")
    assert spec is not None and spec.loader is not None
    module = importlib.util.module_from_spec(spec)
    spec.loader.exec_module(module)
    return module


class OverFleet(unittest.TestCase):
    """Tests that have a folder with a fleet."""

    def setUp(self) -> None:
        folder = tempfile.TemporaryDirectory()
        self.addCleanup(folder.cleanup)
        self.here = Path(folder.name)
        (self.here / "deaths").write_text("")
        (self.here / "calls").write_text("")
        self.texts = generator().texts
        self.script("program", PROGRAM)
        self.script("exporter", EXPORTER)

    def script(self, name: str, text: str) -> None:
        (self.here / name).write_text(text.replace("{here}", str(self.here)).replace("{program}", str(COPHY)))
        (self.here / name).chmod(0o755)

    def lay(self, name: str, seed: int, statements: int = 8) -> str:
        """Lays a made database, and gives its entry in a fleet."""
        catalogue, workload = self.texts(seed, 3, statements)
        (self.here / f"{name}.toml").write_text(catalogue)
        (self.here / f"{name}.sql").write_text(workload)
        return f'[[database]]\nname = "{name}"\ncatalogue = "{name}.toml"\nworkload = "{name}.sql"\n'

    def lay_fleet(self, *entries: str) -> None:
        (self.here / "fleet.toml").write_text("version = 1\nsteps = 2\n" + "".join(entries))

    def run_fleet(self, *words: str, status: int = 0, **more: str) -> tuple[dict[str, Any], str]:
        """The lines of JSON by their databases, and what the standard error says."""
        kept = {it: value for it, value in os.environ.items() if not it.startswith(("PG", "DASK_"))}
        settings = {"DASK_CONFIG": str(self.here / "none"), "PGSERVICEFILE": str(self.here / "services")}
        ran = subprocess.run(
            [str(TOOL), "run", str(self.here / "fleet.toml"), "--program", str(self.here / "program"), *words],
            env={**kept, **settings, **more},
            stdin=subprocess.DEVNULL,
            capture_output=True,
            text=True,
            check=False,
            timeout=LONG,
        )
        self.assertEqual(ran.returncode, status, ran.stderr)
        lines = [json.loads(it) for it in ran.stdout.splitlines()]
        self.assertEqual(len({it["database"] for it in lines}), len(lines))
        return {it["database"]: it for it in lines}, ran.stderr

    def calls(self) -> list[list[str]]:
        """The calls of the program: command, process, and the catalogue by its sum."""
        return [it.split(" ", 2) for it in (self.here / "calls").read_text().splitlines()]


@unittest.skipIf(MISSING, MISSING)
@unittest.skipUnless(COPHY.exists(), "the program isn't built")
class Fleet(OverFleet):
    def proves(self, name: str) -> None:
        """Sees that the program itself accepts each certificate that is kept of a database, over the inputs kept with it."""
        with sqlite3.connect(self.here / "fleet.sqlite") as store:
            rows = store.execute(
                "SELECT budget, cost, bound, certificate FROM point WHERE database = ? ORDER BY budget", (name,)
            ).fetchall()
            inputs = store.execute("SELECT catalogue, workload FROM input WHERE database = ?", (name,)).fetchone()
        self.assertEqual((len(rows) >= 2, rows[0][0], rows[-1][0]), (True, 0, 10**12))
        for budget, cost, bound, certificate in rows:
            files = [self.here / it for it in ("kept.toml", "kept.sql", "certificate")]
            for file, content in zip(files, (*inputs, certificate)):
                file.write_bytes(zlib.decompress(content))
            ran = subprocess.run([str(COPHY), "check", *map(str, files)], capture_output=True, text=True, check=False)
            self.assertEqual(ran.stdout, f"proved cost {cost} bound {bound} budget {budget}\n")

    def test_forty_databases_of_which_three_have_no_answer_while_workers_die(self) -> None:
        names = [f"db{it}" for it in range(MANY)]
        entries = [self.lay(name, seed) for seed, name in enumerate(names)]
        refused = self.lay("refused", 99)
        (self.here / "refused.sql").write_text("SELECT FROM t1;\n")
        away = [f"away{it}" for it in range(UNREACHABLE)]
        (self.here / "services").write_text("".join(f"[{it}]\nhost={self.here}\n" for it in away))
        entries += [f'[[database]]\nname = "{it}"\nservice = "{it}"\n' for it in away]
        self.lay_fleet(*entries, refused)
        # One worker dies while it advises or checks early on, another one later.
        (self.here / "deaths").write_text("40 120")
        lines, said = self.run_fleet("--workers", "2", status=1)
        self.assertTrue((self.here / "death40").exists() and (self.here / "death120").exists())
        self.assertEqual(len(lines), MANY + UNREACHABLE + 1)
        self.assertEqual({it for it in lines if "fault" in lines[it]}, {*away, "refused"})
        self.assertEqual(lines["refused"]["fault"], "refused: syntax at 8")
        for name in (*away, "refused"):
            self.assertIn(f"cophy-fleet: {name}: {lines[name]['fault']}\n", said)
        for name in names:
            with self.subTest(name=name):
                self.assertTrue(lines[name]["new"] and lines[name]["another_worker"])
                self.proves(name)
        self.were_apart()
        before = self.calls()
        again, said = self.run_fleet("--workers", "1", status=1)
        self.assertEqual(self.calls(), before)
        self.assertIn(f"0 answered, {MANY} unchanged, 3 without an answer", said)
        self.assertEqual({it: again[it]["points"] for it in names}, {it: lines[it]["points"] for it in names})
        self.assertEqual(again["refused"]["fault"], "refused: syntax at 8")

    def were_apart(self) -> None:
        """Sees in the calls that each catalogue was last checked by another process than last advised."""
        last: dict[tuple[str, str], str] = {}
        for command, process, catalogue in self.calls():
            last[command, catalogue] = process
        checked = [it for command, it in last if command == "check"]
        self.assertEqual(len(checked), MANY)
        for it in checked:
            self.assertNotEqual(last["advise", it], last["check", it])

    def test_one_worker_alone_checks_its_own_work_and_does_again_what_has_changed(self) -> None:
        self.lay_fleet(self.lay("one", 1), self.lay("two", 2))
        lines, said = self.run_fleet("--workers", "1")
        self.assertEqual([lines[it]["another_worker"] for it in ("one", "two")], [False, False])
        self.assertIn("2 were checked by the worker that advised, since there was no other", said)
        with open(self.here / "two.sql", "a") as file:
            file.write("SELECT a FROM t1 WHERE b = 5;\n")
        again, _ = self.run_fleet("--workers", "1")
        self.assertEqual([again[it]["new"] for it in ("one", "two")], [False, True])
        self.proves("two")

    def test_databases_whose_programs_stop_or_lie_are_named_and_the_others_are_answered(self) -> None:
        names = ("stops", "recovers", "lies", "poison", "good", "better")
        self.lay_fleet(*(self.lay(it, seed) for seed, it in enumerate(names)))
        lines, said = self.run_fleet("--workers", "2", status=1, **NO_DEATH)
        wanted = {
            "stops": "cophy advise stopped with status 7",
            "lies": "the certificate for 0 pages: not proved: no candidate 7",
            "poison": DIED,
        }
        self.assertEqual({it: line["fault"] for it, line in lines.items() if "fault" in line}, wanted)
        for name, fault in wanted.items():
            self.assertIn(f"cophy-fleet: {name}: {fault}\n", said)
        for name in ("recovers", "good", "better"):
            self.proves(name)

    def test_what_waited_on_a_worker_that_another_database_killed_is_answered(self) -> None:
        names = ("poison", "good", "better")
        self.lay_fleet(*(self.lay(it, seed) for seed, it in enumerate(names)))
        # All waits on one worker, and no death is allowed, so the first one is blamed on all.
        lines, _ = self.run_fleet("--workers", "1", status=1, **NO_DEATH)
        self.assertEqual({it: line["fault"] for it, line in lines.items() if "fault" in line}, {"poison": DIED})
        for name in ("good", "better"):
            self.proves(name)

    def test_a_check_that_kills_its_workers_is_named(self) -> None:
        self.lay_fleet(self.lay("late", 1), self.lay("good", 2))
        lines, _ = self.run_fleet("--workers", "2", status=1, **NO_DEATH)
        self.assertEqual({it: line["fault"] for it, line in lines.items() if "fault" in line}, {"late": DIED})
        self.proves("good")

    def test_exports_by_a_cluster_that_runs_keep_to_the_connections_of_a_server(self) -> None:
        names = [f"db{it}" for it in range(4)]
        for seed, name in enumerate(names):
            self.lay(name, seed)
        self.lay_fleet("connections = 1\n", *(f'[[database]]\nname = "{it}"\nservice = "{it}"\n' for it in names))
        how = {"threads_per_worker": 1, "dashboard_address": None, "silence_logs": logging.CRITICAL}
        with LocalCluster(n_workers=2, local_directory=str(self.here), **how) as cluster:
            words = ("--scheduler", cluster.scheduler_address, "--exporter", str(self.here / "exporter"))
            lines, _ = self.run_fleet(*words)
        self.assertEqual([it for it in names if lines[it]["new"]], names)
        self.assertEqual((self.here / "exports").read_text(), "begin\nend\n" * len(names))

    @unittest.skipIf(missing_server(), missing_server())
    def test_a_database_of_a_server(self) -> None:
        server = PrivateServer()
        self.addCleanup(server.stop)
        server.psql("CREATE TABLE t AS SELECT g AS a, g % 100 AS b FROM generate_series(1, 20000) g; ANALYZE t;")
        (self.here / "queries.sql").write_text("SELECT a FROM t WHERE b = 5;\n")
        (self.here / "services").write_text(f"[shop]\nhost={server.folder}\nuser=cophy\ndbname=postgres\n")
        words = f'export = ["--sql", "{self.here}/queries.sql"]\n'
        self.lay_fleet(f'[[database]]\nname = "shop"\nservice = "shop"\n{words}')
        lines, _ = self.run_fleet("--workers", "1")
        self.assertEqual(lines["shop"]["points"][-1]["picks"], ["t(b, a)"])
        again, _ = self.run_fleet("--workers", "1")
        self.assertFalse(again["shop"]["new"])


class Words(OverFleet):
    """Faults that are told before anything is done."""

    def test_faults_of_a_fleet(self) -> None:
        entry = '[[database]]\nname = "a"\n'
        files = 'catalogue = "c"\nworkload = "w"\n'
        table = [
            ("", "version has to be 1"),
            ("version = 1\n", "there is no [[database]]"),
            ("version = 1\nstepz = 1\n", "the key 'stepz' means nothing"),
            ("version = 1\nsteps = 0\n", "steps has to be a whole number from 1 to 1000"),
            (f"version = 1\n{entry}", "database 1: it needs a service, or a catalogue and a workload"),
            (f'version = 1\n{entry}catalogue = "c"\n', "it has one of catalogue and workload, and needs both"),
            (f"version = 1\n{entry}{files}{entry}{files}", "two databases have the name a"),
            ('version = 1\n[[database]]\nname = "../a"\n', "database 1: a name is"),
            (f"version = 1\n{entry}{files}weight = -1\n", "weight has to be a whole number"),
            ("version = ", "Invalid value"),
        ]
        for text, wanted in table:
            with self.subTest(text=text):
                (self.here / "fleet.toml").write_text(text)
                self.assertIn(wanted, self.run_fleet("--workers", "1", status=2)[1])
        self.assertFalse((self.here / "fleet.sqlite").exists())


if __name__ == "__main__":
    unittest.main()
