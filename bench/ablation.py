#!/usr/bin/env -S python3 -IB
"""The search without each of its proposals in turn: what closes, with how many nodes, in how much of the processor's time. The
crates are built as plain Rust (`plain.py`), each time with one place of their code changed; the workloads are those of
`families.py`, whose constants were chosen on odd seeds, with --may-cluster on even ones."""
import argparse
import os
import re
import shutil
import subprocess
import sys
from concurrent.futures import ThreadPoolExecutor
from dataclasses import dataclass
from signal import SIGKILL
from tempfile import TemporaryDirectory
from threading import Timer

sys.path.insert(0, os.path.dirname(os.path.realpath(__file__)))
from builds import run_unproved  # noqa: E402
from advice import ADVICE  # noqa: E402
from measure import ROOT, print_row  # noqa: E402
from plain import plain  # noqa: E402
from searches import numbers  # noqa: E402
from shapes import SHAPES, SHARES, texts  # noqa: E402

HEADS = ("without", "closed", "nodes", "seconds", "times")
WIDTHS = (44, 10, 8, 9, 6)


@dataclass(frozen=True)
class Change:
    """What the search is to do without, and the text of a file, which stands there once, in whose place another takes it away."""

    name: str
    file: str
    old: str
    new: str


FINDING, ALONG, PLANNER = (f"relaxations/src/{it}.rt" for it in ("finding", "along_tree", "planner"))
CHANGES = (
    Change(
        "exchanges after a rounding",
        "relaxations/src/rounding.rt",
        "MOST_TRIALS: usize = 300",
        "MOST_TRIALS: usize = 0",
    ),
    Change(
        "fixings in the search",
        FINDING,
        "            let count = self.fix(visit);\n",
        "            let mut own = *visit;\n            let _ = self.fix(&mut own);\n            visit.bound = own.bound;\n"
        "            let count = 0usize;\n",
    ),
    Change("more passes at a node", FINDING, "const MOST_PASSES: u32 = 4;", "const MOST_PASSES: u32 = 1;"),
    Change("dives", FINDING, "turns <= FIRST_DIVES || turns % LATER_DIVES == 0", "false"),
    Change("cuts of a view", "interior_point/src/view.rt", "self.cut(cost);", ""),
    Change(
        "the tree of the search in the plan",
        ALONG,
        "if !is_inner(node) || !self.path.is_choice(node.branch as usize) {\n            return None;",
        "if true {\n            return None;",
    ),
    Change("its fixings in the plan", ALONG, "has_known || !self.take_all_known", "true || !self.take_all_known"),
    Change(
        "its fixings in trials",
        "relaxations/src/gains.rt",
        "if let Some(node) = wanted {",
        "if let Some(node) = wanted.filter(|_| false) {",
    ),
    Change("sets of inner nodes", ALONG, "missing > FAR * own", "false"),
    Change("fixings under the second and third set", PLANNER, "sets.min(3)", "sets.min(1)"),
    Change("all fixings in the plan", PLANNER, "sets.min(3)", "0"),
    Change(
        "trials", "relaxations/src/trial.rt", "        self.try_node(task, trial, MOST_LEVELS)\n", "        false\n"
    ),
    Change(
        "deepening",
        ALONG,
        "        self.deepen(task, finder, nodes, MOST_DEEPER);\n",
        "        let start = self.start();\n        self.leave_open(task, start);\n",
    ),
    Change("lifting", "relaxations/src/own_sets.rt", "        self.lifting.lift(task.matrix, &fix, rents);\n", ""),
    Change("all attempts but the last", "relaxations/src/attempts.rt", "ATTEMPTS.iter()", "ATTEMPTS.iter().skip(4)"),
    Change(
        "attempts with many sets, and choices of these",
        "relaxations/src/attempts.rt",
        "ATTEMPTS.iter()",
        "ATTEMPTS.iter().step_by(4)",
    ),
    Change(
        "the attempts that keep 12 and 9 sets",
        "relaxations/src/attempts.rt",
        "for attempt in ATTEMPTS.iter() {",
        "for attempt in ATTEMPTS.iter().filter(|it| it.kept < 7) {",
    ),
    Change("thinning", "relaxations/src/thinning.rt", "        self.thin(task, start);\n", ""),
    Change(
        "splits of what is left open",
        "relaxations/src/proposals.rt",
        "        self.splitter.split(&task, &mut self.planner);\n",
        "",
    ),
)
OF_CLUSTERS = (
    Change(
        "what a branch on a group promises, in the search",
        "relaxations/src/branching.rt",
        "self.worth * rise",
        "0.0 * rise",
    ),
    Change(
        "other rules where a search is long",
        "relaxations/src/branching.rt",
        "        visits: 300,",
        "        visits: MOST_NODES,",
    ),
    Change(
        "other rules where a plan is left open",
        "relaxations/src/proposals.rt",
        "if !self.planner.has_open || !self.may_differ() {",
        "if true {",
    ),
    Change(
        "members of groups first in the plan",
        ALONG,
        "if is_marked(&node.inside, a) && self.path.group(a) != 0",
        "if false && self.path.group(a) != 0",
    ),
    Change(
        "clashes first in splits", "relaxations/src/trial.rt", "if clash.is_some() { clash } else { choice }", "choice"
    ),
    Change(
        "excess of groups in the search",
        FINDING,
        "let excess = shares.excess(group, share);",
        "let excess = 0.0 * shares.excess(group, share);",
    ),
)


def programmes(folder: str, seeds: list[int], names: list[str], may_cluster: bool) -> list[str]:
    """The files of the programmes of workloads, made by the program of advice_bench, which is run unproved."""
    calls, files = [], []
    for name in names:
        for seed in seeds:
            paths = [os.path.join(folder, f"{name}-{seed}.{end}") for end in ("toml", "sql")]
            for path, text in zip(paths, texts(name, seed, may_cluster)):
                with open(path, "w") as file:
                    file.write(text)
            calls.append(["print-files", *paths])
            files.append(os.path.join(folder, f"{name}-{seed}.txt"))
    if not all(map(os.path.exists, files)):
        for path, text in zip(files, run_unproved(ADVICE, os.path.join(folder, "copy"), calls)):
            with open(path, "w") as file:
                file.write(text)
    return files


def built(folder: str, number: int, it: Change | None) -> str:
    """The program with a change, built in a folder of its own."""
    root = os.path.join(folder, f"root{number}")
    shutil.rmtree(root, ignore_errors=True)
    shutil.copytree(
        os.path.join(ROOT, "crates"), os.path.join(root, "crates"), ignore=shutil.ignore_patterns("out", "proofs")
    )
    if it is not None:
        path = os.path.join(root, "crates", it.file)
        with open(path) as file:
            text = file.read()
        if text.count(it.old) != 1:
            sys.exit(f"{it.file} has {it.old!r} {text.count(it.old)} times")
        with open(path, "w") as file:
            file.write(text.replace(it.old, it.new))
    at = os.path.join(folder, f"plain{number}")
    os.makedirs(at, exist_ok=True)
    return plain(at, root, "replay")


def searched(program: str, files: list[str], nodes: int, most: float) -> list[dict[str, int]]:
    """The searches of all programmes, or those that end within so many seconds."""
    words = [word for file in files for word in (file, ",".join(map(str, SHARES)))]
    with subprocess.Popen([program, str(nodes), *words], stdout=subprocess.PIPE, text=True) as running:
        timer = Timer(most, running.kill)
        timer.start()
        text, _ = running.communicate()
        timer.cancel()
    if running.returncode not in (0, -SIGKILL):
        sys.exit(f"{program} ends with status {running.returncode}")
    return [numbers(line) for line in text.splitlines() if "microseconds" in line]


def main() -> None:
    parser = argparse.ArgumentParser(description=__doc__)
    parser.add_argument("--seeds", help="with blanks between (default: 2 4, and 1 3 with --may-cluster)")
    parser.add_argument("--shapes", help=f"with blanks between (default: {' '.join(SHAPES)})")
    parser.add_argument("--may-cluster", action="store_true", help="each table may get one clustered index")
    parser.add_argument("--nodes", type=int, default=20000, help="nodes of a search (default: 20000)")
    parser.add_argument("--folder", help="where programmes are kept for the next time (default: a temporary folder)")
    parser.add_argument("--jobs", type=int, default=1, help="how many are searched at once (default: 1)")
    parser.add_argument(
        "--most", type=float, default=600.0, help="seconds after which a change is broken off (default: 600)"
    )
    parser.add_argument("--only", default="", help="only changes whose names match this pattern, beside none")
    options = parser.parse_args()
    seeds = [int(it) for it in (options.seeds or ("1 3" if options.may_cluster else "2 4")).split()]
    listed = [*CHANGES, *(OF_CLUSTERS if options.may_cluster else ())]
    listed = [it for it in listed if re.search(options.only, it.name)]
    with TemporaryDirectory() as temporary:
        folder = os.path.abspath(options.folder or temporary)
        os.makedirs(folder, exist_ok=True)
        names = options.shapes.split() if options.shapes else list(SHAPES)
        files = programmes(folder, seeds, names, options.may_cluster)
        print_row(HEADS, WIDTHS)

        def row_of(number: int) -> tuple[str, list[dict[str, int]]]:
            it = listed[number - 1] if number else None
            program = built(folder, number, it)
            return (it.name if it else "nothing"), searched(program, files, options.nodes, options.most)

        whole = 0.0
        with ThreadPoolExecutor(options.jobs) as pool:
            for name, rows in pool.map(row_of, range(len(listed) + 1)):
                seconds = sum(it["microseconds"] for it in rows) / 1e6
                whole = whole or seconds
                closed = sum(it["bound"] >= it["cost"] for it in rows)
                nodes = sum(it["nodes"] for it in rows)
                print_row((name, f"{closed} of {len(rows)}", nodes, f"{seconds:.2f}", f"{seconds / whole:.2f}"), WIDTHS)


if __name__ == "__main__":
    main()
