#!/usr/bin/env -S python3 -IB
"""Caches of internal plans of chains, stars and cliques: how long one takes to build, how many templates it keeps of how many
combinations, and how long a look-up takes beside one search of a least plan and PostgreSQL's planning of the same join."""
import argparse
import os
import subprocess
import sys
from tempfile import TemporaryDirectory

sys.path.insert(0, os.path.dirname(os.path.realpath(__file__)))
from builds import Source, built  # noqa: E402
from joins import GRAPHS, select_text  # noqa: E402
from measure import ROOT, print_row  # noqa: E402
from postgres import Postgres  # noqa: E402
from searches import numbers  # noqa: E402

# The offers and tasks are those of the planner's program.
CACHE = Source(
    "cache_bench",
    ("inum_cache", "interesting_orders", "planner", "plan_model", "adv_base"),
    ("chain", "2", "0", "1"),
    folders=("search_bench", "cache_bench"),
    shared=("src/task.rt", "src/table.rt", "specs", "proofs/Lib.antt", "proofs/Offered.antt", "proofs/table"),
)
HEADS = (
    "graph",
    "slots",
    "combinations",
    "templates",
    "build us",
    "look-up ns",
    "look-ups/s",
    "least us",
    "postgres us",
    "least x",
    "postgres x",
)
WIDTHS = (6, 5, 12, 9, 9, 10, 10, 9, 11, 8, 10)
# What is hoped for.
LEAST_RATIO = 30
RATIO_SLOTS = 4
CHAIN_BUILD_US = 100_000


def measured(program: str, graph: str, slots: int, indexes: int, calls: int) -> dict[str, int] | None:
    """The program's numbers by name, times in picoseconds, or none where the task has too many combinations."""
    words = [program, graph, str(slots), str(indexes), str(calls)]
    done = subprocess.run(words, capture_output=True, text=True)
    return None if done.returncode else numbers(done.stdout)


def unmet(graph: str, slots: int, times: dict[str, int]) -> list[str]:
    """The goals that a line doesn't meet."""
    found = []
    if slots >= RATIO_SLOTS and times["least"] < LEAST_RATIO * times["cost"]:
        found.append(f"a look-up is less than {LEAST_RATIO} times as fast as a search")
    if graph == "chain" and times["build"] > 1_000_000 * CHAIN_BUILD_US:
        found.append(f"building takes more than {CHAIN_BUILD_US // 1000} ms")
    return found


def print_line(graph: str, slots: int, times: dict[str, int], beside: float | None) -> None:
    look_up = max(1, times["cost"])
    print_row(
        (
            graph,
            slots,
            times["combinations"],
            times["templates"],
            f"{times['build'] / 1_000_000:.0f}",
            f"{look_up / 1000:.1f}",
            1_000_000_000_000 // look_up,
            f"{times['least'] / 1_000_000:.2f}",
            "-" if beside is None else f"{beside:.0f}",
            f"{times['least'] / look_up:.1f}",
            "-" if beside is None else f"{1_000_000 * beside / look_up:.0f}",
        ),
        WIDTHS,
    )


def print_grid(options: argparse.Namespace, program: str, postgres: Postgres | None) -> None:
    print_row(HEADS, WIDTHS)
    for graph in GRAPHS:
        for slots in range(2, 9):
            times = measured(program, graph, slots, options.indexes, 50 if options.quick else 200)
            if times is None:
                print(f"{graph:>6}  {slots:>5}  too many combinations", flush=True)
                continue
            print_line(graph, slots, times, postgres.microseconds(select_text(graph, slots)) if postgres else None)
            for goal in unmet(graph, slots, times):
                print(f"  NOT MET: {goal}", flush=True)


def main() -> None:
    parser = argparse.ArgumentParser(description=__doc__)
    parser.add_argument("--program", help="a cache_bench that is built (default: it is proved and built first)")
    parser.add_argument("--root", default=ROOT, help="the repository whose crates it is made of (default: this one)")
    parser.add_argument("--folder", help="where it is proved and built (default: a temporary folder)")
    parser.add_argument("--indexes", type=int, default=2, help="indexes of a slot (default: 2)")
    parser.add_argument("--no-postgres", action="store_true", help="leave PostgreSQL out")
    parser.add_argument("--quick", action="store_true", help="fewer calls, and no PostgreSQL")
    options = parser.parse_args()
    with TemporaryDirectory() as temporary:
        folder = os.path.abspath(options.folder or os.path.join(temporary, "copy"))
        os.makedirs(folder, exist_ok=True)
        program = options.program or built(CACHE, folder, options.root)
        postgres = None if options.quick or options.no_postgres else Postgres.started()
        try:
            if postgres:
                postgres.make_tables(options.indexes)
            print_grid(options, program, postgres)
        finally:
            if postgres:
                postgres.stop()


if __name__ == "__main__":
    main()
