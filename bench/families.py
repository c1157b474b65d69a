#!/usr/bin/env -S python3 -IB
"""Searches on workloads of many shapes (`shapes.py`), six budgets each: whether it closed within the nodes, or the gap; nodes,
sets, time. Beside it, in the same run, cbc, glpsol and HiGHS on the same programme, where they are installed. Constants of
the search were chosen on odd seeds, so what is shown is of even ones; those for clustered candidates the other way round."""
import argparse
import os
import sys
from tempfile import TemporaryDirectory

sys.path.insert(0, os.path.dirname(os.path.realpath(__file__)))
from advice import Advice, add_options, made  # noqa: E402
from measure import print_row  # noqa: E402
from printed import programme_of, useful  # noqa: E402
from search import Row, faults, print_search, rows_of, solve  # noqa: E402
from shapes import SHAPES, SHARES, texts  # noqa: E402
from solvers import MOST_SECONDS, Highs, installed, python_with_scipy  # noqa: E402

HEADS = ("workload", "budget", "closed", "gap %", "nodes", "sets", "useful", "ms", "cbc ms", "glpk ms", "HiGHS ms")
WIDTHS = (18, 10, 7, 9, 6, 4, 6, 9, 9, 9, 9)
SOLVERS = ("cbc", "glpk", "HiGHS")
AMPLE = 10**12


def print_sums(rows: list[Row]) -> None:
    ours = sum(row.seconds for row in rows)
    closed = sum(row.closed for row in rows)
    print(f"closed {closed} of {len(rows)}, nodes {sum(row.told['nodes'] for row in rows)}, seconds {ours:.2f}")
    for name in SOLVERS:
        beside = [row for row in rows if name in row.solved]
        if not beside:
            continue
        theirs = sum(row.solved[name].seconds for row in beside)
        shown = [row for row in beside if row.solved[name].cost is not None]
        print(
            f"{name}: closed {len(shown)} of {len(beside)}, {sum(row.closed for row in shown)} of these are closed here too; "
            f"seconds {theirs:.2f}, {theirs / max(ours, 1e-9):.1f} times ours; the search closed and was faster on "
            f"{sum(row.closed and row.seconds < row.solved[name].seconds for row in beside)}"
        )


def searched(options: argparse.Namespace, advice: Advice, name: str, seed: int, folder: str) -> list[Row]:
    """The searches of one workload."""
    paths = [os.path.join(folder, f"workload.{end}") for end in ("toml", "sql")]
    for path, text in zip(paths, texts(name, seed, options.may_cluster)):
        with open(path, "w") as file:
            file.write(text)
    printed = advice.printed([["print-files", *paths]])[0]
    dump = os.path.join(folder, "programme.txt")
    with open(dump, "w") as file:
        file.write(printed)
    programme = programme_of(printed)
    pages = sum(programme.sizes[number - 1] for number in useful(programme, AMPLE))
    budgets = [str(pages * share // 10000) for share in SHARES]
    rows = rows_of(f"{name}-{seed}", advice.printed([["search-files", *paths, str(options.nodes), *budgets]])[0])
    python = None if options.no_solvers else python_with_scipy()
    for row in rows:
        if not options.no_solvers:
            solve(row, programme, folder, options.most)
        if python:
            row.solved["HiGHS"] = Highs(python).solve(dump, row.told["budget"], options.most)
        print_search(row, WIDTHS, SOLVERS)
        for fault in faults(row, programme):
            print(f"  WRONG: {fault}", flush=True)
    return rows


def main() -> None:
    parser = argparse.ArgumentParser(description=__doc__)
    add_options(parser)
    parser.add_argument("--shapes", help=f"with blanks between (default: {' '.join(SHAPES)})")
    parser.add_argument("--seeds", help="with blanks between (default: 2 4, and 1 3 with --may-cluster)")
    parser.add_argument("--may-cluster", action="store_true", help="each table may get one clustered index")
    parser.add_argument("--nodes", type=int, default=20000, help="nodes of a search (default: 20000)")
    parser.add_argument("--most", type=float, default=MOST_SECONDS, help="seconds that a solver may take (default: 60)")
    parser.add_argument("--no-solvers", action="store_true", help="leave the solvers out")
    options = parser.parse_args()
    if options.plain:
        parser.error("the plain program reads no files")
    names = options.shapes.split() if options.shapes else list(SHAPES)[:3] if options.quick else list(SHAPES)
    seeds = options.seeds or ("1 3" if options.may_cluster else "2 4")
    rows: list[Row] = []
    with made(options) as advice, TemporaryDirectory() as folder:
        print_row(HEADS, WIDTHS)
        for name in names:
            for seed in map(int, seeds.split()):
                rows += searched(options, advice, name, seed, folder)
        print_sums(rows)


if __name__ == "__main__":
    main()
