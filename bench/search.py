#!/usr/bin/env -S python3 -IB
"""Searches on workloads of the generator, seven budgets each: whether it closed, or the gap; nodes, sets, time. Beside it, in
the same run, the open solvers cbc and glpk on the same programme, where they are installed. What takes less than 20
milliseconds, a search or a solver, is run 14 times more, each in a process of its own, and the least time counts."""
import argparse
import os
import sys
from dataclasses import dataclass, field
from tempfile import TemporaryDirectory

sys.path.insert(0, os.path.dirname(os.path.realpath(__file__)))
from advice import Advice, add_options, made  # noqa: E402
from measure import print_row  # noqa: E402
from printed import Programme, cost, groups, lp_text, programme_of, useful  # noqa: E402
from searches import numbers  # noqa: E402
from solvers import MOST_SECONDS, REPEATS, SHORT_SECONDS, Solved, installed  # noqa: E402
from workloads import Workload, workload_of  # noqa: E402

# Hundredths of the pages of all useful candidates; 100 stands for 10^12 pages.
SHARES = (2, 5, 10, 20, 40, 70, 100)
FULL = (
    "1-5-20 2-20-20 3-10-50 4-20-50 5-5-100 6-10-100 7-20-100 8-10-200 9-20-200 10-20-300 11-5-500 12-10-500 13-20-500"
)
WORKLOADS = "1-5-20 3-10-50 4-20-50 6-10-100 7-20-100 9-20-200 12-10-500"
QUICK = "1-5-20 3-10-50 6-10-100"
WIDTHS = (10, 13, 7, 9, 6, 4, 6, 9, 9, 9)


@dataclass
class Row:
    """A search: the numbers that were printed, and what the solvers told."""

    workload: Workload | str
    told: dict[str, int]
    chosen: set[int]
    solved: dict[str, Solved] = field(default_factory=dict)

    @property
    def closed(self) -> bool:
        return self.told["bound"] >= self.told["cost"]

    @property
    def gap(self) -> float:
        """Hundredths of the cost by which the bound falls short."""
        return max(0.0, 100 * (self.told["cost"] - self.told["bound"]) / max(1, self.told["cost"]))

    @property
    def seconds(self) -> float:
        return self.told["microseconds"] / 1e6


def rows_of(workload: Workload | str, text: str) -> list[Row]:
    rows = []
    for line in text.splitlines():
        if line.startswith("budget"):
            head, _, chosen = line.partition(" chosen")
            rows.append(Row(workload, numbers(head), {int(word) for word in chosen.split()}))
    return rows


def faults(row: Row, programme: Programme) -> list[str]:
    """What is wrong with an answer, as the programme and the solvers say."""
    told = row.told
    found = []
    if cost(programme, row.chosen) != told["cost"]:
        found.append("another cost")
    if sum(programme.sizes[number - 1] for number in row.chosen) > told["budget"]:
        found.append("over the budget")
    if groups(programme, row.chosen):
        found.append("two clustered on one table")
    if len(useful(programme, told["budget"])) != told["useful"]:
        found.append("another count of useful candidates")
    for name, solved in row.solved.items():
        if solved.cost is None:
            continue
        # The solvers compute with about sixteen digits, and stop within a millionth or so.
        slack = 1 + abs(solved.cost) * 1e-6
        if told["cost"] < solved.cost - slack:
            found.append(f"{name} claims a least cost of {solved.cost:.0f}")
        if told["bound"] > solved.cost + slack:
            found.append(f"{name} is below the bound, at {solved.cost:.0f}")
    return found


def solve(row: Row, programme: Programme, folder: str, most: float) -> None:
    """Has each solver solve the programme for the budget of a search."""
    file = os.path.join(folder, "programme.lp")
    with open(file, "w") as out:
        out.write(lp_text(programme, row.told["budget"]))
    for name, call in installed().items():
        row.solved[name] = call(file, most)


def told(solved: Solved | None) -> str:
    if solved is None:
        return "-"
    return f"{1000 * solved.seconds:.1f}" + ("" if solved.cost is not None else "!")


def print_search(row: Row, widths: tuple[int, ...], solvers: tuple[str, ...]) -> None:
    it = row.told
    cells = (
        row.workload,
        it["budget"],
        "yes" if row.closed else "no",
        f"{row.gap:.5f}",
        it["nodes"],
        it["sets"],
        it["useful"],
        f"{1000 * row.seconds:.1f}",
        *(told(row.solved.get(name)) for name in solvers),
    )
    print_row(cells, widths)


def print_sums(rows: list[Row]) -> None:
    closed = sum(row.closed for row in rows)
    gaps = [row.gap for row in rows if not row.closed]
    seconds = sum(row.seconds for row in rows)
    print(
        f"closed {closed} of {len(rows)}, nodes {sum(row.told['nodes'] for row in rows)}, "
        f"mean gap of the open {sum(gaps) / max(1, len(gaps)):.3f} %, seconds {seconds:.2f}"
    )
    for name in installed():
        beside = [row for row in rows if name in row.solved]
        if not beside:
            continue
        theirs = sum(row.solved[name].seconds for row in beside)
        ours = sum(row.seconds for row in beside)
        faster = sum(row.closed and row.seconds < row.solved[name].seconds for row in beside)
        unsolved = sum(row.solved[name].cost is None for row in beside)
        print(
            f"{name}: seconds {theirs:.2f}, {theirs / max(ours, 1e-9):.1f} times ours; the search closed and was faster on "
            f"{faster} of {len(beside)}; not solved in time {unsolved}"
        )


def lightest(advice: Advice, rows: list[Row], nodes: int) -> None:
    """Repeats the short searches of a workload, where that is a program's run, and keeps the least time of each."""
    short = {share: row for share, row in zip(SHARES, rows) if row.seconds < SHORT_SECONDS}
    if not advice.program:
        return
    for share, row in short.items():
        call = ["search", *row.workload.words, str(nodes), str(share)]
        for text in advice.printed([call] * (REPEATS - 1)):
            again = rows_of(row.workload, text)[0]
            row.told["microseconds"] = min(row.told["microseconds"], again.told["microseconds"])


def measured(options: argparse.Namespace, advice: Advice, workloads: list[Workload], folder: str) -> list[Row]:
    shares = [str(share) for share in SHARES]
    searches = [["search", *workload.words, str(options.nodes), *shares] for workload in workloads]
    prints = [["print", *workload.words] for workload in workloads]
    texts = advice.printed(prints + searches)
    print_row(("workload", "budget", "closed", "gap %", "nodes", "sets", "useful", "ms", "cbc ms", "glpk ms"), WIDTHS)
    rows = []
    for at, workload in enumerate(workloads):
        programme = programme_of(texts[at])
        found = rows_of(workload, texts[len(workloads) + at])
        lightest(advice, found, options.nodes)
        for row in found:
            if not options.no_solvers:
                solve(row, programme, folder, options.most)
            print_search(row, WIDTHS, ("cbc", "glpk"))
            for fault in faults(row, programme):
                print(f"  WRONG: {fault}", flush=True)
            rows.append(row)
    return rows


def main() -> None:
    parser = argparse.ArgumentParser(description=__doc__)
    add_options(parser)
    parser.add_argument("--workloads", help=f"seed-tables-statements, with blanks between (default: {WORKLOADS})")
    parser.add_argument("--full", action="store_true", help="thirteen workloads; the solvers alone take minutes")
    parser.add_argument("--nodes", type=int, default=20000, help="nodes of a search (default: 20000)")
    parser.add_argument("--most", type=float, default=MOST_SECONDS, help="seconds that a solver may take (default: 60)")
    parser.add_argument("--no-solvers", action="store_true", help="leave the solvers out")
    options = parser.parse_args()
    listed = options.workloads or (QUICK if options.quick else FULL if options.full else WORKLOADS)
    workloads = [workload_of(word) for word in listed.split()]
    with made(options) as advice, TemporaryDirectory() as folder:
        print_sums(measured(options, advice, workloads, folder))


if __name__ == "__main__":
    main()
