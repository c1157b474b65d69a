#!/usr/bin/env -S python3 -IB
"""`cophy bench` at 20, 100, 200 and 500 statements, over ten seeds and four budgets: whether it finished, or the gap; time and
memory, and how they grow."""
import os
import sys
from dataclasses import dataclass
from tempfile import TemporaryDirectory

sys.path.insert(0, os.path.dirname(os.path.realpath(__file__)))
from measure import Run, arguments, need_answer, need_program, print_row, run_once  # noqa: E402
from workloads import Advice, Workload, advice_of, budget_of, candidate_pages  # noqa: E402

TABLES = 20
STATEMENTS = (20, 100, 200, 500)
SEEDS = range(1, 11)
SHARES = (5, 20, 50, 100)
HEADS = ("statements", "share %", "finished", "worst gap %", "nodes", "most nodes", "mean s", "most s", "peak MiB")
WIDTHS = (10, 7, 8, 11, 8, 10, 8, 8, 8)


@dataclass
class Made:
    run: Run
    advice: Advice


def made(program: str, workload: Workload, budget: int) -> Made:
    run = run_once([program, "bench", *workload.words, str(budget)])
    need_answer(run, f"bench {workload} {budget}")
    return Made(run, advice_of(run))


def print_line(statements: int, share: int, found: list[Made]) -> None:
    seconds = [it.run.seconds for it in found]
    nodes = [it.advice.nodes for it in found]
    finished = sum(it.advice.finished for it in found)
    gap = max(it.advice.gap for it in found)
    peak = max(it.run.peak_mib for it in found)
    print_row(
        (
            statements,
            "all" if share >= 100 else share,
            f"{finished}/{len(found)}",
            f"{gap:.4f}",
            sum(nodes),
            max(nodes),
            f"{sum(seconds) / len(seconds):.3f}",
            f"{max(seconds):.3f}",
            f"{peak:.0f}",
        ),
        WIDTHS,
    )


def main() -> None:
    parser = arguments(__doc__)
    parser.add_argument("--quick", action="store_true", help="two seeds, and at most 100 statements")
    options = parser.parse_args()
    need_program(options.program)
    print_row(HEADS, WIDTHS)
    everything: list[Made] = []
    with TemporaryDirectory() as folder:
        for statements in STATEMENTS[:2] if options.quick else STATEMENTS:
            workloads = [Workload(seed, TABLES, statements) for seed in (SEEDS[:2] if options.quick else SEEDS)]
            pages = [candidate_pages(options.program, workload, folder) for workload in workloads]
            for share in SHARES:
                found = [made(options.program, it, budget_of(share, all_)) for it, all_ in zip(workloads, pages)]
                print_line(statements, share, found)
                everything += found
    finished = sum(it.advice.finished for it in everything)
    print(f"finished {finished} of {len(everything)}, seconds {sum(it.run.seconds for it in everything):.1f}")


if __name__ == "__main__":
    main()
