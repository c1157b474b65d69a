#!/usr/bin/env -S python3 -IB
"""`cophy check` beside `cophy advise --cert` on the same workloads of the generator: the processor's time of each, and the
size of the certificate. With --large, the time and the memory of `cophy check` on two certificates with as many nodes as one
may have: one that is refused, with as many rents as there may be, and one that is proved."""
import os
import sys
from itertools import islice, product
from tempfile import TemporaryDirectory

sys.path.insert(0, os.path.dirname(os.path.realpath(__file__)))
from builds import run_built  # noqa: E402
from measure import ROOT, Run, arguments, need_program, need_status_0, print_row, run_lightest, run_once  # noqa: E402
from plain import plain  # noqa: E402
from searches import numbers  # noqa: E402
from workloads import Workload, advice_of, budget_of, candidate_pages, put, workload_of  # noqa: E402

SHARES = (2, 5, 10, 20, 40, 70, 100)
WORKLOADS = "1-5-20 3-10-50 6-10-100 8-10-200 13-20-500"
QUICK = "1-5-20 3-10-50"
HEADS = ("workload", "budget", "finished", "nodes", "certificate", "advise ms", "check ms", "ratio")
WIDTHS = (10, 13, 8, 6, 11, 9, 9, 6)


def print_line(
    workload: Workload, budget: int, finished: bool, nodes: int, size: int, times: tuple[float, float]
) -> None:
    advise, check = times
    print_row(
        (
            workload,
            budget,
            "yes" if finished else "no",
            nodes,
            size,
            f"{1000 * advise:.1f}",
            f"{1000 * check:.1f}",
            f"{check / max(advise, 1e-9):.2f}",
        ),
        WIDTHS,
    )


def by_commands(program: str, workload: Workload, folder: str, repeat: int) -> list[tuple[float, float]]:
    """Prints a line for each budget, and answers the seconds of `advise` and of `check`."""
    catalogue, load = put(workload, folder)
    pages = candidate_pages(program, workload, folder)
    found = []
    for share in SHARES:
        budget = budget_of(share, pages)
        certificate = os.path.join(folder, "certificate")
        words = [program, "advise", catalogue, load, str(budget), "--cert", certificate]
        advise = run_lightest(words, repeat)
        need_status_0(advise, f"advise {workload} {budget}")
        check = run_lightest([program, "check", catalogue, load, certificate], repeat)
        need_status_0(check, f"check {workload} {budget}")
        told = advice_of(advise)
        found.append((advise.processor, check.processor))
        print_line(workload, budget, told.finished, told.nodes, os.path.getsize(certificate), found[-1])
    return found


def by_calls(program: str, workload: Workload) -> list[tuple[float, float]]:
    """The same by the crates' calls, as plain Rust, without the reading of text."""
    text = run_built(program, [["check", *workload.words, "20000", *map(str, SHARES)]])[0]
    found = []
    for line in text.splitlines():
        told = numbers(line)
        found.append((told["advise"] / 1e6, told["check"] / 1e6))
        print_line(workload, told["budget"], bool(told["closed"]), told["nodes"], told["bytes"], found[-1])
        if not told["proved"]:
            print("  WRONG: the certificate isn't proved", flush=True)
    return found


RENTS = 1500000
NODES = 999999
# What a rent takes in memory, and the memory that the checker may take beside the rents.
RENT_BYTES = 16
MOST_MIB = 24


def put_large(path: str) -> int:
    """Writes a certificate of all these rents and nodes, and answers its bytes. It proves nothing."""
    places = islice(product(range(1, 1001), range(1, 9), range(1, 257)), RENTS)
    with open(path, "w", newline="") as file:
        file.write(f"cophy certificate 1\nbudget 0\nconfig\ncost 0\nbound 0\nsets 1\nset 0 {RENTS}\n")
        file.writelines(f"{statement} {slot} {candidate} {10**18}\n" for statement, slot, candidate in places)
        file.write(f"tree {NODES}\n" + "B 256\nL 1\n" * (NODES // 2) + "L 1\nend\n")
    return os.path.getsize(path)


def overfull_tree(nodes: int, candidate: int) -> list[str]:
    """The lines of a tree of so many nodes, an odd number: branches on candidates from one on, above overfull leaves."""
    if nodes == 1:
        return ["X\n"]
    left = (nodes - 1) // 2 | 1
    right = nodes - 1 - left
    return [f"B {candidate}\n", *overfull_tree(left, candidate + 1), *overfull_tree(right, candidate + 1)]


def put_proved(path: str, cost: int) -> int:
    """Writes a certificate of a budget of no pages, which no candidate fits, and answers its bytes. Its bound is its cost: where
    candidate 1 is in each leaf is overfull, and where it is out nothing is left to be in."""
    tree = ["B 1\n", *overfull_tree(NODES - 2, 2), "L 0\n"]
    with open(path, "w", newline="") as file:
        file.write(f"cophy certificate 1\nbudget 0\nconfig\ncost {cost}\nbound {cost}\nsets 0\ntree {len(tree)}\n")
        file.writelines(tree + ["end\n"])
    return os.path.getsize(path)


def print_large(what: str, size: int, run: Run, rents: int) -> None:
    beside = run.peak_mib - rents * RENT_BYTES / 2**20
    print(f"{what}, {size} bytes: {1000 * run.processor:.0f} ms, {run.peak_mib:.0f} MiB, {beside:.0f} MiB beside the rents")
    if beside > MOST_MIB:
        print(f"NOT MET: at most {MOST_MIB} MiB beside the rents")


def measure_large(program: str, repeat: int) -> None:
    with TemporaryDirectory() as folder:
        catalogue, load = put(workload_of(QUICK.split()[1]), folder)
        path = os.path.join(folder, "certificate")
        words = [program, "check", catalogue, load, path]
        size = put_large(path)
        run = run_lightest(words, repeat)
        if run.status != 6 or not run.output.startswith(b"not proved: cost 0 computed "):
            raise SystemExit(f"the large certificate isn't judged: status {run.status}, {run.output[:200]!r}")
        print_large("refused", size, run, RENTS)
        advised = run_once([program, "advise", catalogue, load, "0"])
        need_status_0(advised, "advise within no pages")
        size = put_proved(path, advice_of(advised).cost)
        run = run_lightest(words, repeat)
        need_status_0(run, "check of the large tree")
        print_large("proved", size, run, 0)


def main() -> None:
    parser = arguments(__doc__)
    parser.set_defaults(repeat=1)
    parser.add_argument("--workloads", help=f"seed-tables-statements, with blanks between (default: {WORKLOADS})")
    parser.add_argument(
        "--plain",
        action="store_true",
        help="the crates' calls as plain Rust in the place of the commands, " "unproved and built by rustc",
    )
    parser.add_argument("--root", default=ROOT, help="the repository whose crates are built so (default: this one)")
    parser.add_argument("--quick", action="store_true", help=f"smaller workloads alone ({QUICK})")
    parser.add_argument("--large", action="store_true", help="the largest certificates in place of the workloads")
    options = parser.parse_args()
    if options.large:
        need_program(options.program)
        measure_large(options.program, options.repeat)
        return
    listed = (options.workloads or (QUICK if options.quick else WORKLOADS)).split()
    if not options.plain:
        need_program(options.program)
    found: list[tuple[float, float]] = []
    with TemporaryDirectory() as folder:
        program = plain(folder, options.root) if options.plain else options.program
        print_row(HEADS, WIDTHS)
        for workload in map(workload_of, listed):
            found += (
                by_calls(program, workload) if options.plain else by_commands(program, workload, folder, options.repeat)
            )
    advised, checked = (sum(times) for times in zip(*found))
    print(f"in all: advise {advised:.2f} s, check {checked:.2f} s, {checked / max(advised, 1e-9):.2f} of advise")
    if checked > advised:
        print("NOT MET: check takes no longer than advise in all")


if __name__ == "__main__":
    main()
