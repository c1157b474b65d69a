#!/usr/bin/env -S python3 -IB
"""`cophy retune` on workloads of the generator, of 100 to 1000 statements: what one more edit takes of the processor's
time, by its kind, beside making the programme from scratch; and an advice that follows one edit behind another advice,
beside one from scratch on the same statements. It prints Markdown. With --instructions valgrind counts those in the place
of time, which nothing else that the machine does changes: then each is run once, and as many workloads at once as there
are processors."""
import os
import re
import shutil
import sys
from concurrent.futures import ThreadPoolExecutor
from functools import partial
from tempfile import TemporaryDirectory

sys.path.insert(0, os.path.dirname(os.path.realpath(__file__)))
from measure import Run, arguments, need_answer, need_program, run_counted, run_once  # noqa: E402
from workloads import Workload, budget_of, candidate_pages, put  # noqa: E402

SEEDS = (2, 4, 6)
TABLES = 20
STATEMENTS = (100, 300, 1000)
# How many edits of a kind are measured together.
WEIGHED = 900
MOVED = 20
# The budget, in hundredths of the pages of all candidates.
SHARE = 20
HEADS = (
    "seed",
    "statements",
    "candidates",
    "from scratch ms",
    "`weigh` us",
    "`add` ms",
    "`remove` ms",
    "advice ms",
    "again after `weigh`",
    "after `add`",
    "after `remove`",
    "nodes of all four",
)
# The edits before which an advice may stand.
KINDS = ("weigh", "add", "remove")


def edits(statements: list[tuple[str, str]]) -> dict[str, str]:
    """The edits that are run, by a name. Those of `add` take statements away too, and add these again."""
    removed = "remove 1\n" * MOVED
    weight, first = statements[0]
    # What stands before both advices, and the edit between them.
    between = {
        "weigh": ("", f"weigh 1 {2 * int(weight)}\n"),
        "add": ("remove 1\n", f"add {weight} {first}\n"),
        "remove": ("", "remove 1\n"),
    }
    advices = {f"again {kind}": f"{start}advise\n{edit}advise\n" for kind, (start, edit) in between.items()}
    advices |= {f"before {kind}": f"{start}advise\n" for kind, (start, _) in between.items()}
    advices |= {f"anew {kind}": f"{start}{edit}advise\n" for kind, (start, edit) in between.items()}
    return {
        "none": "",
        "weigh": "".join(f"weigh {it % len(statements) + 1} {it % 99 + 1}\n" for it in range(WEIGHED)),
        "remove": removed,
        "add": removed + "".join(f"add {weight} {text}\n" for weight, text in statements[:MOVED]),
        **advices,
    }


def runs_of(program: str, workload: Workload, folder: str, repeat: int, counts: bool) -> dict[str, Run]:
    """The run of `candidates`, and that of each of the edits: the lightest of those made in turn, or the one whose
    instructions are counted."""
    run = run_counted if counts else run_once
    files = put(workload, folder)
    budget = budget_of(SHARE, candidate_pages(program, workload, folder))
    commands = {"candidates": [program, "candidates", *files]}
    with open(files[1]) as file:
        statements = re.findall(r"^-- weight (\d+)\n(.*)$", file.read(), re.M)
    for name, text in edits(statements).items():
        path = os.path.join(folder, f"{workload}.{name}.edits")
        with open(path, "w") as file:
            file.write(text)
        commands[name] = [program, "retune", *files, path, str(budget)]
    times = 1 if counts else repeat
    rounds: list[dict[str, Run]] = [{name: run(words) for name, words in commands.items()} for _ in range(times)]
    runs = {name: min((it[name] for it in rounds), key=lambda run: run.processor) for name in commands}
    for name, run in runs.items():
        need_answer(run, f"{name} of {workload}")
    return runs


def nodes_of(run: Run) -> list[str]:
    """The nodes of the advices of a run."""
    return re.findall(r"^nodes (\d+) ", run.output.decode(), re.M)


def row_of(workload: Workload, runs: dict[str, Run]) -> tuple[object, ...]:
    def spent(name: str, before: str, count: int = 1) -> float:
        """The milliseconds of one of so many edits that a run has beyond another one's."""
        return 1000 * (runs[name].processor - runs[before].processor) / count

    def again(kind: str) -> float:
        """The part of an advice from scratch that one behind an edit takes, the edit with it."""
        return spent(f"again {kind}", f"before {kind}") / spent(f"anew {kind}", "none")

    nodes = [
        node for name in ("before weigh", *(f"again {kind}" for kind in KINDS)) for node in nodes_of(runs[name])[-1:]
    ]
    return (
        workload.seed,
        workload.statements,
        runs["candidates"].output.count(b" pages\n"),
        f"{spent('none', 'candidates'):.2f}",
        f"{1000 * spent('weigh', 'none', WEIGHED):.1f}",
        f"{spent('add', 'remove', MOVED):.2f}",
        f"{spent('remove', 'none', MOVED):.2f}",
        f"{spent('before weigh', 'none'):.1f}",
        *(f"{again(kind):.2f}" for kind in KINDS),
        ", ".join(nodes),
    )


def print_line(cells: tuple[object, ...]) -> None:
    print("|", " | ".join(map(str, cells)), "|", flush=True)


def heads(counts: bool) -> list[str]:
    """What the columns are: those of time are millions and thousands of instructions where these are counted."""
    units = {" ms": " million", " us": " thousand"} if counts else {}
    return [f"{it.removesuffix(it[-3:])}{units.get(it[-3:], it[-3:])}" for it in HEADS]


def main() -> None:
    parser = arguments("edits of workloads of 100 to 1000 statements")
    parser.add_argument("--quick", action="store_true", help="100 and 300 statements alone")
    parser.add_argument("--instructions", action="store_true", help="count instructions by valgrind")
    options = parser.parse_args()
    need_program(options.program)
    if options.instructions and not shutil.which("valgrind"):
        sys.exit("there is no valgrind on the path")
    print_line(tuple(heads(options.instructions)))
    print("|---" * len(HEADS) + "|")
    counts = STATEMENTS[:2] if options.quick else STATEMENTS
    workloads = [Workload(seed, TABLES, count) for seed in SEEDS for count in counts]
    with TemporaryDirectory() as folder, ThreadPoolExecutor(os.cpu_count() if options.instructions else 1) as pool:
        runs = partial(runs_of, options.program, folder=folder, repeat=options.repeat, counts=options.instructions)
        for workload, found in zip(workloads, pool.map(runs, workloads)):
            print_line(row_of(workload, found))


main()
