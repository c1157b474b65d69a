#!/usr/bin/env -S python3 -IB
"""`cophy fold` on workloads of 125 to 1000 statements: what folding takes beside reading them, where all have different shapes,
where all are alike, and where all are alike but no two may join by their weights."""
import os
import sys
from itertools import islice, permutations
from tempfile import TemporaryDirectory

sys.path.insert(0, os.path.dirname(os.path.realpath(__file__)))
from measure import arguments, need_program, need_status_0, print_row, run_lightest  # noqa: E402

COUNTS = (125, 250, 500, 1000)
COLUMNS = 20
# The milliseconds that folding may take beyond what reading does.
MOST_MS = 5
HEADS = ("workload", "statements", "groups", "bytes", "read ms", "cost ms", "fold ms", "folding ms")
WIDTHS = (10, 10, 7, 8, 8, 8, 8, 10)


def catalogue() -> str:
    columns = "".join(
        f'[[table.column]]\nname = "c{i}"\nkind = "int"\nwidth = 4\ndistinct = 100\n' for i in range(COLUMNS)
    )
    return f'version = 1\n\n[[table]]\nname = "t"\nrows = 1000\npages = 20\n{columns}'


def statement(columns: tuple[int, ...], value: int) -> str:
    first, second, third = columns
    return f"SELECT c{first} FROM t WHERE c{second} = {value} AND c{third} > 5 ORDER BY c{first};\n"


def workloads(count: int) -> dict[str, str]:
    """The workloads of so many statements, by their kind."""
    different = islice(permutations(range(COLUMNS), 3), count)
    return {
        "different": "".join(statement(it, 1) for it in different),
        "alike": "".join(statement((0, 1, 2), value) for value in range(count)),
        "heavy": "".join(f"-- weight 600000\n{statement((0, 1, 2), value)}" for value in range(count)),
    }


def main() -> None:
    parser = arguments("folds workloads of many statements")
    options = parser.parse_args()
    need_program(options.program)
    print_row(HEADS, WIDTHS)
    unmet = []
    with TemporaryDirectory() as folder:
        cat, load, out = (os.path.join(folder, it) for it in ("c.toml", "w.sql", "folded.sql"))
        with open(cat, "w", encoding="utf-8") as file:
            file.write(catalogue())
        for kind in workloads(1):
            for count in COUNTS:
                with open(load, "w", encoding="utf-8") as file:
                    file.write(workloads(count)[kind])
                # Both calls read the workload and its names and find the candidates; `fold` reads it once more, after `cost`.
                runs = [
                    run_lightest([options.program, *words], options.repeat)
                    for words in (("candidates", cat, load), ("cost", cat, load), ("fold", cat, load, out))
                ]
                for run in runs:
                    need_status_0(run, f"{kind} {count}")
                read, cost, fold = (1000 * run.processor for run in runs)
                groups = runs[2].output.split()[3].decode()
                sizes = os.path.getsize(load)
                print_row(
                    (kind, count, groups, sizes, *(f"{it:.1f}" for it in (read, cost, fold, fold - cost))), WIDTHS
                )
                if fold - cost > read + MOST_MS:
                    unmet.append(f"{kind} {count}")
    for it in unmet:
        print(f"NOT MET: folding {it} takes more than reading and {MOST_MS} ms")


main()
