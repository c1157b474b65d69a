#!/usr/bin/env -S python3 -IB
"""Time to propose candidates: `cophy candidates` on workloads that grow to the limit of 2000 slots in all.

Each statement joins so many slots over tables of 200 columns, and tests, joins and needs a hundred columns of each slot.
Beside it, in the same run, `cophy candidates` on the first statement alone, so that reading the catalogue falls out.
"""
import os
import sys
import tempfile

sys.path.insert(0, os.path.dirname(os.path.realpath(__file__)))
from measure import arguments, need_program, need_status_0, print_row, run_lightest  # noqa: E402

TABLES = 16
COLUMNS = 200
NEEDED = 100
# Slots of a statement, and the numbers of statements.
SHAPES = ((2, (125, 250, 500, 1000)), (8, (31, 62, 125, 250)))
HEADS = ("slots", "statements", "candidates", "left over", "seconds", "us a statement")
WIDTHS = (5, 10, 10, 9, 9, 14)


def catalogue_text():
    text = "version = 1\n"
    for table in range(1, TABLES + 1):
        text += f'[[table]]\nname = "t{table}"\nrows = 1000000\npages = 20000\n'
        for at in range(1, COLUMNS + 1):
            text += f'[[table.column]]\nname = "c{at}"\nkind = "int"\nwidth = 4\ndistinct = 1000\n'
    return text


def statement_text(number, slots):
    """A statement whose columns turn with its number, so that statements propose different lists."""
    column = lambda at: f"c{(number * 7 + at) % COLUMNS + 1}"
    sources = ", ".join(f"t{(number + at) % TABLES + 1} s{at}" for at in range(slots))
    conditions = [f"s{at}.{column(at)} = s{at + 1}.{column(at)}" for at in range(slots - 1)]
    for at in range(slots):
        conditions += [f"s{at}.{column(10 + it)} = {it}" for it in range(20)]
        conditions += [f"s{at}.{column(40 + it)} > {it}" for it in range(20)]
    needed = ", ".join(f"s{at}.{column(it)}" for at in range(slots) for it in range(NEEDED))
    return f"SELECT {needed} FROM {sources} WHERE {' AND '.join(conditions)};\n"


def main():
    options = arguments(__doc__).parse_args()
    need_program(options.program)
    print_row(HEADS, WIDTHS)
    with tempfile.TemporaryDirectory() as folder:
        catalogue, workload = (os.path.join(folder, name) for name in ("catalogue.toml", "workload.sql"))
        with open(catalogue, "w") as file:
            file.write(catalogue_text())
        for slots, counts in SHAPES:
            first = None
            for count in (1, *counts):
                with open(workload, "w") as file:
                    file.writelines(statement_text(number, slots) for number in range(count))
                run = run_lightest([options.program, "candidates", catalogue, workload], options.repeat)
                need_status_0(run, f"{count} statements of {slots} slots")
                if first is None:
                    first = run.processor
                    continue
                *listed, last = run.output.decode().splitlines()
                each = 1e6 * max(0.0, run.processor - first) / (count - 1)
                print_row((slots, count, len(listed), last.split()[-1], f"{run.processor:.3f}", f"{each:.0f}"), WIDTHS)


if __name__ == "__main__":
    main()
