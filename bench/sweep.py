#!/usr/bin/env -S python3 -IB
"""`cophy sweep` at sixteen budgets beside `advise` at each of them: the processor's time of the sweep, of the dearest budget alone
and of all sixteen calls, over workloads of many shapes (`shapes.py`, even seeds) and over 500 statements of the generator. No
point may be worse than the advice at its budget."""
import os
import re
import sys
from tempfile import TemporaryDirectory

sys.path.insert(0, os.path.dirname(os.path.realpath(__file__)))
import generator  # noqa: E402
import shapes  # noqa: E402
from measure import Run, arguments, need_program, print_row, run_lightest  # noqa: E402

POINTS = 16
# How many times the time of the dearest budget a sweep may take.
MOST_RATIO = 3
SEED = 2
GENERATED = ((7, 20, 500), (8, 10, 500))
HEADS = ("workload", "step", "sweep ms", "dearest ms", "all ms", "ratio", "worse")
WIDTHS = (18, 10, 9, 10, 9, 6, 5)
POINT = re.compile(r"point \d+ budget (\d+) size \d+ cost (\d+) bound (-?\d+) best \d+ low -?\d+ nodes \d+")


def need_advice(run: Run, words: list[str]) -> str:
    if run.status not in (0, 1):
        sys.exit(f"{' '.join(words)} ended with status {run.status}: {run.output.decode()}")
    return run.output.decode()


def told(text: str, name: str) -> int:
    return int(re.findall(rf"^{name} (-?\d+)$", text, re.M)[0])


def row_of(program: str, name: str, texts: tuple[str, str], folder: str, repeat: int) -> tuple[object, ...]:
    files = [os.path.join(folder, it) for it in ("c.toml", "w.sql")]
    for path, text in zip(files, texts):
        with open(path, "w", encoding="utf-8") as file:
            file.write(text)

    def called(*words: str) -> tuple[float, str]:
        whole = [program, words[0], *files, *words[1:]]
        run = run_lightest(whole, repeat)
        return 1000 * run.processor, need_advice(run, whole)

    pages = sum(map(int, re.findall(r" (\d+) pages$", called("candidates")[1], re.M)))
    step = max(pages // (2 * POINTS), 1)
    swept, text = called("sweep", str(step), str(step), str(POINTS))
    times, worse = [], 0
    for budget, cost, bound in (map(int, it) for it in POINT.findall(text)):
        time, advice = called("advise", str(budget))
        times.append(time)
        worse += cost > told(advice, "cost") or bound < told(advice, "bound")
    dearest = max(times)
    return (name, step, f"{swept:.0f}", f"{dearest:.0f}", f"{sum(times):.0f}", f"{swept / dearest:.1f}", worse)


def main() -> None:
    options = arguments("sweeps over sixteen budgets").parse_args()
    need_program(options.program)
    cases = [(f"{name}-{SEED}", shapes.texts(name, SEED)) for name in shapes.SHAPES]
    cases += [("-".join(map(str, it)), generator.texts(*it)) for it in GENERATED]
    print_row(HEADS, WIDTHS)
    rows = []
    with TemporaryDirectory() as folder:
        for name, texts in cases:
            rows.append(row_of(options.program, name, texts, folder, options.repeat))
            print_row(rows[-1], WIDTHS)
    for row in rows:
        if float(row[5]) > MOST_RATIO or row[6]:
            print(f"NOT MET: {row[0]}: {row[5]} times the dearest budget, {row[6]} points worse than advice")


main()
