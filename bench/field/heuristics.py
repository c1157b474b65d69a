#!/usr/bin/python3 -IB
"""What heuristics leave on the table: Extend, DB2 Advisor's rule and AutoAdmin's greedy over the same candidates, prices and
sizes as `cophy advise`, at seven budgets: how far the cost of each is above the proved bound.

    bench/field/heuristics.py FOLDER    # of field.py, whose exports are taken; and generated workloads
"""
from __future__ import annotations

import argparse
import json
import statistics
import sys
import time
from collections.abc import Iterator
from pathlib import Path

HERE = Path(__file__).resolve().parent
ROOT = HERE.parents[1]
sys.path[:0] = [str(HERE), str(ROOT / "bench"), *(str(ROOT / "tools" / it) for it in ("pg", "common"))]

from field import BUILT  # noqa: E402
from generator import texts  # noqa: E402
from prices import Prices  # noqa: E402
from selections import SELECTIONS  # noqa: E402

SHARES = (2, 5, 10, 20, 40, 70, 100)
"""Budgets in percent of the pages of all candidates."""
GENERATED = "1-5-20 3-10-50 6-10-100 7-20-100"
OURS = "cophy"
Row = dict[str, object]


def workloads(folder: Path, generated: list[str]) -> Iterator[tuple[str, str, str]]:
    """Each workload's name, catalogue and statements: the exports of the field, then those of the generator."""
    for it in sorted(folder.glob(f"*/*/{OURS}-advice-*/catalogue.toml")):
        half, database = it.parts[-4:-2]
        if it.parent == max(it.parents[1].glob(f"{OURS}-advice-*"), key=lambda other: int(other.name.split("-")[-1])):
            yield f"{database}, {half}", str(it), str(it.with_name("workload.sql"))
    for name in generated:
        files = [folder / "generated" / f"{name}.{ending}" for ending in ("toml", "sql")]
        files[0].parent.mkdir(parents=True, exist_ok=True)
        for file, text in zip(files, texts(*map(int, name.split("-")))):
            file.write_text(text)
        yield f"generated {name}", str(files[0]), str(files[1])


def rows_of(name: str, prices: Prices) -> Iterator[Row]:
    """For each budget what each selection costs, beside the bound."""
    all_ = prices.pages(prices.candidates)
    none = prices.cost(frozenset())
    for share in SHARES:
        budget = all_ * share // 100
        began = time.monotonic()
        cost, bound = prices.advice(budget)
        row: Row = {"workload": name, "share": share, "none": none, "bound": bound, OURS: cost}
        seconds = {OURS: time.monotonic() - began}
        for selection, rule in SELECTIONS.items():
            began = time.monotonic()
            chosen = rule(prices, budget)
            seconds[selection] = time.monotonic() - began
            row[selection] = prices.cost(chosen)
            if prices.pages(chosen) > budget or prices.cost(chosen) < bound:
                raise ValueError(f"{name}, {share} %: {selection} is wrong: {sorted(chosen)}")
        yield {**row, "seconds": seconds}


def above(row: Row, name: str) -> float:
    """By how many percent of the bound a cost is above it."""
    return 100 * (float(str(row[name])) / float(str(row["bound"])) - 1)


def table(rows: list[Row]) -> str:
    """A row for each budget: the middle and the worst over all workloads; and one for each workload."""
    names = (OURS, *SELECTIONS)
    lines = [f"| Above the bound, % | {' | '.join(names)} |", "|---|" + "---|" * len(names)]
    groups = {f"budget {share} %": [it for it in rows if it["share"] == share] for share in SHARES}
    for row in rows:
        groups.setdefault(str(row["workload"]), []).append(row)
    for group, found in groups.items():
        cells = [[above(it, name) for it in found] for name in names]
        lines.append(f"| {group} | {' | '.join(f'{statistics.median(it):.2f}, {max(it):.1f}' for it in cells)} |")
    return "\n".join(lines) + "\n"


def picture(rows: list[Row], file: Path) -> None:
    """A point for each workload and budget, a line through the middle ones."""
    import matplotlib

    matplotlib.use("Agg")
    from matplotlib import pyplot

    figure, axes = pyplot.subplots(figsize=(8, 4.5), dpi=100)
    for at, (name, marker) in enumerate(zip((*SELECTIONS, OURS), "osD^")):
        middle = [statistics.median(above(it, name) for it in rows if it["share"] == share) for share in SHARES]
        places = [SHARES.index(int(str(it["share"]))) + 0.12 * (at - 1.5) for it in rows]
        axes.plot(places, [above(it, name) for it in rows], marker, color=f"C{at}", alpha=0.35, markersize=4)
        axes.plot(range(len(SHARES)), middle, color=f"C{at}", marker=marker, label=name)
    axes.set_xticks(range(len(SHARES)), [f"{it} %" for it in SHARES])
    axes.set_yscale("symlog", linthresh=1)
    axes.set_ylim(bottom=-0.1)
    axes.set_xlabel("budget, of the pages of all candidates")
    axes.set_ylabel("cost above the proved bound, %")
    axes.legend()
    figure.tight_layout()
    figure.savefig(file)


def main() -> None:
    """Compares, and writes the rows, the table and the picture into the folder."""
    parser = argparse.ArgumentParser(description=__doc__, formatter_class=argparse.RawDescriptionHelpFormatter)
    parser.add_argument("folder", type=Path, help="that of field.py")
    parser.add_argument("--generated", default=GENERATED, help="seed, tables and statements of generated workloads")
    parser.add_argument("--program", default=str(BUILT), help="the built program (default: that of this repository)")
    words = parser.parse_args()
    rows: list[Row] = []
    for name, catalogue, workload in workloads(words.folder, words.generated.split()):
        began = time.monotonic()
        prices = Prices(words.program, catalogue, workload)
        rows += rows_of(name, prices)
        took = time.monotonic() - began
        print(
            f"{name}: {len(prices.candidates)} candidates, {prices.calls} calls, {took:.0f} s",
            file=sys.stderr,
            flush=True,
        )
        (words.folder / "heuristics.json").write_text(json.dumps(rows, indent=1) + "\n")
    text = table(rows)
    (words.folder / "heuristics.md").write_text(text)
    picture(rows, words.folder / "heuristics.png")
    print(text, end="")


if __name__ == "__main__":
    main()
