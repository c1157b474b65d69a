"""`curve`: what a budget buys."""
from __future__ import annotations

import argparse
import json
import os
import re
from contextlib import suppress
from dataclasses import replace
from datetime import UTC, datetime
from typing import Any

from cophy_text import files
from cophy_text.answers import UNIT, Advice, counted
from cophy_text.shown import MOST_PAGES, percent, space
from cophy_pg.amounts import amounts, step_count, whole
from cophy_pg.curves import Point
from cophy_pg.drawing import draw
from cophy_pg.program import MOST_POINTS, NoCommand, Program, add_program
from cophy_pg.progress import Progress


def add_curve(commands: argparse._SubParsersAction[argparse.ArgumentParser]) -> None:
    """The words of `curve`."""
    parser = commands.add_parser(
        "curve",
        help="show what a budget buys",
        description="Calls cophy advise for a row of budgets, and prints budget, size, cost and bound of each; with --png it "
        "draws them. Without --budgets there are 0, the size that no budget limits, and between them those where the most is "
        "unknown: they lie where the curve bends. With --even they lie an equal step apart, and cophy sweep searches for all "
        "of them at once, where the program has that and there are at most 15 above 0.",
    )
    parser.add_argument("catalogue", metavar="CATALOGUE")
    parser.add_argument("workload", metavar="WORKLOAD")
    which = parser.add_mutually_exclusive_group()
    which.add_argument(
        "--budgets", type=amounts, metavar="B,B,..", help="budgets such as 2GB, 500MB or pages, at most 1000"
    )
    which.add_argument("--even", action="store_true", help="budgets an equal step apart")
    parser.add_argument("--steps", type=step_count, default=8, metavar="N", help="how many budgets above 0 (8)")
    parser.add_argument("--nodes", type=whole, metavar="N", help="the node budget of each search")
    parser.add_argument("--png", metavar="FILE", help="draw the curve")
    parser.add_argument("--json", action="store_true", help="print JSON instead of the table")
    add_program(parser)
    parser.set_defaults(run=curve)


class Search:
    """Advice for one budget after another."""

    def __init__(self, program: Program, nodes: int | None) -> None:
        self.program, self.nodes, self.progress = program, nodes, Progress()

    def at(self, budget: int) -> Advice:
        """The advice for a budget."""
        self.progress(f"advising for {space(budget)}" if budget < MOST_PAGES else "advising without a limit")
        return self.program.advise(budget, self.nodes)

    def along(self, steps: int) -> list[Advice]:
        """Advice for 0, for all that has a use, and for budgets between them."""
        most = self.at(MOST_PAGES)
        # What no budget limits is the advice for its own size too, and its bound holds there.
        found = [self.at(0), *([replace(most, budget=most.size)] if most.size else [])]
        while len(found) <= steps and (budget := between(found)) is not None:
            found = sorted([*found, self.at(budget)], key=lambda it: it.budget)
        return found

    def evenly(self, steps: int) -> list[Advice]:
        """Advice for 0, and for budgets an equal step apart up to all that has a use."""
        most = self.at(MOST_PAGES).size
        step = max(1, -(-most // steps))
        count = -(-most // step) + 1
        if count <= MOST_POINTS:
            self.progress(f"advising for {count} budgets at once")
            with suppress(NoCommand):
                return self.program.sweep(0, step, count, self.nodes)
        return [self.at(it * step) for it in range(count)]


def between(found: list[Advice]) -> int | None:
    """The budget in the middle of where the most is unknown, the steps between two budgets being pages times cost; nothing
    where no budget is left between them. An advice costs the same from its size on."""
    most, middle = 0, None
    for low, high in zip(found, found[1:]):
        unknown = (high.size - low.budget) * (low.cost - high.cost)
        if unknown > most and high.size - low.budget > 1:
            most, middle = unknown, (low.budget + high.size) // 2
    return middle


def curve(words: argparse.Namespace) -> int:
    """Prints the table and draws the curve."""
    files.check([words.png], [words.catalogue, words.workload])
    program = Program(words.program, words.catalogue, words.workload)
    search = Search(program, words.nodes)
    if words.budgets is not None:
        found = [search.at(it) for it in words.budgets]
    else:
        found = (search.evenly if words.even else search.along)(words.steps)
    without = next((it.cost for it in found if not it.picks), None)
    if without is None:
        without = program.whatif(()).total
    if words.json:
        print(json.dumps([as_json(it, without) for it in found], indent=2))
    else:
        print("\n".join(_table(found, without)))
    if words.png:
        points = [Point(it.budget, it.size, it.cost, it.bound, len(it.picks)) for it in found]
        draw(points, without, f"{_database(words.catalogue)}, {datetime.now(UTC):%Y-%m-%d}", words.png)
    return 0


def _saved(it: Advice, without: int) -> float:
    return 100 * (without - it.cost) / without if without else 0.0


def as_json(it: Advice, without: int) -> dict[str, Any]:
    """A point, as `--json` has it."""
    keys = ("budget", "size", "cost", "bound", "gap", "is_finished")
    picks = {"picks": [pick.shown() for pick in it.picks]}
    return {key: getattr(it, key) for key in keys} | {"saved": round(_saved(it, without), 4)} | picks


def _table(found: list[Advice], without: int) -> list[str]:
    head = f"{'budget':>15} {'':>12} {'size':>15} {'picks':>6} {'cost':>24} {'saved':>8} {'bound':>24} {'gap':>8}"
    return [head, *(_row(it, without) for it in found), UNIT]


def _row(it: Advice, without: int) -> str:
    gap = f"{100 * it.gap / it.cost:.2f} %" if it.cost else "0.00 %"
    size = f"{it.budget:15,d} {space(it.budget):>12} {it.size:15,d} {len(it.picks):6d}"
    return f"{size} {it.cost:24,d} {percent(_saved(it, without)):>8} {it.bound:24,d} {gap:>8}"


def _database(catalogue: str) -> str:
    """The database that a catalogue was exported from, or else the name of its file."""
    found = re.match(rb"# The database '([ -~]+)', exported by cophy-pg\.\n", files.read(catalogue))
    return found[1].decode() if found else files.shown(os.path.basename(catalogue))
