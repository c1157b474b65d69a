"""`share`: one budget of pages for all databases, from the points that a run found."""
from __future__ import annotations

import argparse
import json
import os
import zlib
from dataclasses import dataclass
from typing import Any

from cophy_fleet.knapsack import Item, along, choose, cost_of, least_sum, path, price, useful
from cophy_fleet.main import say
from cophy_fleet.settings import read_fleet
from cophy_fleet.store import Answer, opened
from cophy_text import files, picture
from cophy_text.answers import Advice


@dataclass(frozen=True)
class Sweep:
    """A database's points with rising budgets, the last of which limits nothing, and the weight of its cost."""

    database: str
    weight: int
    points: tuple[Advice, ...]

    def choices(self) -> list[Item]:
        """What may be chosen: each point takes the size of its picks."""
        return useful(Item(it.size, self.weight * it.cost, at) for at, it in enumerate(self.points))

    def bounds(self) -> list[Item]:
        """What no picks undercut: with more pages than one budget and no more than the next, the bound of the next."""
        budgets = [-1, *(it.budget for it in self.points)]
        return useful(Item(budgets[at] + 1, self.weight * it.bound, at) for at, it in enumerate(self.points))


@dataclass(frozen=True)
class Shares:
    """A budget, the point that each database gets, and a cost that no picks that fit the budget undercut."""

    budget: int
    sweeps: tuple[Sweep, ...]
    chosen: tuple[Advice, ...]
    bound: int

    @property
    def size(self) -> int:
        return sum(it.size for it in self.chosen)

    @property
    def cost(self) -> int:
        return sum(sweep.weight * it.cost for sweep, it in zip(self.sweeps, self.chosen, strict=True))

    def text(self) -> str:
        """A line for each database, and the lines of the fleet."""
        lines = [f"budget {self.budget}"]
        for sweep, it in zip(self.sweeps, self.chosen, strict=True):
            lines.append(f"database {sweep.database} size {it.size} cost {it.cost} weight {sweep.weight}")
        lines += [f"size {self.size}", f"cost {self.cost}", f"bound {self.bound}", f"gap {self.cost - self.bound}"]
        return "\n".join(lines)

    def document(self) -> dict[str, Any]:
        """The same for JSON, with the picks."""
        told = {key: getattr(self, key) for key in ("budget", "size", "cost", "bound")}
        return told | {
            "databases": [
                {
                    "database": sweep.database,
                    "weight": sweep.weight,
                    "size": it.size,
                    "cost": it.cost,
                    "bound": it.bound,
                }
                | {"picks": [pick.shown() for pick in it.picks]}
                for sweep, it in zip(self.sweeps, self.chosen, strict=True)
            ]
        }


def shares(sweeps: tuple[Sweep, ...], budget: int) -> Shares:
    """The budget shared, and the fleet's bound."""
    chosen = choose([it.choices() for it in sweeps], budget)
    points = tuple(sweep.points[item.number] for sweep, item in zip(sweeps, chosen, strict=True))
    bounds = [it.bounds() for it in sweeps]
    return Shares(budget, sweeps, points, least_sum(bounds, budget, price(path(bounds), budget)))


def curve(sweeps: tuple[Sweep, ...]) -> list[tuple[int, int, int]]:
    """Pages, cost and bound of the fleet where one database after the other gets its next point."""
    way, bounds = path([it.choices() for it in sweeps]), [it.bounds() for it in sweeps]
    lower = path(bounds)
    taken = list(way.first)
    pages, cost = sum(it.pages for it in taken), cost_of(taken)
    found = [(pages, cost)]
    for _, at, item in way.steps:
        pages, cost = pages + item.pages - taken[at].pages, cost + item.cost - taken[at].cost
        taken[at] = item
        found.append((pages, cost))
    some = found[:: max(1, len(found) // 100)]
    some += [found[-1]] * (some[-1] != found[-1])
    return [(pages, cost, least_sum(bounds, pages, price(lower, pages))) for pages, cost in some]


def share_budget(words: argparse.Namespace, results: str) -> int:
    """Shares the budget of the words, and tells it as they ask."""
    files.check([words.png], [words.fleet, results])
    with opened(results, is_new=False) as store:
        answers = [(it, store.answer(it.name)) for it in read_fleet(words.fleet).databases]
    sweeps: list[Sweep] = []
    kept: list[Answer] = []
    for database, answer in answers:
        if answer is None or not answer.points:
            say(f"{database.name} gets nothing, since it has no answer")
            continue
        if answer.fault:
            say(f"{database.name}: its answer is of an earlier run, and the last one failed: {answer.fault}")
        sweeps.append(Sweep(database.name, database.weight, tuple(it.numbers for it in answer.points)))
        kept.append(answer)
    if not sweeps:
        say("there is nothing to share")
        return 1
    found = shares(tuple(sweeps), words.budget)
    print(json.dumps(found.document(), indent=2) if words.json else found.text(), flush=True)
    if words.advice:
        _write_advice(words.advice, found, kept)
    if words.png:
        try:
            picture.draw(words.png, lambda axes: _lines(axes, found))
        except picture.NoPicture as fault:
            say(str(fault))
    return 0


def _lines(axes: Any, found: Shares) -> None:
    """Draws cost and bound over pages, and the budget's own cost."""
    points = curve(found.sweeps)
    pages = [it[0] for it in points]
    axes.step(pages, [it[1] / 1000 for it in points], where="post", label="cost of the fleet")
    axes.plot(pages, [it[2] / 1000 for it in points], linestyle="--", label="bound of the fleet")
    last = min(found.budget, pages[-1])
    axes.plot([last], [found.cost / 1000], marker="o", linestyle="", label="the budget's shares")
    axes.legend()
    axes.set_xlabel("budget (pages of 8192 bytes)")
    axes.set_ylabel("weighted cost (pages read in sequence)")
    axes.set_ylim(bottom=0)


def _write_advice(folder: str, found: Shares, kept: list[Answer]) -> None:
    """Writes each database's advice and certificate, with what the latter is of where that is kept, for their owner alone to
    read."""
    os.makedirs(folder, 0o700, exist_ok=True)
    for answer, sweep, chosen in zip(kept, found.sweeps, found.chosen, strict=True):
        point = answer.points[sweep.points.index(chosen)]
        stem = os.path.join(folder, answer.database)
        contents = [(".txt", point.advice.encode()), (".cert", zlib.decompress(point.certificate))]
        if answer.kept is not None:
            contents += [
                (".toml", zlib.decompress(answer.kept.catalogue)),
                (".sql", zlib.decompress(answer.kept.workload)),
            ]
        files.write([files.File(stem + ending, content) for ending, content in contents])
