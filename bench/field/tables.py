"""The results of the field as tables of Markdown."""
from __future__ import annotations

import json
import math
import statistics
from pathlib import Path
from typing import Any

SLOWER, LEAST_SLOWER = 1.1, 0.05
"""A statement is slower that takes this many times as long, and so many milliseconds more."""
OURS, MADE = "cophy", "_made"
"""Ours with all picks, and behind its name what the script makes alone."""
RIVALS = (("greedy", "real"), ("greedy", "hypopg"), ("Dexter", "real"), ("Dexter", "hypopg"), ("foreign keys", "real"))
HEADS = (
    "budget",
    "advisor, sizes",
    "cost %",
    "time %",
    "processor %",
    "indexes",
    "pages of the budget %",
    "taken by no plan %",
    "slower",
    "calls",
    "seconds",
)
WORSE = 1.05
Result = dict[str, Any]


def advisors(folder: Path) -> list[tuple[str, str]]:
    """Ours, under each name by which results were kept, and the rivals."""
    names = {it.name.rsplit("-real-", 1)[0] for it in folder.glob("*-real-*.json")}
    own = sorted(names - {it.replace(" ", "_") for it, _ in RIVALS}, key=lambda it: (it != OURS, it))
    return [*((it, "real") for it in own), *RIVALS]


def load(folder: Path, share: int | None = None, advisor: str = "", sizes: str = "") -> Result | None:
    """A measurement; without a share that without any index. Of several rounds it has the median: the least by the
    processor may be one of which the system hadn't counted all yet. What no round has timed yet has no times."""
    file = folder / ("none.json" if share is None else f"{advisor.replace(' ', '_')}-{sizes}-{share}.json")
    if not file.exists():
        return None
    found: Result = json.loads(file.read_text())
    for what in ("times", "processor"):
        found[what] = {name: statistics.median(it) for name, it in found[what].items() if it}
    return found


def weighted(found: Result, what: str) -> float:
    """The sum over all calls."""
    return float(sum(value * found["calls_of"][name] for name, value in found[what].items()))


def slower(found: Result, none: Result) -> list[str]:
    """The statements that take longer than without any index."""
    return [
        name
        for name, took in found["times"].items()
        if name in none["times"] and took > max(SLOWER * none["times"][name], none["times"][name] + LEAST_SLOWER)
    ]


def share_of(found: Result, none: Result, what: str) -> str:
    """What a measurement has of that without any index, in percent; nothing where either wasn't timed."""
    part, whole = weighted(found, what), weighted(none, what)
    return f"{100 * part / whole:.1f}" if part and whole else ""


def row(found: Result, none: Result) -> list[str]:
    """What is told of a measurement: shares in percent."""
    pages, budget = sum(found["pages"].values()), found["budget"]
    idle = sum(size for name, size in found["pages"].items() if name not in found["taken"])
    return [
        *(share_of(found, none, it) for it in ("costs", "times", "processor")),
        str(len(found["pages"])),
        f"{100 * pages / budget:.0f}",
        f"{100 * idle / budget:.1f}",
        str(len(slower(found, none))),
        str(found["calls"]),
        f"{found['seconds_to_advise']:.1f}",
    ]


def text_of(folder: Path, databases: list[str], budgets: tuple[int, ...]) -> str:
    """A table for each database, and where a larger budget measures worse."""
    lines, worse = list[str](), list[str]()
    for database in databases:
        none = load(folder / database)
        if none is None:
            continue
        lines += [
            "",
            f"**{database}**, {none['heap']} pages",
            "",
            f"| {' | '.join(HEADS)} |",
            "|" + "---|" * len(HEADS),
        ]
        for share in budgets:
            for advisor, sizes in advisors(folder / database):
                found = load(folder / database, share, advisor, sizes)
                if found is not None:
                    lines.append(f"| {share} % | {advisor}, {sizes} | {' | '.join(row(found, none))} |")
        for advisor, sizes in (it for it in advisors(folder / database) if it not in RIVALS):
            several = [(share, load(folder / database, share, advisor, sizes)) for share in budgets]
            worse += [
                f"- {database}, {advisor}, {sizes}, {it}" for it in worsened([(s, it) for s, it in several if it])
            ]
    for ours, what in ((OURS, "Ours"), (f"{OURS}{MADE}", "What the script makes")):
        if beside := compared(folder, databases, budgets, ours):
            lines += ["", f"{what} beside a rival at equal real size (the mean is the geometric one):", "", *beside]
    if worse:
        lines += [
            "",
            "Where a larger budget of ours measures worse by over 5 %, with the statements that make most of it:",
            "",
            *worse,
        ]
    return "\n".join(lines[1:]) + "\n"


def compared(folder: Path, databases: list[str], budgets: tuple[int, ...], own: str) -> list[str]:
    """At how many points ours is at or below each rival at equal real size, and the point at which it is worst."""
    lines = []
    for rival in ("greedy", "Dexter", "foreign keys"):
        for what, name in (("costs", "cost"), ("times", "time"), ("processor", "processor")):
            ratios = {}
            for database in databases:
                for share in budgets:
                    ours, theirs = (load(folder / database, share, it, "real") for it in (own, rival))
                    if ours and theirs and weighted(ours, what) and weighted(theirs, what):
                        ratios[f"{database} at {share} %"] = weighted(ours, what) / weighted(theirs, what)
            if ratios:
                good, worst = sum(it <= 1 for it in ratios.values()), max(ratios, key=lambda it: ratios[it])
                mean = math.exp(statistics.fmean(map(math.log, ratios.values())))
                counts = f"at or below at {good} of {len(ratios)} points"
                lines.append(
                    f"- {rival}, {name}: {counts}, {mean:.2f} times in the mean, at worst {ratios[worst]:.2f} ({worst})"
                )
    return lines


def worsened(found: list[tuple[int, Result]]) -> list[str]:
    """Where the workload costs or takes more than 5 % more than at the budget before."""
    lines = []
    for (small, before), (large, after) in zip(found, found[1:]):
        for what, least in (("costs", 0.0), ("times", LEAST_SLOWER), ("processor", LEAST_SLOWER)):
            if weighted(before, what) and weighted(after, what) > WORSE * weighted(before, what):
                more = {
                    name: (after[what][name] - it) * after["calls_of"][name]
                    for name, it in before[what].items()
                    if after[what][name] > it + least
                }
                most = sorted(more, key=more.__getitem__, reverse=True)[:3]
                told = "; ".join(f"{it} {before[what][it]:.2f} to {after[what][it]:.2f}" for it in most)
                change = 100 * weighted(after, what) / weighted(before, what) - 100
                lines.append(f"{small} to {large} %, {what} {change:+.0f} %: {told or 'none alone'}")
    return lines
