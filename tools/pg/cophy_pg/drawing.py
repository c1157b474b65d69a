"""The curve as a picture in PNG."""
from __future__ import annotations

from typing import Any

from cophy_text import picture
from cophy_text.answers import PAGE
from cophy_pg.curves import Point, bound_steps, cost_steps
from cophy_pg.progress import say

DIGIT, LINE = 0.013, 0.035
"""How wide a digit and how high a line is, as a share of the picture, with the space beside it."""


def draw(points: list[Point], without: int, title: str, file: str) -> None:
    """Draws cost and bound over the budget; `without` is the workload's cost without any pick."""
    last = max(1, *(it.budget for it in points))
    unit, name = (2**30, "GB") if last * PAGE >= 10 * 2**30 else (2**20, "MB")

    def lines(axes: Any) -> None:
        axes.set_title(title.replace("$", r"\$"))
        _lines(axes, points, PAGE / unit, last)
        _scales(axes, without, PAGE / unit, name)
        # Within the axes it might hide a number.
        axes.legend(loc="upper center", bbox_to_anchor=(0.5, -0.13), ncol=2, frameon=False)

    try:
        picture.draw(file, lines)
    except picture.NoPicture as fault:
        say(str(fault))


def _lines(axes: Any, points: list[Point], unit: float, last: int) -> None:
    """Both lines, each as far as it is known, and the number of indexes at each corner of the cost."""
    costs, bounds = cost_steps(points), bound_steps(points)
    across, up = [it.pages * unit for it in costs], [it.cost / 1000 for it in costs]
    line = axes.step([*across, last * unit], [*up, up[-1]], where="post", label="cost, and how many indexes")[0]
    axes.plot(across, up, "o", color=line.get_color(), markersize=4)
    across_bounds, bounds_up = [it.pages * unit for it in bounds], [it.cost / 1000 for it in bounds]
    axes.step([0, *across_bounds], [bounds_up[0], *bounds_up], where="pre", linestyle="--", label="bound")
    # Beyond the last budget there is room for the number of indexes there.
    axes.set_xlim(-0.02 * last * unit, 1.05 * last * unit)
    axes.set_ylim(bottom=0, top=1.08 * max(*up, *bounds_up, 0.001))
    height = axes.get_ylim()[1]
    end, base = -1.0, 0.0
    for x, y, it in zip(across, up, costs):
        place = (x / (last * unit), y / height)
        # A number that would stand on the one before it is left out.
        if place[0] >= end or base - place[1] >= LINE:
            axes.annotate(str(it.picks), (x, y), xytext=(4, 4), textcoords="offset points", fontsize=9)
            end, base = place[0] + DIGIT * len(str(it.picks)), place[1]


def _scales(axes: Any, without: int, unit: float, name: str) -> None:
    """Space in MB or GB and above it in pages, cost at the left and percent saved at the right."""
    from matplotlib.ticker import FuncFormatter, PercentFormatter

    def plain(value: float, _: object) -> str:
        return f"{value:,.10g}" if abs(value) < 10 else f"{value:,.0f}"

    axes.set_xlabel(f"budget ({name})")
    axes.set_ylabel("cost of the workload (pages read in sequence)")
    pages = axes.secondary_xaxis("top", functions=(lambda it: it / unit, lambda it: it * unit))
    pages.set_xlabel("pages of 8192 bytes")
    listed = [axes.xaxis, axes.yaxis, pages.xaxis]
    if without > 0:
        whole = without / 1000
        saved = axes.secondary_yaxis(
            "right", functions=(lambda it: 100 - 100 * it / whole, lambda it: whole - whole * it / 100)
        )
        saved.set_ylabel("saved by our model")
        saved.yaxis.set_major_formatter(PercentFormatter(decimals=0))
    for it in listed:
        it.set_major_formatter(FuncFormatter(plain))
