"""A plan as EXPLAIN writes it, with picks by their columns in place of the names of hypothetical indexes."""
from __future__ import annotations

from collections.abc import Iterator
from typing import Any

_CONDITIONS = (
    "Index Cond",
    "Recheck Cond",
    "Hash Cond",
    "Merge Cond",
    "Join Filter",
    "Filter",
    "TID Cond",
    "Sort Key",
    "Presorted Key",
    "Group Key",
    "Cache Key",
)


def plan_text(plan: dict[str, Any], shown: dict[str, str]) -> str:
    """The lines of a plan."""
    return "\n".join(_lines(plan, shown, 0))


def _lines(plan: dict[str, Any], shown: dict[str, str], depth: int) -> Iterator[str]:
    indent = "  " * depth
    numbers = f"cost={plan['Startup Cost']:,.2f}..{plan['Total Cost']:,.2f} rows={plan['Plan Rows']:,}"
    yield f"{indent}{'-> ' if depth else ''}{_head(plan, shown)}  ({numbers})"
    for name in _CONDITIONS:
        if name in plan:
            value = plan[name]
            yield f"{indent}{'   ' if depth else ''}  {name}: {', '.join(value) if isinstance(value, list) else value}"
    for part in plan.get("Plans", ()):
        yield from _lines(part, shown, depth + 1)


def _head(plan: dict[str, Any], shown: dict[str, str]) -> str:
    """The operator with its index and its table."""
    kind = str(plan["Node Type"])
    if plan.get("Scan Direction") == "Backward":
        kind += " Backward"
    if plan.get("Join Type", "Inner") != "Inner":
        kind += f" {plan['Join Type']}"
    if plan.get("Strategy", "Plain") not in ("Plain", "Sorted"):
        kind += f" ({plan['Strategy']})"
    index = plan.get("Index Name")
    if index is not None:
        kind += f" using {f'the new index {shown[index]}' if index in shown else index}"
    table = plan.get("Relation Name") or plan.get("CTE Name") or plan.get("Function Name")
    if table is not None:
        kind += f" on {table}" + (f" {plan['Alias']}" if plan.get("Alias", table) != table else "")
    if "Subplan Name" in plan:
        kind = f"{plan['Subplan Name']}: {kind}"
    return kind
