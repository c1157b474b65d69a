"""The server's plans with what the script makes unless it is told otherwise: the recommended picks, and the hints that it
makes. Only statements are asked about whose plans with all picks these may differ from."""
from __future__ import annotations

from collections.abc import Collection, Iterable, Sequence
from dataclasses import replace
from typing import Any

from pglast import ast

from cophy_text.answers import Advice
from cophy_pg.expression_hints import ExpressionIndex
from cophy_pg.outcomes import Verdict
from cophy_pg.picks import home_of, hypothetical_by, index_names, make
from cophy_pg.plans import Plans, Shown, each_plan
from cophy_pg.progress import Progress
from cophy_pg.rewrite.expressions import nodes_of
from cophy_pg.schema import Schema
from cophy_pg.server import Server, ServerFault, reading
from cophy_pg.verify import explainer_of
from cophy_pg.walks import walked_in


def differing(
    plans: Plans, found: Iterable[Verdict], unadvised: Collection[int], hints: Sequence[ExpressionIndex]
) -> list[Verdict]:
    """The explained statements whose plan with all picks takes one that isn't recommended, or that may take a hint."""
    names = {name for name, number in plans.made.items() if number in unadvised}
    return [
        it
        for it in found
        if it.before is not None
        and it.after is not None
        and it.statement is not None
        and not it.statement.is_empty
        and (
            names & index_names(plans.after.get(it.number, {}))
            or not {*it.taken}.isdisjoint(unadvised)
            or any(_may_take(it, hint) for hint in hints)
        )
    ]


def _may_take(verdict: Verdict, hint: ExpressionIndex) -> bool:
    """Whether a statement reads the hint's table and calls its function."""
    statement = verdict.statement
    if statement is None or hint.table.oid not in statement.tables():
        return False
    calls = (it for it in nodes_of(statement.tree) if isinstance(it, ast.FuncCall))
    return any(it.funcname[-1].sval == hint.function for it in calls)


def plans_by_default(
    server: Server,
    schema: Schema,
    advice: Advice,
    hints: Sequence[ExpressionIndex],
    found: Iterable[Verdict],
    is_trusted: bool,
    progress: Progress,
) -> dict[int, Shown]:
    """The plans of statements with picks and hints alone, by the numbers of their verdicts. A pick that a plan would only
    walk along is taken for not there."""
    again = [Verdict(it.number, it.input, it.times, before=it.before) for it in found]
    found_plans: dict[int, Shown] = {}
    waiting: dict[frozenset[int], list[Verdict]] = {frozenset(): again}
    with reading(server, "READ COMMITTED"):
        explainer, _ = explainer_of(server, again, is_trusted)
        while waiting:
            walked, listed = waiting.popitem()
            others = replace(advice, picks=[it for it in advice.picks if it.number not in walked])
            made, shown = _made(server, schema, others, hints)
            plans = each_plan(explainer, listed, progress)
            for it in listed:
                if (plan := plans.get(it.number)) is None:
                    raise ServerFault(f"{it.shown()} isn't explained any more")
                if more := {made[name] for name in walked_in(plan) if name in made}:
                    waiting.setdefault(walked | more, []).append(it)
                else:
                    names = sorted(index_names(plan) & {*shown})
                    found_plans[it.number] = Shown(plan, {name: shown[name] for name in names})
    return found_plans


def _made(
    server: Server, schema: Schema, advice: Advice, hints: Sequence[ExpressionIndex]
) -> tuple[dict[str, int], dict[str, str]]:
    """Makes picks and hints as hypothetical indexes: the numbers of the picks by the names in plans, and what the names
    of all stand for."""
    _, made = make(server, schema, advice)
    texts = {it.number: it.shown() for it in advice.picks}
    shown = {name: texts[number] for name, number in made.items()}
    home = home_of(server, is_cleared=False)
    return made, shown | {hypothetical_by(server, home, it.statement()): it.pick().shown() for it in hints}
