"""Which picks of an advice stay: those that plans take, that can be made, that save enough, and not too many a table."""
from __future__ import annotations

from collections.abc import Callable
from dataclasses import dataclass, field, replace

from cophy_text.answers import Advice, Candidate, Prices
from cophy_pg.ddl import why_not
from cophy_pg.outcomes import Outcome
from cophy_pg.program import Program
from cophy_pg.progress import Progress
from cophy_pg.schema import Schema
from cophy_pg.why import Reason, reasons
from cophy_pg.worth import Worth

UNTAKEN = "no plan of the server takes it"
ASKED = "asked for"
"""What each reason of a limit says."""


@dataclass(frozen=True)
class Limits:
    """The least share of the workload's cost that a pick has to save, in percent, and how many picks a table may have."""

    min_saving: float = 0.0
    most_per_table: int | None = None

    def are_given(self) -> bool:
        """Whether there is any limit."""
        return self.min_saving > 0 or self.most_per_table is not None


@dataclass
class Choice:
    """The picks that stay, those that were left out, each with the reason, those of them that no plan takes, and the rules that
    all were found under."""

    advice: Advice
    left_out: list[tuple[Candidate, str]] = field(default_factory=list)
    untaken: list[Candidate] = field(default_factory=list)
    rules: str = ""

    def drop(self, pick: Candidate, why: str) -> None:
        """Leaves a pick out."""
        self.left_out.append((pick, why))
        picks = [it for it in self.advice.picks if it.number != pick.number]
        self.advice = replace(self.advice, picks=picks, size=sum(it.pages for it in picks))


def drop_by_server(
    choice: Choice, schema: Schema, outcomes: list[Outcome], asks_for: Callable[[Candidate], bool]
) -> bool:
    """Leaves out what the server takes in no plan, unless it is asked for, has already, or can't make; whether anything was."""
    before = len(choice.left_out)
    for it in outcomes:
        if why := why_not(schema, it.pick):
            choice.drop(it.pick, f"PostgreSQL can't make it: {why}")
        elif it.exists:
            choice.drop(it.pick, f"it is there already, as {it.exists}")
        elif it.name == "not taken" and not asks_for(it.pick):
            choice.untaken.append(it.pick)
            choice.drop(it.pick, UNTAKEN)
    return len(choice.left_out) > before


def drop_by_limits(
    choice: Choice,
    program: Program,
    limits: Limits,
    progress: Progress,
    asks_for: Callable[[Candidate], bool],
    worth: Callable[[Reason, tuple[Prices, Prices]], Worth],
) -> bool:
    """Leaves out the picks beyond a limit, unless they are asked for, of each table the one that saves the least, since the
    others may save more without it; whether any was. What the server saves is asked for where our model saves too little.
    """
    before = len(choice.left_out)
    if limits.are_given() and choice.advice.picks:
        none, all_, found = reasons(program, choice.advice, progress)
        tables: set[str] = set()
        for it in sorted(found, key=lambda it: it.total_without):
            if it.pick.table in tables or asks_for(it.pick):
                continue
            why = _saves_less(limits, it, (none, all_), worth) or _is_one_of_many(limits, it, found)
            if why:
                tables.add(it.pick.table)
                choice.drop(it.pick, why)
    return len(choice.left_out) > before


def _saves_less(
    limits: Limits,
    reason: Reason,
    prices: tuple[Prices, Prices],
    worth: Callable[[Reason, tuple[Prices, Prices]], Worth],
) -> str:
    """In words, that a pick saves less than is asked for, by our model, by the server and of the measured time; nothing where
    it saves as much by one of them."""
    none, all_ = prices
    if not limits.min_saving or 100 * (reason.total_without - all_.total) >= limits.min_saving * none.total:
        return ""
    found = worth(reason, prices)
    return f"it saves {found.shown()}; {limits.min_saving:g} % are {ASKED}" if found.most() < limits.min_saving else ""


def _is_one_of_many(limits: Limits, reason: Reason, found: list[Reason]) -> str:
    """In words, that a table has more picks than are asked for."""
    most = limits.most_per_table
    if most is None or sum(it.pick.table == reason.pick.table for it in found) <= most:
        return ""
    return f"others of its table save more, and {most} a table are {ASKED} at most"
