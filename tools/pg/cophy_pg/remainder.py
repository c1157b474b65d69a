"""What the picks leave: why they cost more than the bound, and from where on more space helps little."""
from __future__ import annotations

from collections.abc import Iterable

from cophy_text.answers import Advice, Candidate, counted
from cophy_text.rules import read_rule
from cophy_text.shown import space
from cophy_pg.choice import Choice
from cophy_pg.program import Program
from cophy_pg.searches import WELL_FILLED, Rules, is_about

MOST_PRICED = 50
MOST_OF_ALL = 0.9


def gap_of(program: Program, advice: Advice, choice: Choice, rules: Rules, own: list[str]) -> dict[str, str] | None:
    """Of the indexes of the certificate and those that were left out the one that saves at least half of what the picks cost
    more than the bound, with the reason why it isn't one of them; nothing where none does. `own` are the rules of `advise`
    for long values."""
    kept = [it.number for it in choice.advice.picks]
    total = program.whatif(kept).total
    reasons = {it.number: why for it, why in choice.left_out}
    others = {it.number: it for it in (*advice.picks, *(one for one, _ in choice.left_out)) if it.number not in kept}
    found = list[tuple[int, int]]()
    for number, it in [*others.items()][:MOST_PRICED]:
        reasons.setdefault(number, _why(it, rules, own))
        if reasons[number]:
            found.append((program.whatif([*kept, number]).total, number))
    least, number = min(found, default=(total, 0))
    if least >= total or 2 * (total - least) < total - advice.bound:
        return None
    return {"index": others[number].shown(), "why": reasons[number]}


def _why(pick: Candidate, rules: Rules, own: list[str]) -> str:
    """The rule that a pick was left out for, in words; nothing where there is none."""
    if _is_forbidden(pick, own):
        return "a long value in it would fail"
    return "a rule forbids it" if _is_forbidden(pick, rules.lines()) else ""


def _is_forbidden(pick: Candidate, rules: Iterable[str]) -> bool:
    return any(it is not None and it.verb == "never" and is_about(it, pick) for it in map(read_rule, rules))


def knee_of(points: list[Advice], before: int) -> str | None:
    """From where on more space helps little, by the points of a curve; nothing where there are too few."""
    least = min((it.cost for it in points), default=before)
    if len(points) < 3 or least >= before:
        return None
    size = min(it.size for it in points if before - it.cost >= MOST_OF_ALL * (before - least))
    return f"by our model {space(size)} save nine tenths of what any indexes can"


def freed(asked: int, stored: int, left_out: int) -> str | None:
    """What is said of much space that stays free where others might fill it: indexes were left out behind the search."""
    left = asked - stored
    if not left_out or left <= asked * (1 - WELL_FILLED):
        return None
    what = f"{counted(left_out, 'pick')} of the search {'was' if left_out == 1 else 'were'} left out"
    return f"{space(left)} stay free: {what}; forbid them in a file for --rules to let others in"
