"""What became of each pick: plans take it, none does, or it isn't known."""
from __future__ import annotations

import re
from dataclasses import dataclass, field

from cophy_text.answers import Candidate, counted
from cophy_pg.explain import Statement
from cophy_pg.inputs import Input
from cophy_pg.workload import FROM

MOST_NUMBERS = 20
ORDINARY = (
    "hypopg shows no rows in another order, so the server is asked about a clustered pick as about an ordinary index"
)
"""What is said where a pick is clustered. That no plan takes an ordinary index says little of it."""
UNSHOWN = "no plan takes it as an ordinary index"


@dataclass
class Verdict:
    """A statement's estimate without and with the picks, and the picks that its plan takes; a fault says why one of both
    isn't known. `times` says how often one call runs each of its statements, by their numbers in the workload."""

    number: int
    input: Input
    times: dict[int, float]
    statement: Statement | None = None
    before: float | None = None
    after: float | None = None
    taken: list[int] = field(default_factory=list)
    fault: str = ""

    @property
    def calls(self) -> int:
        return self.input.calls

    @property
    def written(self) -> list[int]:
        """The numbers of its statements."""
        return [*self.times]

    def shown(self) -> str:
        """Its statements in the workload, and its line in the file that it comes from."""
        line = f", line {self.input.line}" if self.input.line else ""
        return numbered("statement", self.written) + line

    def saved(self) -> float:
        """What one call saves by PostgreSQL's estimate."""
        return self.before - self.after if self.before is not None and self.after is not None else 0.0


@dataclass
class Outcome:
    """A pick as `taken`, `not taken` or `unknown`, the latter with its reasons and the statements of each; `exists` is the
    index of the server that has the pick's columns in its order, `begins` one that begins with them, `key` a unique one over
    the first alone, and `stored` the pages that PostgreSQL takes for it; `superfluous` are indexes that serve nothing beside
    it, as they are written."""

    pick: Candidate
    name: str = "unknown"
    users: int = 0
    reasons: dict[str, str] = field(default_factory=dict)
    exists: str = ""
    begins: str = ""
    key: str = ""
    stored: int | None = None
    superfluous: list[str] = field(default_factory=list)

    def shown(self) -> str:
        """The outcome in a few words."""
        ordinary = ", as an ordinary index" * self.pick.is_clustered
        taken = f"taken by {counted(self.users, 'statement')}{ordinary}"
        words = {"taken": taken, "not taken": "taken by no statement"}
        text = words.get(self.name, "unknown")
        if self.exists:
            return f"{text}; it is there already, as {self.exists}"
        return f"{text}; {self.begins} begins with its columns" if self.begins else text


def outcomes(picks: list[Outcome], found: list[Verdict], texts: dict[int, str], missing: list[int]) -> None:
    """Fills the outcomes. A pick that no plan takes is unknown where a statement over its table wasn't explained, or was
    no longer found."""
    for it in picks:
        it.users = sum(it.pick.number in verdict.taken for verdict in found)
        if it.users:
            it.name = "taken"
            continue
        if it.reasons:
            continue
        names = re.compile(rf"\b{re.escape(it.pick.table)}\b", re.IGNORECASE)
        faults: dict[str, list[int]] = {}
        for verdict in found:
            if verdict.fault and any(names.search(texts.get(at, "")) for at in verdict.written):
                faults.setdefault(verdict.fault, []).extend(verdict.written)
        it.reasons = {why: numbered("statement", numbers) for why, numbers in faults.items()}
        lost = [at for at in missing if names.search(texts.get(at, ""))]
        if lost:
            it.reasons["not among the statements that are given now"] = numbered("statement", lost)
        if it.pick.is_clustered:
            it.reasons[UNSHOWN] = ""
        it.name = "unknown" if it.reasons else "not taken"


def numbered(word: str, numbers: list[int]) -> str:
    """A word before its numbers, of which the first ones are shown."""
    listed = [*dict.fromkeys(numbers)]
    more = ", .." if len(listed) > MOST_NUMBERS else ""
    return f"{word}{'s' * (len(listed) > 1)} {', '.join(map(str, listed[:MOST_NUMBERS]))}{more}"


def texts_in(workload: str) -> dict[int, str]:
    """The statements of a written workload by their numbers."""
    parts = re.split(rf"^-- {FROM} .*$", workload, flags=re.MULTILINE)[1:]
    return dict(enumerate(parts, 1))


def unmatched(forms: dict[str, dict[int, float]], found: list[Verdict]) -> list[int]:
    """The numbers of the statements whose inputs weren't found."""
    matched = {at for it in found for at in it.written}
    return sorted({at for numbers in forms.values() for at in numbers} - matched)
