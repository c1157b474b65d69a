"""What became of the statements, as a text that holds no literal of the database."""
from __future__ import annotations

from collections.abc import Iterable

from cophy_text.answers import counted
from cophy_text.shown import grouped, short
from cophy_pg.outcomes import numbered
from cophy_pg.rewrite import CHANGES
from cophy_pg.rewrite.parse import without_literals
from cophy_pg.workload import Record, Workload

MOST_LINES = 20
EFFECTS = {
    "same": "the model has no notion that tells both forms apart",
    "near": "the model would price the forms differently",
    "less": "a part of the work isn't priced",
}


class Shares:
    """Shares of all inputs, of their calls and of their time."""

    def __init__(self, records: list[Record]) -> None:
        self.count = max(1, len(records))
        self.calls = max(1, sum(it.input.calls for it in records))
        self.seconds = sum(it.input.seconds or 0.0 for it in records)

    def of(self, records: Iterable[Record]) -> str:
        """The number of the records, and their shares."""
        listed = list(records)
        calls = 100 * sum(it.input.calls for it in listed) / self.calls
        text = f"{len(listed):6d} {100 * len(listed) / self.count:6.1f} % {calls:6.1f} % of calls"
        if self.seconds > 0:
            text += f" {100 * sum(it.input.seconds or 0.0 for it in listed) / self.seconds:6.1f} % of time"
        return text


def summary(workload: Workload) -> list[str]:
    """How many inputs were kept, changed and skipped, and by which changes."""
    shares, records = Shares(workload.records), workload.records
    lines = [f"{counted(len(records), 'statement')}, written as {len(workload.statements)}"]
    for outcome in ("kept", "changed", "skipped"):
        lines.append(f"  {outcome:8s} {shares.of(it for it in records if it.found.outcome == outcome)}")
    if workload.divisor > 1:
        lines.append(f"calls were divided by {workload.divisor:.1f}, so that no weight is over 1000000")
    counts = {name: [it for it in records if name in it.found.changes] for name in CHANGES}
    shown = sorted((it for it in counts if counts[it]), key=lambda it: (-len(counts[it]), it))
    if shown:
        lines.append(
            "changes (accepted isn't equal: " + "; ".join(f"{it}: {text}" for it, text in EFFECTS.items()) + ")"
        )
    for name in shown:
        lines.append(f"  {CHANGES[name].effect}  {shares.of(counts[name])}  {name}: {CHANGES[name].shown()}")
    return [*lines, *_skipped(shares, records), *workload.remarks]


def _skipped(shares: Shares, records: list[Record]) -> list[str]:
    """The reasons why inputs were skipped, with the lines of a file's."""
    reasons: dict[str, list[Record]] = {}
    for it in records:
        if it.found.skipped:
            reasons.setdefault(it.found.skipped.split(", at character ")[0], []).append(it)
    lines = ["skipped"] if reasons else []
    for why, listed in sorted(reasons.items(), key=lambda it: (-len(it[1]), it[0])):
        numbers = [str(it.input.line) for it in listed if it.input.line]
        more = ", .." if len(numbers) > MOST_LINES else ""
        where = f" (line {', '.join(numbers[:MOST_LINES])}{more})" if numbers else ""
        lines.append(f"        {shares.of(listed)}  {why}{where}")
    return lines


def each(workload: Workload) -> list[str]:
    """A line for each input, by its statements in the workload."""
    return ["each statement, in the order of the input, ? for its literals", *map(_line, workload.records)]


def _line(record: Record) -> str:
    given, found = record.input, record.found
    line = f"line {given.line}, " if given.line else ""
    seconds = f", {given.seconds:,.3f} s" if given.seconds is not None else ""
    name = numbered("statement", record.numbers) + " " if record.numbers else ""
    why = found.skipped or ", ".join(found.changes)
    what = "; ".join(it for it in (why, short(without_literals(given.text))) if it)
    return f"  {name}{found.outcome} ({line}calls {grouped(given.calls)}{seconds}): {what}"
