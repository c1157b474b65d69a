"""Warnings of edits: lines that are none, numbers of no statement, and those that change nothing; notes of what they add."""
from __future__ import annotations

from collections.abc import Iterator
from typing import Any

from cophy_text.edits import ADVISE, Edit, edits_in
from cophy_text.tokens import tokens
from cophy_text.workloads import MOST_STATEMENTS, NoWorkload, read_statements
from cophy_lint.checks import Note, Remark, Warning, kinds_of, statement_remarks


def edits_remarks(content: bytes, document: dict[str, Any], workload: bytes | None = None) -> list[Remark]:
    """What edits of a workload say in vain, and what of the statements that they add is a guess. Without the workload, or where
    it is faulty, numbers of statements aren't looked at."""
    found, kinds = list[Remark](), kinds_of(document)
    weights = _weights(workload)
    listed = [*edits_in(content)]
    for number, _, edit in listed:
        place = f"line {number}"
        if isinstance(edit, str):
            found.append(Warning(place, f"is no edit: {edit}"))
            continue
        if edit.verb == "add":
            added = [it for it in tokens(edit.sql) if it.kind != "weight"]
            found += statement_remarks(added, kinds, place, edit.sql.decode(errors="replace"))
        if weights is not None:
            found += (Warning(place, it) for it in _step(weights, edit))
    last = max((number for number, _, it in listed if it == ADVISE), default=0)
    if not last:
        found.append(Warning("edits", "no line asks for advice, so nothing is printed"))
    elif last < len(listed):
        found.append(Warning(f"line {last + 1}", "changes nothing that is printed: no line behind it asks for advice"))
    return found


def _weights(workload: bytes | None) -> list[int] | None:
    """The weights of the statements, where they are known."""
    try:
        return [it.weight for it in read_statements(workload)] if workload is not None else None
    except NoWorkload:
        return None


def _step(weights: list[int], edit: Edit) -> Iterator[str]:
    """Takes an edit, and says what is wrong with it there."""
    if edit.verb in ("remove", "weigh") and edit.number > len(weights):
        yield f"there is no statement {edit.number} here, but {len(weights)}"
    elif edit.verb == "remove":
        weights.pop(edit.number - 1)
    elif edit.verb == "weigh":
        if weights[edit.number - 1] == edit.weight:
            yield f"statement {edit.number} has the weight {edit.weight} already"
        weights[edit.number - 1] = edit.weight
    elif edit.verb == "add" and len(weights) == MOST_STATEMENTS:
        yield f"there are {MOST_STATEMENTS} statements already"
    elif edit.verb == "add":
        weights.append(edit.weight)
