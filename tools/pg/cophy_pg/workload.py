"""Rewrites inputs and puts the statements together into a workload, with a record of each input."""
from __future__ import annotations

import re
from collections.abc import Callable
from dataclasses import dataclass, field, replace
from typing import TYPE_CHECKING

from pglast import ast
from pglast.parser import ParseError

from cophy_text.workloads import MOST_BYTES, MOST_STATEMENTS, MOST_WEIGHT
from cophy_pg.inputs import Input
from cophy_pg.rewrite import Rewriter, Rewritten
from cophy_pg.rewrite.expressions import nodes_of
from cophy_pg.rewrite.parse import fingerprint_of, parsed

if TYPE_CHECKING:
    from cophy_pg.folding import Folding

FROM, TIMES = "from", "*"
_NUMBER = re.compile(r"[0-9]{1,20}(\.[0-9]{1,20})?(e[-+]?[0-9]{1,2})?")
MOST_SLOTS = 2000


@dataclass
class Record:
    """An input with what became of it; `numbers` are those of its statements in the workload, from 1."""

    input: Input
    found: Rewritten
    numbers: list[int] = field(default_factory=list)


@dataclass
class Workload:
    """The statements with their weights, the record of each input in its order, and what there is to say of all."""

    records: list[Record]
    statements: list[tuple[str, int]]
    divisor: float = 1.0
    remarks: list[str] = field(default_factory=list)

    def times(self, record: Record) -> dict[int, float]:
        """How often one call of an input runs each of its statements, by their numbers."""
        return {at: record.found.times.get(self.statements[at - 1][0], 1.0) for at in record.numbers}

    def text(self) -> str:
        """The workload as a file. Before each statement stand the fingerprints of the inputs that it comes from, each with how
        often one call runs it, where that isn't once."""
        forms: dict[int, list[str]] = {}
        for record in self.records:
            for number, times in self.times(record).items():
                form = form_of(record.input.text)
                forms.setdefault(number, []).append(form if times == 1 else f"{form}{TIMES}{times:.6g}")
        return "\n".join(
            f"-- {FROM} {' '.join(dict.fromkeys(forms[number]))}\n-- weight {weight}\n{text};\n"
            for number, (text, weight) in enumerate(self.statements, 1)
        )

    def reorder(self, order: list[int]) -> None:
        """Puts the statements in another order, which has the places from 0 on that they had."""
        self.statements = [self.statements[at] for at in order]
        numbers = {at + 1: number for number, at in enumerate(order, 1)}
        for it in self.records:
            it.numbers = [numbers[number] for number in it.numbers]


def text_of(statements: list[tuple[str, int]]) -> str:
    """Statements with their weights, without more."""
    return "".join(f"-- weight {weight}\n{text};\n" for text, weight in statements)


def form_of(text: str) -> str:
    """PostgreSQL's fingerprint of a statement, which its literals don't change."""
    try:
        return fingerprint_of(text)
    except (ParseError, RecursionError, ValueError):
        return "none"


def forms_in(text: str) -> dict[str, dict[int, float]]:
    """The numbers of the statements in a written workload that come from the input of each fingerprint, with how often one
    call runs each."""
    found: dict[str, dict[int, float]] = {}
    for number, line in enumerate((it for it in text.splitlines() if it.startswith(f"-- {FROM} ")), 1):
        for word in line.removeprefix(f"-- {FROM} ").split():
            form, _, times = word.partition(TIMES)
            found.setdefault(form, {})[number] = float(times) if _NUMBER.fullmatch(times) else 1.0
    return found


def mentioned(inputs: list[Input]) -> tuple[set[str], set[str]]:
    """The names of all tables and of all columns that the inputs mention."""
    tables: set[str] = set()
    words: set[str] = set()
    for it in inputs:
        try:
            nodes = list(nodes_of(parsed(it.text)))
        except (ParseError, RecursionError, ValueError):
            continue
        for node in nodes:
            if isinstance(node, ast.RangeVar):
                tables.add(node.relname)
            elif isinstance(node, ast.ColumnRef) and isinstance(node.fields[-1], ast.String):
                words.add(node.fields[-1].sval)
    return tables, words


def made(
    inputs: list[Input], rewriter: Rewriter, progress: Callable[[str], None], folding: Folding | None = None
) -> Workload:
    """Rewrites each input; statements that come out the same are taken together, and where there are more than a workload may
    have, those that cost the same too."""
    records = []
    for number, it in enumerate(inputs, 1):
        records.append(Record(it, rewriter.rewrite(it.text, it.rows, it.path)))
        if number % 100 == 0:
            progress(f"rewriting statement {number} of {len(inputs)}")
    by_worth = sorted(records, key=lambda it: (-(it.input.seconds or 0.0), -it.input.calls))
    remarks = _folded(by_worth, folding) if folding is not None else []
    calls = _within_limits(by_worth)
    most = max(calls.values(), default=1)
    workload = Workload(records, [], max(1.0, most / MOST_WEIGHT), remarks)
    numbers: dict[str, int] = {}
    for record in records:
        for text in record.found.statements:
            if text in calls and text not in numbers:
                numbers[text] = len(numbers) + 1
                workload.statements.append((text, max(1, round(calls[text] / workload.divisor))))
        record.numbers = [numbers[it] for it in record.found.statements if it in numbers]
    return workload


def _folded(records: list[Record], folding: Folding) -> list[str]:
    """Puts statements into the place of those that they stand for, where not all are within the limits; what there is to say
    of that."""
    texts: dict[str, int] = {}
    for record in records:
        for it in record.found.statements:
            texts.setdefault(it, record.found.slots.get(it, 1))
    size = sum(len(it.encode(errors="replace")) + 40 for it in texts)
    if len(texts) <= MOST_STATEMENTS and sum(texts.values()) <= MOST_SLOTS and size <= MOST_BYTES:
        return []
    stands = folding.of(texts)
    for record in records:
        record.found = _in_place(record.found, stands)
    return [folding.remark]


def _in_place(found: Rewritten, stands: dict[str, str]) -> Rewritten:
    times: dict[str, float] = {}
    for it in found.statements:
        first = stands.get(it, it)
        times[first] = times.get(first, 0.0) + found.times.get(it, 1.0)
    slots = {stands.get(it, it): count for it, count in found.slots.items()}
    return replace(found, statements=[*times], slots=slots, times=times)


def _within_limits(records: list[Record]) -> dict[str, float]:
    """The calls of each statement that is kept. What is beyond a limit is skipped, input by input."""
    calls: dict[str, float] = {}
    slots = size = 0
    for record in records:
        new = [it for it in record.found.statements if it not in calls]
        more = sum(record.found.slots.get(it, 1) for it in new)
        length = sum(len(it.encode()) + 40 for it in new)
        if len(calls) + len(new) > MOST_STATEMENTS or slots + more > MOST_SLOTS or size + length > MOST_BYTES:
            record.found = Rewritten(
                skipped=f"beyond {MOST_STATEMENTS} statements or {MOST_SLOTS} sources: others cost more"
            )
            continue
        slots, size = slots + more, size + length
        for it in record.found.statements:
            calls[it] = calls.get(it, 0) + record.input.calls * record.found.times.get(it, 1.0)
    return calls
