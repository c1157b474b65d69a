"""Turns INSERT, UPDATE and DELETE into statements of the grammar."""
from __future__ import annotations

from typing import TYPE_CHECKING, Any

from pglast import ast

from cophy_pg.rewrite.block import Block, Test, select_text, source_text, where_text
from cophy_pg.rewrite.conditions import Conditions
from cophy_pg.rewrite.finish import only
from cophy_pg.rewrite.queries import Skip
from cophy_pg.rewrite.scope import Scope
from cophy_pg.rewrite.terms import ANY, Call, Printer, Rows, Slot, Term, Value, columns, is_value, mixed
from cophy_pg.schema import Table, quoted

if TYPE_CHECKING:
    from cophy_pg.rewrite.rewriter import Rewriter

LONG_ROWS = 20
MOST_ROWS = 1000
LEAST = 0.001
INSERT_SHARE = 0.25
"""So much of what the model charges for an INSERT's upkeep was measured."""


class Writes:
    """The part of the rewriter that reads statements which change rows."""

    def __init__(self, rewriter: Rewriter) -> None:
        self.rewriter = rewriter

    def note(self, change: str) -> None:
        self.rewriter.note(change)

    def _target(self, node: Any, scope: Scope) -> tuple[Block, Slot]:
        block = scope.block
        assert block is not None
        self.rewriter.queries.from_clause((node.relation,), block, scope)
        if len(block.slots) != 1 or scope.entries[0].slot is None:
            raise Skip("it writes to a view")
        return block, block.slots[0]

    def insert(self, node: Any, outer: Scope | None) -> None:
        """INSERT of rows, or of what a query gives."""
        scope = Scope(Block(), outer)
        self.rewriter.queries.with_clause(node.withClause, scope)
        table = self._target(node, scope)[1].table
        if node.onConflictClause is not None:
            self.note("on conflict")
        if node.returningList:
            self.note("returning")
        listed = [it.name for it in node.cols or () if it.name in table.columns]
        rows, times = self._rows(node.selectStmt, scope)
        if len(listed) != len(node.cols or ()) or any(len(it) != len(listed) for it in rows if listed):
            listed, rows = [], [["?"] for _ in rows]
        if len(rows) > LONG_ROWS:
            listed, rows = [], [["?"] for _ in rows]
        self._add_insert(table, listed, rows, times)

    def copy(self, node: Any) -> None:
        """COPY into a table, which is an INSERT of as many rows as it wrote."""
        table = self._target(node, Scope(Block()))[1].table
        rows, times = self.written()
        self._add_insert(table, [], [["?"]] * rows, times)

    def _add_insert(self, table: Table, listed: list[str], rows: list[list[str]], times: float) -> None:
        names = ", ".join(quoted(table.columns[it].shown) for it in listed)
        shown = ", ".join(f"({', '.join(it)})" for it in rows)
        if self.rewriter.options.insert_share:
            self.note("insert share")
            times *= INSERT_SHARE
        text = f"INSERT INTO {quoted(table.shown)}{f' ({names})' if names else ''}\nVALUES {shown}"
        self.rewriter.add(text, times=times)

    def _rows(self, node: Any, scope: Scope) -> tuple[list[list[str]], float]:
        """The rows of an INSERT, and how often one call inserts as many."""
        if node is None:
            self.note("default")
            return [["?"]], 1.0
        if node.valuesLists:
            return [[self._value(it, scope) for it in row] for row in node.valuesLists], 1.0
        self.note("insert select")
        if node.fromClause or node.larg:
            self.rewriter.queries.select(node, scope, scope.common)
        rows, times = self.written()
        return [["?"]] * rows, times

    def written(self) -> tuple[int, float]:
        """As many rows as an INSERT may have, and how often one call wrote them."""
        rows = self.rewriter.rows
        if rows is None:
            return 1, 1.0
        count = min(MOST_ROWS, max(1, round(rows)))
        return count, max(rows, LEAST) / count

    def _value(self, node: Any, scope: Scope) -> str:
        term = self.rewriter.expressions.term(node, Scope(None, scope))
        return term.text if isinstance(term, Value) else "?"

    def rows_of_call(self, otherwise: int) -> int:
        """How many rows one call changed, from 1 to 1000; the other number where that isn't known."""
        rows = self.rewriter.rows
        return min(MOST_ROWS, max(1, round(rows))) if rows is not None else otherwise

    def update(self, node: Any, outer: Scope | None) -> None:
        """UPDATE, whose join with other sources is a statement of its own."""
        scope = Scope(Block(), outer)
        self.rewriter.queries.with_clause(node.withClause, scope)
        block, slot = self._target(node, scope)
        self.rewriter.queries.from_clause(node.fromClause, block, scope)
        self._where(node, block, scope)
        sets: list[tuple[str, Term]] = []
        for it in node.targetList:
            term = self.rewriter.expressions.term(it.val, scope)
            if it.name in slot.table.columns and it.name not in dict(sets):
                sets.append((it.name, term))
        if not sets:
            raise Skip("it sets no column of the catalogue")
        block.items = [Call("count", (), star=True), *(it for _, it in sets if not is_value(it))]
        block.rows = self.rewriter.rows_of(node)
        alone = self._alone(block, slot)
        printer = Printer(alone.slots)
        alone.items = [it for _, it in sets]
        texts = (f"{quoted(slot.table.columns[name].shown)} = {self._side(it, slot, printer)}" for name, it in sets)
        lines = [f"UPDATE {source_text(slot)}", "SET " + ", ".join(texts), *where_text(alone, printer)]
        self.rewriter.add("\n".join(lines))

    def _side(self, term: Term, slot: Slot, printer: Printer) -> str:
        """The right side of an assignment, as far as it speaks of the target."""
        found = [*columns(term)]
        if all(it.slot is slot for it in found):
            return printer.term(term)
        ours = only(found, slot)
        return printer.term(mixed(*ours)) if ours else "?"

    def delete(self, node: Any, outer: Scope | None) -> None:
        """DELETE, whose join with other sources is a statement of its own."""
        scope = Scope(Block(), outer)
        self.rewriter.queries.with_clause(node.withClause, scope)
        block, slot = self._target(node, scope)
        self.rewriter.queries.from_clause(node.usingClause, block, scope)
        self._where(node, block, scope)
        block.items = [Call("count", (), star=True)]
        block.rows = self.rewriter.rows_of(node)
        alone = self._alone(block, slot)
        if self.rewriter.options.deletes and self.rewriter.schema.is_never_covered(slot.table):
            self.note("delete")
            alone.items = [Rows(slot)]
            self.rewriter.add(select_text(alone))
            return
        lines = [f"DELETE FROM {source_text(slot)}", *where_text(alone, Printer(alone.slots))]
        self.rewriter.add("\n".join(lines))

    def _where(self, node: Any, block: Block, scope: Scope) -> None:
        if isinstance(node.whereClause, ast.CurrentOfExpr):
            raise Skip("it changes the row of a cursor")
        Conditions(self.rewriter, block).add(node.whereClause, scope)
        if node.returningList:
            self.note("returning")

    def _alone(self, block: Block, slot: Slot) -> Block:
        """The target with its own conditions; where it is joined, the join is written as a statement of its own."""
        self.rewriter.weigh_inner(block)
        if len(block.slots) == 1:
            self.rewriter.bound(block)
            return block
        self.note("update from")
        ties = [it for it in block.ties() if slot in (it.left.slot, it.right.slot)]
        tied = [col for it in ties for col in only(it.columns(), slot)]
        alone = block.part([slot])
        alone.group, alone.having, alone.order = None, [], []
        self.rewriter.finish(block)
        self.rewriter.bound(alone)
        tied = [it for it in tied if not it.column.no_key]
        if tied and not any(isinstance(it, Test) and it.form in ("=", "IN") for it in alone.conditions):
            alone.conditions.append(Test(tied[0], "IN", (ANY,) * self.rows_of_call(10)))
        return alone
