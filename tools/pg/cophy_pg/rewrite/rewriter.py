"""Rewrites one statement after another."""
from __future__ import annotations

from collections.abc import Iterable
from dataclasses import dataclass, field
from typing import Any

from pglast import ast
from pglast.parser import ParseError

from cophy_pg.rewrite import finish
from cophy_pg.rewrite.block import Block, Tie, select_text
from cophy_pg.rewrite.conditions import Conditions
from cophy_pg.rewrite.expressions import Expressions, named_tables
from cophy_pg.rewrite.options import Options
from cophy_pg.rewrite.parse import parsed
from cophy_pg.rewrite.rows import block_rows, hold_items, hold_limit, hold_rows
from cophy_pg.rewrite.queries import Queries, Skip, copied, is_simple
from cophy_pg.rewrite.scope import NoSuchColumn, Scope
from cophy_pg.rewrite.terms import Col, Rows, columns
from cophy_pg.rewrite.writes import Writes
from cophy_pg.schema import Schema

INNER = {ast.DeclareCursorStmt: "query", ast.PrepareStmt: "query", ast.CreateTableAsStmt: "query"}
WORDS = {
    ast.TransactionStmt: "a command of transactions",
    ast.VariableSetStmt: "SET",
    ast.VariableShowStmt: "SHOW",
    ast.ExplainStmt: "EXPLAIN",
    ast.VacuumStmt: "VACUUM or ANALYZE",
    ast.CallStmt: "CALL",
    ast.FetchStmt: "FETCH of a cursor",
    ast.ClosePortalStmt: "CLOSE",
    ast.ExecuteStmt: "EXECUTE",
    ast.DoStmt: "DO",
    ast.DeallocateStmt: "DEALLOCATE",
    ast.LockStmt: "LOCK",
    ast.TruncateStmt: "TRUNCATE",
    ast.MergeStmt: "MERGE",
    ast.CheckPointStmt: "CHECKPOINT",
    ast.ListenStmt: "LISTEN",
    ast.NotifyStmt: "NOTIFY",
    ast.DiscardStmt: "DISCARD",
}


MOST_SOURCES = 64
"""Of more sources than these, small ones aren't left out one by one."""
MOST_VIEWS = 200
"""So many views, views of views among them, are taken apart in one statement."""


@dataclass
class Rewritten:
    """A statement after the rewriting: the statements that stand for it, what was changed, or why it was skipped. `times`
    says how often one call runs a statement, where that isn't once."""

    statements: list[str] = field(default_factory=list)
    changes: list[str] = field(default_factory=list)
    skipped: str = ""
    slots: dict[str, int] = field(default_factory=dict)
    times: dict[str, float] = field(default_factory=dict)

    @property
    def outcome(self) -> str:
        return "skipped" if self.skipped else "changed" if self.changes else "kept"


class Rewriter:
    """Rewrites statements over the tables of a schema."""

    def __init__(self, schema: Schema, options: Options = Options()) -> None:
        self.schema, self.options = schema, options
        self.expressions, self.queries, self.writes = Expressions(self), Queries(self), Writes(self)
        self.found = Rewritten()
        self.rows: float | None = None
        self.top: Any = None
        self.path: Iterable[str] | None = None
        self.named: list[str] = []
        self.no_joins = self.views = 0
        self._views: dict[tuple[str, str], Any] = {}

    def rewrite(self, text: str, rows: float | None = None, path: Iterable[str] | None = None) -> Rewritten:
        """Rewrites the text of one statement; `rows` are those that one call gave or changed, where that is known, and
        `path` the schemas in which its names are looked up, if they aren't the schema's own."""
        self.found, self.rows, self.path, self.no_joins = Rewritten(), rows, path, 0
        self.views = 0
        try:
            self._parsed(text)
        except Skip as why:
            return Rewritten(skipped=str(why))
        except NoSuchColumn as name:
            return Rewritten(skipped=f"no source has the column {str(name)!a}")
        except RecursionError:
            return Rewritten(skipped="it nests too deep")
        except (AttributeError, LookupError, TypeError, ValueError, AssertionError, ParseError):
            return Rewritten(skipped="the rewriter doesn't know a form in it")
        if not self.found.statements:
            return Rewritten(skipped="it reads no table")
        return self.found

    def _parsed(self, text: str) -> None:
        try:
            trees = parsed(text)
        except ParseError as fault:
            place = fault.args[1] if len(fault.args) > 1 else None
            raise Skip(
                "PostgreSQL's parser doesn't take it" + (f", at character {place + 1}" if place else "")
            ) from None
        if len(trees) != 1:
            raise Skip("it holds no statement" if not trees else "it holds several statements")
        self.named = named_tables(trees)
        self.top = trees[0].stmt
        # A cursor gives its rows to FETCH.
        while type(self.top) in INNER and not isinstance(self.top, ast.DeclareCursorStmt):
            self.top = getattr(self.top, INNER[type(self.top)])
        self.statement(trees[0].stmt, None)

    def statement(self, node: Any, outer: Scope | None) -> None:
        """Rewrites a tree."""
        if type(node) in INNER:
            if isinstance(node, ast.CreateTableAsStmt) and not isinstance(node.query, ast.SelectStmt):
                raise Skip("a command that defines something")
            self.note("inner statement")
            self.statement(getattr(node, INNER[type(node)]), outer)
        elif isinstance(node, ast.SelectStmt):
            self.queries.select(node, outer, outer.common if outer else None)
        elif isinstance(node, ast.InsertStmt):
            self.writes.insert(node, outer)
        elif isinstance(node, ast.UpdateStmt):
            self.writes.update(node, outer)
        elif isinstance(node, ast.DeleteStmt):
            self.writes.delete(node, outer)
        elif isinstance(node, ast.CopyStmt):
            self.note("copy")
            if node.is_from:
                self.writes.copy(node)
            else:
                self.statement(node.query or copied(node), outer)
        else:
            raise Skip(WORDS.get(type(node), "a command that defines or manages something"))

    def note(self, change: str) -> None:
        """Notes a change, once."""
        if change not in self.found.changes:
            self.found.changes.append(change)

    def add(self, text: str, slots: int = 1, times: float = 1.0) -> None:
        """Adds a statement, once, with the number of its sources, and how often one call runs it."""
        if text not in self.found.statements:
            self.found.statements.append(text)
            self.found.slots[text] = slots
            self.found.times[text] = times

    def view(self, key: tuple[str, str]) -> Any:
        """The query of a view."""
        self.views += 1
        if self.views > MOST_VIEWS:
            raise Skip(f"it reads more than {MOST_VIEWS} views, views of views among them")
        if key not in self._views:
            tree = parsed(self.schema.views[key])[0].stmt
            self._views[key] = tree
            self.named += named_tables(tree)
        return self._views[key]

    def own_statement(self, tree: Any, scope: Scope, is_for_each: bool = False) -> None:
        """Writes a query as a statement of its own; the columns around it that it uses stay needed. `is_for_each` says that it
        runs for each row around it, where it uses any."""
        self.note("own statement")
        before = len(self.found.statements)
        inner = self.queries.select(tree, scope, scope.common)
        scope.need(inner.used_outside)
        if is_for_each and inner.used_outside and scope.block is not None and self.options.look_ups:
            scope.block.inner += self.found.statements[before:]

    def rows_of(self, node: Any) -> float | None:
        """The rows that a call gave or changed, of the whole statement alone."""
        return self.rows if node is self.top and self.options.rows else None

    def changed_rows(self) -> int | None:
        """The rows that a call changed, of an UPDATE or a DELETE."""
        is_known = (
            isinstance(self.top, (ast.UpdateStmt, ast.DeleteStmt)) and self.rows is not None and self.options.rows
        )
        return self.writes.rows_of_call(0) if is_known else None

    def weigh_inner(self, block: Block) -> None:
        """Lets correlated subqueries count as often as there are rows outside them."""
        for it in dict.fromkeys(block.inner):
            if it in self.found.times:
                self.note("correlated")
                self.found.times[it] *= round(block_rows(block))
        block.inner = []

    def join_subquery(self, block: Block, tree: Any, scope: Scope, compared: Any) -> bool:
        """Joins a query of EXISTS, or of IN with what is compared, where it is a plain join that ties; else changes
        nothing."""
        dropped = ["distinctClause"] if compared is not None else ["distinctClause", "limitCount", "limitOffset"]
        if self.no_joins or not is_simple_without(tree, dropped):
            return False
        mark, changes, before = block.mark(), [*self.found.changes], [*self.found.statements]
        correlated = [*block.inner]
        old = set(map(id, block.slots))
        inner = Scope(block, scope, outer_is_value=False)
        self.queries.from_clause(tree.fromClause, block, inner)
        conditions = Conditions(self, block)
        conditions.add(tree.whereClause, inner)
        if compared is not None:
            outputs, left = self.queries.outputs(tree, inner), self.expressions.term(compared, scope)
            if len(outputs) == 1 and isinstance(left, Col) and isinstance(outputs[0][1], Col):
                block.conditions.append(Tie(left, outputs[0][1]))
        if any((id(it.left.slot) in old) != (id(it.right.slot) in old) for it in block.ties()):
            self.note("subquery")
            return True
        block.reset(mark)
        self.found.changes[:], self.found.statements[:], block.inner = changes, before, correlated
        return False

    def bound(self, block: Block) -> None:
        """Keeps columns that no index can have from being keys, and applies the options to the conditions of a block."""
        finish.without_keys(block, self.note)
        if self.options.ranges:
            finish.join_bounds(block, self.note)
        # A window and DISTINCT ON read all rows, whatever the limit.
        if self.options.limits and not {"window", "distinct on"} & {*self.found.changes}:
            hold_limit(block, self.note)
        if self.options.rows:
            hold_items(block, self.note)
            hold_rows(block, self.note)
        if self.options.ranges:
            finish.narrow_ranges(block, self.note)
        if self.options.look_ups:
            finish.add_look_ups(block, self.note)

    def finish(self, block: Block) -> None:
        """Writes a SELECT, as several where its sources are apart or one kept within 8 sources."""
        if len(block.slots) > MOST_SOURCES:
            raise Skip(f"it has more than {MOST_SOURCES} sources")
        self.weigh_inner(block)
        self.bound(block)
        groups = block.groups()
        if len(groups) > 1:
            self.note("split")
        for slots in groups:
            part = block.part(slots) if len(groups) > 1 else block
            fewer = finish.without_small(part, self.note)
            if fewer is None:
                raise Skip("it has more than 8 sources")
            self._tidy(fewer)
            self.add(select_text(fewer), len(fewer.slots))

    def _tidy(self, block: Block) -> None:
        """Leaves out what the grammar has no place for."""
        if block.group is not None and not block.group:
            block.group = None
        if block.distinct and any(isinstance(it, Rows) for it in block.items):
            block.items = [it for term in block.items for it in (columns(term) if isinstance(term, Rows) else (term,))]
        if block.distinct and not block.items:
            block.distinct = False


def is_simple_without(tree: Any, dropped: list[str]) -> bool:
    """Whether a query is a plain join but for some clauses: DISTINCT means nothing to IN and EXISTS, LIMIT nothing to
    EXISTS."""
    if not isinstance(tree, ast.SelectStmt):
        return False
    plain = ast.SelectStmt(**{it: getattr(tree, it) for it in tree})
    for it in dropped:
        setattr(plain, it, None)
    return is_simple(plain)
