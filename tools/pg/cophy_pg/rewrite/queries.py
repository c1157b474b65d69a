"""Turns the parser's queries into blocks: sources, lists, and the queries within them."""
from __future__ import annotations

from typing import TYPE_CHECKING, Any

from pglast import ast
from pglast.enums import JoinType, LimitOption, SetOperation, SortByDir, SortByNulls

from cophy_pg.rewrite.block import Block
from cophy_pg.rewrite.conditions import Conditions
from cophy_pg.rewrite.expressions import OTHER_AGGREGATES, name_of, named_tables, nodes_of
from cophy_pg.rewrite.rows import is_plain, most_rows
from cophy_pg.rewrite.scope import Common, Entry, Scope, entry_of
from cophy_pg.rewrite.terms import (
    AGGREGATES,
    ANY,
    Call,
    Col,
    Term,
    Unknown,
    aggregates,
    columns,
    has_unknown,
    is_value,
    known,
    mixed,
)

if TYPE_CHECKING:
    from cophy_pg.rewrite.rewriter import Rewriter

SIGNS = {"=": "=", "<>": "<>", "!=": "<>", "<": "<", "<=": "<=", ">": ">", ">=": ">="}
CATALOGS = frozenset(("pg_catalog", "information_schema", "pg_toast"))


class Skip(Exception):
    """A statement that can't be priced, and why."""


class Queries:
    """The part of the rewriter that reads queries."""

    def __init__(self, rewriter: Rewriter) -> None:
        self.rewriter = rewriter

    def note(self, change: str) -> None:
        self.rewriter.note(change)

    def _term(self, node: Any, scope: Scope) -> Term:
        return self.rewriter.expressions.term(node, scope)

    def select(self, node: Any, outer: Scope | None, common: dict[str, Common] | None = None) -> Scope:
        """Makes the statements of a query that stands for itself; the scope tells what it took from around it."""
        block = Block()
        scope = Scope(block, outer)
        scope.common.update(common or {})
        self.with_clause(node.withClause, scope)
        if node.op != SetOperation.SETOP_NONE:
            self.note("set operation")
            for side in (node.larg, node.rarg):
                scope.used_outside += self.select(side, outer, scope.common).used_outside
            return scope
        self.from_clause(node.fromClause, block, scope)
        items = self._items(node, block, scope)
        Conditions(self.rewriter, block).add(node.whereClause, scope)
        self._group(node, items, block, scope)
        self._having(node.havingClause, block, scope)
        self._order(node, items, block, scope)
        self._limit(node, block)
        if node.lockingClause:
            self.note("lock")
        if is_plain(block):
            block.rows = self.rewriter.rows_of(node)
        if block.slots:
            self.rewriter.finish(block)
        return scope

    # WITH

    def with_clause(self, node: Any, scope: Scope) -> None:
        """Takes the queries of WITH: those that are joined where they are named, and those that stand for themselves."""
        if node is None:
            return
        self.note("common table")
        for it in node.ctes:
            names = [alias.sval for alias in it.aliascolnames or ()]
            uses = sum(name == it.ctename for name in self.rewriter.named)
            if node.recursive and it.ctename in named_tables(it.ctequery):
                uses = 2
            common = Common(it.ctequery, names)
            scope.common[it.ctename] = common
            if not (isinstance(it.ctequery, ast.SelectStmt) and uses == 1 and is_simple(it.ctequery)):
                common.entry = Entry(it.ctename, {name: Unknown() for name in names}, is_open=True)
                self.rewriter.statement(it.ctequery, scope)
                if isinstance(it.ctequery, ast.SelectStmt):
                    common.entry.columns = self._outputs(it.ctequery, names)

    def _outputs(self, tree: Any, names: list[str]) -> dict[str, Term]:
        """The columns of a query that is priced elsewhere; values where it gives a single row."""
        stands: Term = ANY if gives_one_row(tree) else Unknown(most_rows(tree, {}, self.rewriter.changed_rows()))
        while tree.op != SetOperation.SETOP_NONE:
            tree = tree.larg
        found = [_output_name(it) for it in tree.targetList or ()]
        return dict.fromkeys([*names, *(it for it in found[len(names) :] if it)], stands)

    # FROM

    def from_clause(self, nodes: Any, block: Block, scope: Scope) -> None:
        """Adds the sources of FROM."""
        for it in nodes or ():
            self._source(it, block, scope)

    def _source(self, node: Any, block: Block, scope: Scope) -> None:
        if isinstance(node, ast.RangeVar):
            self._table(node, block, scope)
        elif isinstance(node, ast.JoinExpr):
            self._join(node, block, scope)
        elif isinstance(node, ast.RangeSubselect):
            names = [it.sval for it in node.alias.colnames or ()] if node.alias else []
            self._subquery(node.subquery, node.alias.aliasname if node.alias else "", names, block, scope)
        elif isinstance(node, ast.RangeTableSample):
            self.note("sample")
            self._source(node.relation, block, scope)
        else:
            self.note("function source")
            alias = node.alias.aliasname if node.alias else ""
            names = [it.sval for it in node.alias.colnames or ()] if node.alias else []
            scope.entries.append(Entry(alias, {it: Unknown() for it in names or [alias]}, is_open=True))

    def _table(self, node: Any, block: Block, scope: Scope) -> None:
        alias = node.alias.aliasname if node.alias else node.relname
        names = [it.sval for it in node.alias.colnames or ()] if node.alias else []
        if node.schemaname is None and node.relname in scope.common:
            self._common(scope.common[node.relname], alias, names, block, scope)
            return
        if node.schemaname is not None:
            self.note("schema")
        schema = self.rewriter.schema
        key = schema.key_of(node.schemaname, node.relname, self.rewriter.path)
        if node.schemaname in CATALOGS or (key is None and node.relname.startswith(("pg_", "_pg_"))):
            raise Skip("a query of the database's own catalogs")
        if key in schema.views:
            self.note("view")
            self._subquery(self.rewriter.view(key), alias, names, block, scope)
            return
        if key in schema.parents:
            self.note("partition")
            key = schema.parents[key]
        if key is None or key not in schema.tables:
            why = schema.left_out.get(key, "no such table") if key else "no such table"
            raise Skip(f"the table {node.relname!a} isn't in the catalogue: {why}")
        slot, changed = block.add_slot(schema.tables[key], alias if node.alias else schema.tables[key].shown)
        if changed and node.alias and len(scope.entries) == len(block.slots) - 1:
            self.note("alias")
        entry = entry_of(slot, alias)
        renamed = entry.renamed(names)
        scope.entries.append(renamed)

    def _common(self, common: Common, alias: str, names: list[str], block: Block, scope: Scope) -> None:
        if common.entry is not None:
            entry = Entry(alias, dict(common.entry.columns), is_open=True)
            scope.entries.append(entry.renamed(names))
        else:
            self._subquery(common.tree, alias, [*names, *common.names[len(names) :]], block, scope)

    def _subquery(self, tree: Any, alias: str, names: list[str], block: Block, scope: Scope) -> None:
        """A query in FROM: joined where it is a plain join, else priced by itself."""
        if is_simple(tree):
            self.note("subquery")
            inner = Scope(block, scope, outer_is_value=False)
            self.from_clause(tree.fromClause, block, inner)
            Conditions(self.rewriter, block).add(tree.whereClause, inner)
            listed = self.outputs(tree, inner)
            scope.entries.append(Entry(alias, dict(listed)).renamed(names))
            return
        self.rewriter.own_statement(tree, scope, is_for_each=True)
        scope.entries.append(
            Entry(alias, self._outputs(tree, names), is_open=True)
            if tree.valuesLists is None
            else Entry(alias, {it: Unknown() for it in names}, is_open=True)
        )

    def outputs(self, tree: Any, scope: Scope) -> list[tuple[str, Term]]:
        """The columns that a query gives, with their names."""
        listed: list[tuple[str, Term]] = []
        for it in tree.targetList or ():
            if _is_star(it.val):
                fields = it.val.fields
                for term in scope.starred(fields[-2].sval if len(fields) > 1 else None):
                    listed += [(col.column.name, col) for col in columns(term)]
            else:
                listed.append((_output_name(it), self._term(it.val, scope)))
        return listed

    def _join(self, node: Any, block: Block, scope: Scope) -> None:
        inner = Scope(block, scope.outer, scope.outer_is_value)
        inner.common, inner.entries, inner.merged = scope.common, [*scope.entries], scope.merged
        before = len(inner.entries)
        self._source(node.larg, block, inner)
        middle = len(inner.entries)
        self._source(node.rarg, block, inner)
        lefts, rights = inner.entries[before:middle], inner.entries[middle:]
        if node.jointype != JoinType.JOIN_INNER:
            self.note("outer join")
        names = [it.sval for it in node.usingClause or ()]
        if node.isNatural:
            names = [it for entry in lefts for it in entry.columns if any(it in other.columns for other in rights)]
        if names:
            self.note("using")
            self._using(names, lefts, rights, block, scope)
        elif node.quals is None:
            self.note("cross join")
        Conditions(self.rewriter, block).add(node.quals, inner)
        scope.entries += inner.entries[before:]
        scope.used_outside += inner.used_outside
        if node.alias is not None:
            both = {name: term for entry in [*rights, *lefts] for name, term in entry.columns.items()}
            scope.entries.append(Entry(node.alias.aliasname, both))

    def _using(self, names: list[str], lefts: list[Entry], rights: list[Entry], block: Block, scope: Scope) -> None:
        for name in dict.fromkeys(names):
            left = next((it.columns[name] for it in lefts if name in it.columns), Unknown())
            right = next((it.columns[name] for it in rights if name in it.columns), Unknown())
            Conditions(self.rewriter, block)._compare(left, "=", right)
            scope.merged.setdefault(name, left if isinstance(left, Col) else right)

    # Lists

    def _items(self, node: Any, block: Block, scope: Scope) -> list[tuple[str, Term]]:
        """Fills the select list, and gives its items with their names."""
        if node.distinctClause is not None:
            if any(it is not None for it in node.distinctClause):
                self.note("distinct on")
                block.items += [self._term(it, scope) for it in node.distinctClause]
            else:
                block.distinct = True
        named: list[tuple[str, Term]] = []
        for it in node.targetList or ():
            if _is_star(it.val):
                fields = it.val.fields
                terms = [*scope.starred(fields[-2].sval if len(fields) > 1 else None)]
                named += [(col.column.name, col) for term in terms for col in columns(term)]
                block.items += terms
            else:
                term = self._term(it.val, scope)
                named.append((_output_name(it), term))
                shown = known(_shown(term))
                if shown is not None:
                    block.items.append(shown)
        for it in node.windowClause or ():
            self.note("window")
            block.items.append(mixed(*self.rewriter.expressions.window(it, scope)))
        return named

    def _group(self, node: Any, items: list[tuple[str, Term]], block: Block, scope: Scope) -> None:
        if node.groupClause is None:
            return
        found: list[Col] = []
        for it in node.groupClause:
            for one in self._grouping(it):
                term = self._named(one, items, scope, False)
                if not isinstance(term, Col) or isinstance(one, ast.A_Const):
                    self.note("group")
                found += columns(term)
        block.group = [*dict.fromkeys(found)]
        if not block.group and not any(next(aggregates(it), None) for it in block.items):
            block.group = None
            block.distinct = False

    def _grouping(self, node: Any) -> list[Any]:
        if isinstance(node, ast.GroupingSet):
            self.note("grouping sets")
            return [inner for it in node.content or () for inner in self._grouping(it)]
        return [*node.args] if isinstance(node, ast.RowExpr) else [node]

    def _named(self, node: Any, items: list[tuple[str, Term]], scope: Scope, item_first: bool) -> Term:
        """An expression of GROUP BY or ORDER BY: an ordinal, an alias of an item, or what it says itself."""
        if isinstance(node, ast.A_Const) and isinstance(node.val, ast.Integer):
            at = node.val.ival - 1
            return items[at][1] if 0 <= at < len(items) else ANY
        if isinstance(node, ast.ColumnRef) and len(node.fields) == 1 and isinstance(node.fields[0], ast.String):
            name = node.fields[0].sval
            named = next((term for shown, term in items if shown == name), None)
            inside = next((it.columns[name] for it in scope.entries if name in it.columns), None)
            if named is not None and (item_first or inside is None):
                return named
        return self._term(node, scope)

    def _having(self, node: Any, block: Block, scope: Scope) -> None:
        if node is None:
            return
        if isinstance(node, ast.BoolExpr) and int(node.boolop) == 0:
            for it in node.args:
                self._having(it, block, scope)
            return
        if (
            isinstance(node, ast.A_Expr)
            and name_of(node.name) in SIGNS
            and int(node.kind) == 0
            and node.lexpr is not None
        ):
            left, right = self._term(node.lexpr, scope), self._term(node.rexpr, scope)
            if not has_unknown(left) and not has_unknown(right):
                block.having.append((left, SIGNS[name_of(node.name)], right))
                return
        self.note("having")
        term = self._term(node, scope)
        if not is_value(term):
            block.having.append((term, "=", ANY))

    def _order(self, node: Any, items: list[tuple[str, Term]], block: Block, scope: Scope) -> None:
        for it in node.sortClause or ():
            if it.sortby_nulls != SortByNulls.SORTBY_NULLS_DEFAULT:
                self.note("nulls")
            if it.sortby_dir == SortByDir.SORTBY_USING:
                self.note("order using")
            term = self._named(it.node, items, scope, True)
            if is_value(term) or has_unknown(term):
                self.note("constant condition" if is_value(term) else "own statement")
                block.need(columns(term))
                continue
            block.order.append((term, it.sortby_dir == SortByDir.SORTBY_DESC))

    def _limit(self, node: Any, block: Block) -> None:
        if node.limitCount is None and node.limitOffset is not None:
            self.note("limit")
            return
        if node.limitCount is None or (isinstance(node.limitCount, ast.A_Const) and node.limitCount.isnull):
            return
        if node.limitOption == LimitOption.LIMIT_OPTION_WITH_TIES:
            self.note("fetch")
        block.limit = self._count(node.limitCount)
        if node.limitOffset is not None:
            block.offset = self._count(node.limitOffset)

    def _count(self, node: Any) -> str:
        if isinstance(node, ast.A_Const) and isinstance(node.val, ast.Integer) and node.val.ival >= 0:
            return str(node.val.ival)
        if not isinstance(node, ast.ParamRef):
            self.note("limit")
        return "?"


def copied(node: Any) -> Any:
    """The query of a COPY of a table's rows or of some of its columns."""
    fields = [it.sval for it in node.attlist or ()]
    shown = [ast.ColumnRef(fields=(ast.String(it),)) for it in fields] or [ast.ColumnRef(fields=(ast.A_Star(),))]
    targets = tuple(ast.ResTarget(val=it) for it in shown)
    return ast.SelectStmt(targetList=targets, fromClause=(node.relation,), op=SetOperation.SETOP_NONE)


def is_simple(tree: Any) -> bool:
    """Whether a query is a plain join, so that it can be joined to what stands around it."""
    if not isinstance(tree, ast.SelectStmt) or tree.op != SetOperation.SETOP_NONE or not tree.fromClause:
        return False
    if tree.groupClause or tree.havingClause or tree.distinctClause or tree.windowClause or tree.withClause:
        return False
    if tree.limitCount is not None or tree.limitOffset is not None:
        return False
    return not any(is_aggregate(it) for it in nodes_of(tree.targetList))


def is_aggregate(node: Any) -> bool:
    """Whether a node is an aggregate or a window."""
    if not isinstance(node, ast.FuncCall):
        return False
    return bool(node.over or node.agg_star or name_of(node.funcname).lower() in AGGREGATES | OTHER_AGGREGATES)


def gives_one_row(tree: Any) -> bool:
    """Whether a query gives one row: aggregates without groups, or LIMIT 1."""
    if not isinstance(tree, ast.SelectStmt) or tree.op != SetOperation.SETOP_NONE:
        return False
    limit = tree.limitCount
    if isinstance(limit, ast.A_Const) and isinstance(limit.val, ast.Integer) and limit.val.ival == 1:
        return True
    return not tree.groupClause and any(is_aggregate(it) and not it.over for it in nodes_of(tree.targetList))


def _is_star(node: Any) -> bool:
    return isinstance(node, ast.ColumnRef) and isinstance(node.fields[-1], ast.A_Star)


def _output_name(target: Any) -> str:
    if target.name:
        return str(target.name)
    node = target.val
    while isinstance(node, (ast.TypeCast, ast.CollateClause)):
        node = node.arg
    if isinstance(node, ast.ColumnRef) and isinstance(node.fields[-1], ast.String):
        return str(node.fields[-1].sval)
    return name_of(node.funcname) if isinstance(node, ast.FuncCall) else ""


def _shown(term: Term) -> Term:
    """An item as it is written: a cast of a column is the column."""
    return term.args[0] if isinstance(term, Call) and term.name == "cast" and isinstance(term.args[0], Col) else term
