"""Indexes over lower() or upper() of a column, of which our model knows nothing: hints that the server's planner has judged,
for statements that the picks don't help. They are no part of the program's advice or of its proof."""
from __future__ import annotations

from collections.abc import Iterable, Iterator, Mapping
from dataclasses import dataclass, replace
from types import MappingProxyType
from typing import Any, NamedTuple

from pglast import ast
from pglast.enums import A_Expr_Kind, BoolExprType

from cophy_text.answers import Advice
from cophy_pg.ddl import Applied, written_name, written_path
from cophy_pg.explain import Explainer, Statement
from cophy_pg.outcomes import Verdict
from cophy_pg.parameters import Columns
from cophy_pg.picks import home_of, hypothetical_by, index_names, make
from cophy_pg.plans import each_plan
from cophy_pg.progress import Progress, say
from cophy_pg.rewrite.expressions import nodes_of
from cophy_pg.schema import Schema, Table
from cophy_pg.server import ServerFault, Server, reading
from cophy_pg.unlimited import TEXTS

FUNCTIONS = frozenset(("lower", "upper"))
MOST = 8
"""So many are asked about, those with the most time first."""
SAME, HELPED = 0.9, 0.5
"""A statement has a hint that costs more than this part of before with the picks, and less than this part of that with the
index."""


class ExpressionIndex(NamedTuple):
    """An index over a function of a column, which goes by PostgreSQL's name."""

    table: Table
    function: str
    column: str

    def statement(self) -> str:
        """What makes it. No other function of that name is meant, whatever the path."""
        where = written_path((self.table.schema, self.table.name))
        return f"CREATE INDEX ON {where} (pg_catalog.{self.function}({written_name(self.column)}))"

    def pick(self) -> Applied:
        """The index by the names of the catalogue."""
        return Applied(0, self.table.shown, (self.table.columns[self.column].shown,), 0, function=self.function)


@dataclass
class Hint:
    """An index with the statements that cost less with it than with the picks alone, and what a call of each costs then."""

    index: ExpressionIndex
    users: list[tuple[Verdict, float]]


def hints_of(
    server: Server,
    schema: Schema,
    advice: Advice,
    found: list[Verdict],
    progress: Progress,
    walked: Mapping[int, set[int]] = MappingProxyType({}),
) -> list[Hint]:
    """The hints for statements that were explained before, those with the most time first; none where the server refuses.
    Picks that statements only walk along are taken for not there."""
    hints: list[Hint] = []
    compared = [*_compared(schema, found).items()]
    try:
        for index, users in sorted(compared, key=lambda it: -_time(it[1], found))[:MOST]:
            progress(f"asking about {index.pick().shown()}")
            with reading(server, "READ COMMITTED"):
                numbers = {user.number for user in users}
                others = replace(
                    advice, picks=[it for it in advice.picks if not numbers & walked.get(it.number, set())]
                )
                hint = Hint(index, [*_helped(server, schema, others, index, users, progress)])
            hints += [hint] * bool(hint.users)
    except ServerFault as fault:
        say(f"indexes over functions weren't asked about: {fault.shown()}")
    return hints


def _compared(schema: Schema, found: list[Verdict]) -> dict[ExpressionIndex, list[Verdict]]:
    """The indexes that may help statements which the picks don't help, with these."""
    compared: dict[ExpressionIndex, list[Verdict]] = {}
    for it in found:
        if it.fault or it.statement is None or it.before is None or it.after is None:
            continue
        if it.after > SAME * it.before:
            for index in indexes_in(it.statement, schema):
                compared.setdefault(index, []).append(it)
    return compared


def _time(users: list[Verdict], found: list[Verdict]) -> float:
    """The measured time of statements, or their cost where it isn't known of all that there are."""
    if any(it.input.seconds is None for it in found):
        return sum(it.calls * (it.after or 0.0) for it in users)
    return sum(it.input.seconds or 0.0 for it in users)


def _helped(
    server: Server, schema: Schema, advice: Advice, index: ExpressionIndex, users: list[Verdict], progress: Progress
) -> Iterator[tuple[Verdict, float]]:
    """Of some statements those whose plans take an index beside the picks and cost less than half then, with these costs."""
    make(server, schema, advice)
    home = home_of(server, is_cleared=False)
    try:
        name = hypothetical_by(server, home, index.statement())
        plans = each_plan(Explainer(server, Columns()), users, progress)
    except ServerFault:
        if server.is_lost():
            raise
        return
    finally:
        if not server.is_lost():
            home_of(server)
    for it in users:
        plan = plans.get(it.number, {})
        if name in index_names(plan) and (cost := float(plan["Total Cost"])) < HELPED * (it.after or 0.0):
            yield it, cost


def indexes_in(statement: Statement, schema: Schema) -> set[ExpressionIndex]:
    """The functions of columns that a statement compares by `=`, IN or ANY, so that an index over one may serve it. Where a
    function of somebody else is meant, no plan takes the index."""
    by_number = {it.oid: it for it in schema.tables.values()}
    common = {(None, it.ctename) for it in nodes_of(statement.tree) if isinstance(it, ast.CommonTableExpr)}
    tables = {it: by_number[at] for it, at in statement.numbers.items() if at in by_number and it not in common}
    found = set[ExpressionIndex]()
    for query in nodes_of(statement.tree):
        if isinstance(query, ast.SelectStmt):
            parts = [*_parts(query.fromClause or ())]
            sources = {_name(it): tables[key] for it in parts if (key := _key(it)) in tables}
            conditions = [query.whereClause, *(it.quals for it in parts if isinstance(it, ast.JoinExpr))]
            compared = [side for it in conditions for one in joined(it) for side in sides(one)]
            found |= {it for side, other in compared if (it := _index_of(side, other, sources)) is not None}
    return found


def _parts(nodes: Iterable[Any]) -> Iterator[Any]:
    """The sources of a query and its joins."""
    for it in nodes:
        yield it
        if isinstance(it, ast.JoinExpr):
            yield from _parts((it.larg, it.rarg))


def _key(node: Any) -> tuple[str | None, str] | None:
    """The name of a table; nothing of another source, or where its columns have other names."""
    if not isinstance(node, ast.RangeVar) or node.alias and node.alias.colnames:
        return None
    return node.schemaname, node.relname


def _name(node: Any) -> str:
    return str(node.alias.aliasname if node.alias else node.relname)


def joined(node: Any) -> Iterator[Any]:
    """The conditions that are joined by AND."""
    if isinstance(node, ast.BoolExpr) and node.boolop == BoolExprType.AND_EXPR:
        for it in node.args:
            yield from joined(it)
    else:
        yield node


def sides(node: Any) -> list[tuple[Any, Any]]:
    """What a condition compares, each with its other side."""
    if not isinstance(node, ast.A_Expr) or node.name[-1].sval != "=":
        return []
    if node.kind == A_Expr_Kind.AEXPR_OP:
        return [(node.lexpr, node.rexpr), (node.rexpr, node.lexpr)]
    return [(node.lexpr, node.rexpr)] if node.kind in (A_Expr_Kind.AEXPR_IN, A_Expr_Kind.AEXPR_OP_ANY) else []


def _index_of(side: Any, other: Any, sources: dict[str, Table]) -> ExpressionIndex | None:
    """A function of one column of a text, where the other side has no column of its table."""
    if not isinstance(side, ast.FuncCall) or len(side.args or ()) != 1:
        return None
    *before, function = (it.sval for it in side.funcname)
    if function not in FUNCTIONS or before not in ([], ["pg_catalog"]):
        return None
    name, column = _source(_uncast(side.args[0]), sources)
    if not name or sources[name].columns[column].type not in TEXTS or sources[name].columns[column].no_key:
        return None
    if any(_source(it, sources)[0] == name for it in nodes_of(other)):
        return None
    return ExpressionIndex(sources[name], function, column)


def _uncast(node: Any) -> Any:
    """What a cast to text is of; that of a varchar changes nothing."""
    is_text = isinstance(node, ast.TypeCast) and node.typeName.names[-1].sval == "text"
    return node.arg if is_text and not node.typeName.arrayBounds else node


def _source(node: Any, sources: dict[str, Table]) -> tuple[str, str]:
    """The name of the table that a column is of, and its own; without any where it isn't known."""
    if not isinstance(node, ast.ColumnRef):
        return "", ""
    *before, name = (it.sval if isinstance(it, ast.String) else "*" for it in node.fields)
    named = {before[-1]} & {*sources} if before else {*sources}
    found = [it for it in named if name in sources[it].columns]
    return (found[0], name) if len(found) == 1 else ("", name)
