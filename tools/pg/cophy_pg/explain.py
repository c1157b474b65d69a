"""Statements as they are given to EXPLAIN: what they read, and the types of their parameters."""
from __future__ import annotations

import json
import re
from collections.abc import Iterable, Iterator
from dataclasses import dataclass, field
from typing import Any

from pglast import ast
from pglast.enums import CTEMaterialize, SubLinkType
from pglast.parser import ParseError
from pglast.stream import RawStream

from cophy_pg.rewrite.expressions import nodes_of
from cophy_pg.rewrite.parse import parsed
from cophy_pg.rewrite.rewriter import INNER
from cophy_pg.parameters import UNTYPED, Columns, choices, of_columns
from cophy_pg.server import Server, ServerFault
from cophy_pg.trust import Names

_TYPES = "date|time|timetz|timestamp|timestamptz|interval|numeric|int|integer|bigint|text|uuid|inet|json|jsonb|bytea|money|point|bit"
_TYPED = re.compile(rf"\b((?:{_TYPES})(?:\s+with(?:out)?\s+time\s+zone)?)\s+(\$\d+)", re.IGNORECASE)
_EXTRACT = re.compile(r"\bextract\s*\(\s*\$\d+\s+from\b", re.IGNORECASE)
_MOST_ATTEMPTS = 40
"""So often, at most, are other types tried for a statement's parameters, from each beginning."""


class NoStatement(Exception):
    """Why a text can't be explained."""


@dataclass
class Statement:
    """What EXPLAIN gets, which writes nothing. `numbers` are those of its tables, and `types` those of its parameters, once
    they are known."""

    tree: Any
    text: str
    parameters: int
    path: tuple[str, ...] | None = None
    numbers: dict[tuple[str | None, str], int] = field(default_factory=dict)
    types: dict[int, str] | None = None

    @property
    def is_empty(self) -> bool:
        """Whether it reads nothing."""
        return not self.text

    def tables(self) -> set[int]:
        """The numbers of the tables that it reads."""
        named = {(it.schemaname, it.relname) for it in nodes_of(self.tree) if isinstance(it, ast.RangeVar)}
        return {self.numbers[it] for it in named if it in self.numbers}


def statement_of(text: str, path: tuple[str, ...] | None = None) -> Statement:
    """The statement that a text stands for, whose names a path or else the role's own looks up. Of one that writes it is
    what is read; no row is locked."""
    text = _EXTRACT.sub("extract(year FROM", _TYPED.sub(r"(\2)::\1", text))
    try:
        trees = parsed(text)
        tree = trees[0].stmt if len(trees) == 1 else None
        read = _read_of(tree)
        unlocked = _without_locks(read)
        if read is not tree or unlocked:
            text = RawStream()(read) if read is not None else ""
        parameters = max((it.number for it in nodes_of(read) if isinstance(it, ast.ParamRef)), default=0)
    except (ParseError, ValueError):
        raise NoStatement("it can't be parsed") from None
    except RecursionError:
        raise NoStatement("it is too deep") from None
    except NotImplementedError:
        raise NoStatement("it can't be written again") from None
    return Statement(read, text, parameters, path)


def _read_of(tree: Any) -> Any:
    """What a statement reads, as a query; nothing where it reads nothing."""
    while type(tree) in INNER:
        tree = getattr(tree, INNER[type(tree)])
    clause = getattr(tree, "withClause", None)
    changes = [it for it in (clause.ctes if clause else ()) if not isinstance(it.ctequery, ast.SelectStmt)]
    if not changes:
        return _query_of(tree)
    for it in changes:
        # The server makes it whole, whatever is read of it.
        it.ctequery, it.ctematerialized = _returned(it.ctequery), CTEMaterialize.CTEMaterializeAlways
    return _with_all(_query_of(tree) or ast.SelectStmt(withClause=clause), [it.ctename for it in changes])


def _returned(tree: Any) -> Any:
    """What a statement that writes within WITH reads, as a query for the rows that it returns."""
    returned = getattr(tree, "returningList", None)
    if isinstance(tree, ast.InsertStmt) and returned:
        raise NoStatement("an INSERT within WITH that returns rows")
    query = _query_of(tree)
    if returned:
        read = (it for it in query.targetList[1:] if any(isinstance(node, ast.SubLink) for node in nodes_of(it)))
        query.targetList = (*returned, *read)
    return query or ast.SelectStmt()


def _with_all(query: Any, changes: list[str]) -> Any:
    """A query that reads all of these in its WITH, since the server passes over what nothing reads, unless it writes."""
    body = (getattr(query, it) for it in query if it != "withClause")
    named = {it.relname for part in body for it in nodes_of(part) if isinstance(it, ast.RangeVar)}
    unread = [it for it in changes if it not in named]
    query = _query_like(query)
    if unread:
        if query.op or query.valuesLists:
            raise NoStatement("a statement within WITH that writes and that nothing reads")
        query.targetList = (*(query.targetList or ()), *(ast.ResTarget(val=_count_of(it)) for it in unread))
    return query


def _count_of(name: str) -> Any:
    """The number of rows of what stands under a name in WITH, as a value."""
    every = ast.FuncCall(funcname=(ast.String("pg_catalog"), ast.String("count")), agg_star=True)
    source = ast.RangeVar(relname=name, inh=True, relpersistence="p")
    read = ast.SelectStmt(targetList=(ast.ResTarget(val=every),), fromClause=(source,))
    return ast.SubLink(subLinkType=SubLinkType.EXPR_SUBLINK, subselect=read)


def _query_of(tree: Any) -> Any:
    if isinstance(tree, ast.SelectStmt):
        if tree.intoClause is not None:
            tree.intoClause = None
            return _query_like(tree)
        return tree
    if isinstance(tree, ast.InsertStmt):
        return _values_of(tree)
    if isinstance(tree, ast.UpdateStmt):
        return _query([tree.relation, *(tree.fromClause or ())], tree, _assigned(tree.targetList))
    if isinstance(tree, ast.DeleteStmt):
        return _query([tree.relation, *(tree.usingClause or ())], tree, [])
    raise NoStatement("it is no statement that EXPLAIN takes")


def _query_like(tree: Any) -> Any:
    """A copy of a query, which tells that its text has to be written again."""
    return type(tree)(**{name: getattr(tree, name) for name in tree if getattr(tree, name) is not None})


def _query(sources: list[Any], tree: Any, more: list[Any]) -> Any:
    every = ast.ResTarget(val=ast.ColumnRef(fields=(ast.A_Star(),)))
    return ast.SelectStmt(
        targetList=(every, *more), fromClause=tuple(sources), whereClause=tree.whereClause, withClause=tree.withClause
    )


def _assigned(targets: tuple[Any, ...]) -> list[Any]:
    """The values of SET that may read something."""
    values = [it.val.source if isinstance(it.val, ast.MultiAssignRef) else it.val for it in targets]
    listed = {id(it): it for it in values if not isinstance(it, ast.SetToDefault)}.values()
    several = [it for it in listed if isinstance(it, ast.SubLink) and _width(it) > 1]
    exist = [ast.SubLink(subLinkType=SubLinkType.EXISTS_SUBLINK, subselect=it.subselect) for it in several]
    return [ast.ResTarget(val=it) for it in (*(one for one in listed if one not in several), *exist)]


def _width(link: Any) -> int:
    return len(getattr(link.subselect, "targetList", None) or ())


def _values_of(tree: Any) -> Any:
    """The query of an INSERT; nothing where it only has values."""
    query = tree.selectStmt
    if query is None or (query.valuesLists and not any(isinstance(it, ast.SubLink) for it in nodes_of(query))):
        return None
    for row in query.valuesLists or ():
        if any(isinstance(it, ast.SetToDefault) for it in row):
            raise NoStatement("an INSERT of DEFAULT beside a query")
    copy = _query_like(query)
    if tree.withClause is not None:
        copy.withClause = tree.withClause
    return copy


def _without_locks(tree: Any) -> bool:
    """Takes FOR UPDATE and its like away, for which a right to write is asked; whether there was any."""
    locking = [it for it in nodes_of(tree) if isinstance(it, ast.SelectStmt) and it.lockingClause]
    for it in locking:
        it.lockingClause = None
    return bool(locking)


def add_names(names: Names, tree: Any) -> None:
    """Adds what a statement names."""
    for it in nodes_of(tree):
        if isinstance(it, ast.RangeVar):
            names.tables.add((it.schemaname, it.relname))
        elif isinstance(it, ast.FuncCall):
            names.functions.add(it.funcname[-1].sval)
        elif isinstance(it, ast.TypeName):
            names.types.add(it.names[-1].sval)
        elif isinstance(it, ast.A_Expr):
            names.operators.add(it.name[-1].sval)
        elif isinstance(it, ast.SubLink) and it.operName:
            names.operators.add(it.operName[-1].sval)
        elif isinstance(it, ast.SortBy) and it.useOp:
            names.operators.add(it.useOp[-1].sval)
        elif isinstance(it, ast.ColumnRef):
            names.columns |= {part.sval for part in it.fields if isinstance(part, ast.String)}
        elif isinstance(it, ast.A_Indirection):
            names.columns |= {part.sval for part in it.indirection if isinstance(part, ast.String)}


class Explainer:
    """Explains statements in a transaction of the server."""

    def __init__(self, server: Server, columns: Columns) -> None:
        self.server, self.columns = server, columns

    def explain(self, statement: Statement) -> Any:
        """The plan of a statement. Types of parameters are first the server's own, then those of columns, and where it can't
        tell them then either what else it takes. The fault is that of its first attempt."""
        if statement.types is not None:
            return self._plan(statement, statement.types)
        try:
            return self._typed(statement, {})
        except ServerFault as fault:
            if statement.parameters == 0 or fault.code not in UNTYPED:
                raise
            first = fault
        for types in of_columns(statement.tree, statement.numbers, self.columns):
            if (plan := self._search(statement, types)) is not None:
                return plan
        raise first

    def _search(self, statement: Statement, types: dict[int, str]) -> Any:
        """The plan with types for more and more parameters, from those that are given on; nothing where none is found."""
        waiting = [types]
        for _ in range(_MOST_ATTEMPTS):
            if not waiting:
                break
            types = waiting.pop()
            try:
                return self._typed(statement, types)
            except ServerFault as fault:
                if self.server.is_lost():
                    raise
                if fault.code in UNTYPED:
                    waiting += reversed([types | it for it in choices(statement.text, fault, types)])
        return None

    def _typed(self, statement: Statement, types: dict[int, str]) -> Any:
        plan = self._plan(statement, types)
        statement.types = types
        return plan

    def _plan(self, statement: Statement, types: dict[int, str]) -> Any:
        """The plan, in a savepoint: what functions of users do while it is made is undone, and no prepared statement of
        theirs stays."""
        text, parameters = statement.text, statement.parameters
        try:
            with self.server.savepoint():
                self.server.use_path(statement.path)
                if parameters == 0:
                    return self._answer(f"EXPLAIN (FORMAT JSON) {text}")
                self._prepare(text, [types.get(it, "unknown") for it in range(1, parameters + 1)])
                return self._answer(f"EXPLAIN (FORMAT JSON) EXECUTE cophy_pg ({', '.join(['NULL'] * parameters)})")
        finally:
            if not self.server.is_lost():
                self.server.rows("DEALLOCATE ALL")

    def _prepare(self, text: str, types: list[str]) -> None:
        """Prepares a statement; the place of a fault is one in its text."""
        head = f"PREPARE cophy_pg ({', '.join(types)}) AS "
        try:
            self.server.rows(head + text)
        except ServerFault as fault:
            if fault.place is not None:
                fault.place = max(0, fault.place - len(head))
            raise

    def _answer(self, query: str) -> Any:
        found = self.server.rows(query)[0][0]
        return (json.loads(found) if isinstance(found, str) else found)[0]["Plan"]
