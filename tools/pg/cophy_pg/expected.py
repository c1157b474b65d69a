"""The types that columns, casts and functions ask of the parameters beside them."""
from __future__ import annotations

from collections.abc import Callable, Iterable, Iterator
from typing import Any

from pglast import ast
from pglast.enums import A_Expr_Kind

from cophy_pg.rewrite.expressions import nodes_of

_COMPARED = frozenset(("=", "<>", "<", "<=", ">", ">=", "~~", "!~~", "~~*", "!~~*"))
_COMPUTED = frozenset(("+", "-", "*", "/", "%", "||"))
_SAME = {"abs": 0, "round": 0, "floor": 0, "ceil": 0, "sum": 0, "avg": 0, "min": 0, "max": 0, "date_trunc": 1}
"""Functions that give the type of one of their arguments, by its place."""
_NUMERIC = frozenset(("abs", "round", "sum", "avg"))
_TIMES = {"date": "int4", "timestamp": "interval", "timestamptz": "interval", "time": "interval"}
"""Types of times, with what is added to them and taken from them."""
_CAST = frozenset(("int2", "int4", "int8", "numeric", "float4", "float8", "text", "interval", "uuid", *_TIMES))
_MADE = {"now": "timestamptz", "age": "interval", "count": "int8"}


def known(name: str) -> str:
    """A type of PostgreSQL's, as it is written."""
    return f'"pg_catalog"."{name}"'


def own_name(kind: str | None) -> str:
    """The name of a type of PostgreSQL's; nothing of another's."""
    parts = (kind or "").split('"')
    return parts[3] if len(parts) == 5 and parts[1] == "pg_catalog" else ""


class Expected:
    """The types of parameters, by their numbers. `type_of` gives the type of a column."""

    def __init__(self, tree: Any, type_of: Callable[[Any], str | None]) -> None:
        self.type_of = type_of
        self.types: dict[int, str] = {}
        self.kinds: dict[int, str | None] = {}
        for it in nodes_of(tree):
            for group in _groups(it):
                kind = self._first(group)
                for term in group if kind else ():
                    self._expect(term, str(kind))
            if _function(it) in _NUMERIC and it.args and self._kind(it.args[0]) is None:
                self._expect(it.args[0], known("numeric"))

    def _kind(self, node: Any) -> str | None:
        """The type of a term, where it can be told without its parameters; each term is looked at once."""
        if id(node) not in self.kinds:
            self.kinds[id(node)] = self._told(node)
        return self.kinds[id(node)]

    def _told(self, node: Any) -> str | None:
        name = _function(node)
        if isinstance(node, ast.ColumnRef):
            return self.type_of(node)
        if isinstance(node, ast.TypeCast):
            name = node.typeName.names[-1].sval
            return known(name) if name in _CAST and not node.typeName.arrayBounds else None
        if isinstance(node, ast.SQLValueFunction):
            return known("date") if int(node.op) == 0 else known("timestamptz") if int(node.op) in (3, 4) else None
        if name in _SAME and len(node.args or ()) > _SAME[name]:
            return self._kind(node.args[_SAME[name]])
        if name in _MADE:
            return known(_MADE[name])
        return self._computed(node) if _is_computed(node) else self._first(_results(node))

    def _first(self, terms: Iterable[Any]) -> str | None:
        return next(filter(None, map(self._kind, terms)), None)

    def _computed(self, node: Any) -> str | None:
        left, right = self._kind(node.lexpr), self._kind(node.rexpr)
        one = left or right
        if own_name(one) not in _TIMES:
            return one
        if node.name[-1].sval == "+":
            return left if own_name(left) in _TIMES else right
        # What is taken from a time may be a time as well.
        if left and right:
            return known("interval") if own_name(right) in _TIMES else left
        return None

    def _expect(self, node: Any, kind: str) -> None:
        """Gives a term's parameters the types with which it has this one."""
        name = _function(node)
        if isinstance(node, ast.ParamRef):
            self.types.setdefault(node.number, kind)
        elif _is_computed(node):
            self._expect_both(node, kind)
        elif isinstance(node, ast.A_ArrayExpr):
            element = known(own_name(kind)[1:]) if own_name(kind).startswith("_") else kind
            for it in node.elements or ():
                self._expect(it, element)
        elif name in _SAME and len(node.args or ()) > _SAME[name]:
            self._expect(node.args[_SAME[name]], kind)
        for it in _results(node):
            self._expect(it, kind)

    def _expect_both(self, node: Any, kind: str) -> None:
        """The same for both sides of an operator. Where one is known, the other is what goes with it."""
        operator, name = node.name[-1].sval, own_name(kind)
        left, right = own_name(self._kind(node.lexpr)), own_name(self._kind(node.rexpr))
        sides = (kind, kind)
        if name in _TIMES and operator in "+-":
            steps = known(_TIMES[name])
            sides = (
                (steps, kind)
                if operator == "+" and (left in ("int4", "interval") or right in _TIMES)
                else (kind, steps)
            )
        elif name == "interval" and operator in "*/":
            sides = (kind, known("float8"))
        elif name == "interval" and operator == "-" and (left in _TIMES or right in _TIMES):
            sides = (known(right or left), known(left or right))
        for term, it in zip((node.lexpr, node.rexpr), sides, strict=True):
            self._expect(term, it)


def _groups(node: Any) -> Iterator[list[Any]]:
    """Terms that have one type."""
    if isinstance(node, ast.A_Expr) and _is_compared(node):
        left, right = _row(node.lexpr), _row(node.rexpr)
        if left and len(left) == len(right):
            yield from map(list, zip(left, right, strict=True))
        else:
            yield [node.lexpr, *(node.rexpr if isinstance(node.rexpr, tuple) else (node.rexpr,))]
    elif isinstance(node, ast.CaseExpr) and node.arg is not None:
        yield [node.arg, *(when.expr for when in node.args)]
    yield [*_results(node)]


def _results(node: Any) -> tuple[Any, ...]:
    """The terms of which a term is one."""
    if isinstance(node, ast.CaseExpr):
        return (*(when.result for when in node.args), node.defresult)
    return (*node.args,) if isinstance(node, (ast.CoalesceExpr, ast.MinMaxExpr)) else ()


def _is_compared(node: Any) -> bool:
    if node.kind in (A_Expr_Kind.AEXPR_OP_ANY, A_Expr_Kind.AEXPR_OP_ALL) and not isinstance(
        node.rexpr, ast.A_ArrayExpr
    ):
        return False
    spoken = node.name[-1].sval.startswith(("BETWEEN", "NOT BETWEEN"))
    return spoken or node.name[-1].sval in _COMPARED


def _is_computed(node: Any) -> bool:
    return isinstance(node, ast.A_Expr) and node.name[-1].sval in _COMPUTED and node.lexpr is not None


def _row(node: Any) -> tuple[Any, ...]:
    return (*node.args,) if isinstance(node, ast.RowExpr) else ()


def _function(node: Any) -> str:
    return str(node.funcname[-1].sval) if isinstance(node, ast.FuncCall) else ""
