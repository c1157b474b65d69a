"""Turns the parser's expressions into terms."""
from __future__ import annotations

import re
from collections.abc import Iterator
from datetime import date
from decimal import Decimal
from typing import TYPE_CHECKING, Any

from pglast import ast
from pglast.enums import A_Expr_Kind, MinMaxOp, SubLinkType

from cophy_pg.rewrite.scope import SYSTEM, NoSuchColumn, Scope
from cophy_pg.rewrite.terms import (
    AGGREGATES,
    ANY,
    NOTHING,
    SUBQUERY,
    Call,
    Col,
    Infix,
    Interval,
    Mix,
    Rows,
    Term,
    Unknown,
    Value,
    columns,
    day_of,
    is_large,
    is_value,
    known,
    literal_of_day,
    mixed,
    moment_of,
    shifted,
)

if TYPE_CHECKING:
    from cophy_pg.rewrite.rewriter import Rewriter

ARITHMETIC = frozenset(("+", "-", "*", "/", "%", "||"))
DATES = frozenset(("date", "timestamp", "timestamptz"))
TEXTS = frozenset(("text", "varchar"))
OTHER_AGGREGATES = frozenset(
    "array_agg bit_and bit_or bit_xor bool_and bool_or every json_agg jsonb_agg json_object_agg jsonb_object_agg "
    "range_agg range_intersect_agg string_agg xmlagg corr covar_pop covar_samp regr_avgx regr_avgy regr_count "
    "regr_intercept regr_r2 regr_slope regr_sxx regr_sxy regr_syy stddev stddev_pop stddev_samp variance var_pop var_samp "
    "mode percentile_cont percentile_disc".split()
)
_UNITS = {"year": (12, 0), "mon": (1, 0), "month": (1, 0), "week": (0, 7), "day": (0, 1)}
_PART = re.compile(r"([+-]?\d+)\s*(year|month|mon|week|day|hour|minute|second)s?\b", re.IGNORECASE)
_MASKS = {1 << 2: "year", 1 << 1: "month", 1 << 3: "day"}


def name_of(names: Any) -> str:
    """The last part of a name, as PostgreSQL keeps it."""
    return str(names[-1].sval)


class Expressions:
    """The part of the rewriter that reads expressions; `self.rewriter` takes the notes and the subqueries."""

    def __init__(self, rewriter: Rewriter) -> None:
        self.rewriter = rewriter

    def term(self, node: Any, scope: Scope) -> Term:
        """The term of an expression."""
        found = getattr(self, f"_{type(node).__name__}", self._other)(node, scope)
        return mixed(found) if is_large(found) else found

    def terms(self, nodes: Any, scope: Scope) -> list[Term]:
        return [self.term(it, scope) for it in nodes or ()]

    def note(self, change: str) -> None:
        self.rewriter.note(change)

    def _other(self, node: Any, scope: Scope) -> Term:
        """A form that the grammar lacks: its parts count."""
        parts = mixed(*self._parts(node, scope))
        if is_value(parts):
            self.note("value")
            return ANY
        self.note("expression")
        return parts

    def _parts(self, node: Any, scope: Scope) -> list[Term]:
        found: list[Term] = []
        for name in node:
            value = getattr(node, name)
            for it in value if isinstance(value, tuple) else (value,):
                if isinstance(it, (ast.A_Star, ast.TypeName, ast.String, ast.Integer)) or not isinstance(it, ast.Node):
                    continue
                found.append(self.term(it, scope))
        return found

    # Names and constants

    def _ColumnRef(self, node: Any, scope: Scope) -> Term:
        parts = [it.sval if isinstance(it, ast.String) else "*" for it in node.fields]
        if parts[-1] == "*":
            return mixed(*scope.starred(parts[-2] if len(parts) > 1 else None))
        if len(parts) == 1:
            found = scope.column(parts[0])
        else:
            found = scope.qualified(parts[-2], parts[-1], parts[-3] if len(parts) > 2 else None)
        if found is None and parts[-1] in SYSTEM:
            self.note("system column")
            return Unknown()
        if found is None and len(parts) == 2:
            whole = scope.column(parts[0])
            if isinstance(whole, (Col, Rows)):
                self.note("function of a column")
                return Call(parts[1].lower(), (whole,))
        if found is None:
            raise NoSuchColumn(parts[-1])
        if found == ANY:
            self.note("outer column")
        return found

    def _A_Const(self, node: Any, scope: Scope) -> Term:
        if node.isnull:
            return Value("NULL")
        value = node.val
        if isinstance(value, ast.Integer):
            return Value(str(value.ival), int(value.ival))
        if isinstance(value, ast.Float):
            return number(Decimal(value.fval))
        if isinstance(value, ast.String):
            return Value("'" + value.sval.replace("'", "''") + "'", value.sval)
        self.note("boolean" if isinstance(value, ast.Boolean) else "value")
        return ANY

    def _ParamRef(self, node: Any, scope: Scope) -> Term:
        return ANY

    def _SetToDefault(self, node: Any, scope: Scope) -> Term:
        self.note("default")
        return ANY

    def _SQLValueFunction(self, node: Any, scope: Scope) -> Term:
        self.note("value")
        return ANY

    # Casts and operators

    def _TypeCast(self, node: Any, scope: Scope) -> Term:
        inner, target = self.term(node.arg, scope), name_of(node.typeName.names)
        if is_value(inner):
            return self._cast_value(inner, target, node.typeName)
        if isinstance(inner, Col) and inner.column.type in TEXTS and target in TEXTS:
            self.note("column cast")
            return inner
        if isinstance(inner, (Unknown, Mix)):
            return inner
        return Call("cast", (inner,))

    def _cast_value(self, inner: Term, target: str, type_name: Any) -> Term:
        if isinstance(inner, Value) and isinstance(inner.known, str):
            day = day_of(inner.known) if target == "date" else moment_of(inner.known)
            if target in DATES and day is not None:
                if target != "date" or len(inner.known.strip()) > 10:
                    self.note("value")
                return literal_of_day(day)
            if target == "interval":
                return self._interval(inner.known, type_name)
            if re.fullmatch(r"[+-]?\d{1,18}", inner.known.strip()):
                self.note("value")
                return Value(str(int(inner.known)), int(inner.known))
        self.note("value")
        if isinstance(inner, Value) and isinstance(inner.known, date) and target in DATES:
            return inner
        plain = (
            isinstance(inner, Value)
            and isinstance(inner.known, (int, str, Decimal))
            and not isinstance(inner.known, date)
        )
        return inner if plain and target not in DATES else ANY

    def _interval(self, text: str, type_name: Any) -> Term:
        mask = type_name.typmods[0].val.ival if type_name.typmods else 0
        if mask in _MASKS and re.fullmatch(r"\s*[+-]?\d+\s*", text):
            text = f"{text} {_MASKS[mask]}"
        months = days = 0
        for count, unit in _PART.findall(text):
            more = _UNITS.get(unit.lower(), (0, 0))
            months, days = months + int(count) * more[0], days + int(count) * more[1]
        return Value("?", Interval(months, days), False)

    def _CollateClause(self, node: Any, scope: Scope) -> Term:
        self.note("column cast")
        return self.term(node.arg, scope)

    def _NamedArgExpr(self, node: Any, scope: Scope) -> Term:
        return self.term(node.arg, scope)

    def _A_Expr(self, node: Any, scope: Scope) -> Term:
        operator = name_of(node.name)
        if node.kind != A_Expr_Kind.AEXPR_OP or operator not in ARITHMETIC:
            return self._other(node, scope)
        right = self.term(node.rexpr, scope)
        if node.lexpr is None:
            return self._signed(operator, right)
        left = self.term(node.lexpr, scope)
        folded = self._folded(left, operator, right)
        if folded is not None:
            return folded
        if any(isinstance(it, (Mix, Unknown, Rows)) for it in (left, right)):
            if not (is_value(left) and is_value(right)):
                self.note("expression")
            return mixed(left, right)
        return Infix(operator, left, right)

    def _signed(self, operator: str, inner: Term) -> Term:
        if isinstance(inner, Value):
            if isinstance(inner.known, (int, Decimal)) and operator == "-":
                return number(-Decimal(inner.known))
            return inner if operator == "+" else ANY
        return inner if operator == "+" or isinstance(inner, (Mix, Unknown)) else Infix(operator, NOTHING, inner)

    def _folded(self, left: Term, operator: str, right: Term) -> Term | None:
        """Constants taken together where they can be: days with intervals, whole numbers."""
        if not isinstance(left, Value) or not isinstance(right, Value):
            return None
        self.note("value")
        if isinstance(right.known, Interval) and operator in "+-":
            day = left.day()
            moved = shifted(day, right.known, 1 if operator == "+" else -1) if day else None
            return literal_of_day(moved) if moved else ANY
        if isinstance(left.known, date) and isinstance(right.known, int) and operator in "+-":
            moved = shifted(left.known, Interval(0, right.known), 1 if operator == "+" else -1)
            return literal_of_day(moved) if moved else ANY
        if isinstance(left.known, (int, Decimal)) and isinstance(right.known, (int, Decimal)) and operator in "+-*":
            one, other = Decimal(left.known), Decimal(right.known)
            return number(one + other if operator == "+" else one - other if operator == "-" else one * other)
        return ANY

    # Calls

    def _FuncCall(self, node: Any, scope: Scope) -> Term:
        name = name_of(node.funcname).lower()
        args = self.terms(node.args, scope)
        if node.over is not None:
            self.note("window")
            return mixed(*args, *self.window(node.over, scope), *self._more_of(node, scope))
        if name in AGGREGATES or name in OTHER_AGGREGATES | self.rewriter.schema.aggregates or node.agg_star:
            return self._aggregate(name, args, node, scope)
        if len(node.funcname) > 1 and node.funcname[0].sval != "pg_catalog":
            self.note("schema")
        if int(node.funcformat) == 3:
            self.note("syntax")
        if any(isinstance(it, (Mix, Unknown, Rows)) for it in args):
            return mixed(*args)
        return Call(_word(name), tuple(args))

    def _aggregate(self, name: str, args: list[Term], node: Any, scope: Scope) -> Term:
        more = self._more_of(node, scope)
        if more or node.agg_within_group:
            self.note("filter")
        if name not in AGGREGATES:
            self.note("aggregate")
        args = [it for it in map(known, [*args, *more]) if it is not None]
        named = name if name in AGGREGATES else "count"
        return Call(named, tuple(args), bool(node.agg_distinct) and bool(args), star=not args)

    def _more_of(self, node: Any, scope: Scope) -> list[Term]:
        """The columns of FILTER and of an aggregate's own order."""
        more = self.terms([it.node for it in node.agg_order or ()], scope)
        if node.agg_filter is not None:
            more += self._quietly(node.agg_filter, scope)
        return [col for it in more for col in dict.fromkeys(columns(it))]

    def _quietly(self, node: Any, scope: Scope) -> list[Term]:
        return [*dict.fromkeys(columns(self.term(node, scope)))]

    def window(self, node: Any, scope: Scope) -> list[Term]:
        """The columns of a window."""
        return [
            *self.terms(node.partitionClause, scope),
            *self.terms([it.node for it in node.orderClause or ()], scope),
        ]

    def _CoalesceExpr(self, node: Any, scope: Scope) -> Term:
        return self._call("coalesce", node, scope)

    def _MinMaxExpr(self, node: Any, scope: Scope) -> Term:
        return self._call("greatest" if node.op == MinMaxOp.IS_GREATEST else "least", node, scope)

    def _call(self, name: str, node: Any, scope: Scope) -> Term:
        args = self.terms(node.args, scope)
        return mixed(*args) if any(isinstance(it, (Mix, Unknown, Rows)) for it in args) else Call(name, tuple(args))

    def _SubLink(self, node: Any, scope: Scope) -> Term:
        gives_value = node.subLinkType in (SubLinkType.EXPR_SUBLINK, SubLinkType.ARRAY_SUBLINK)
        self.rewriter.own_statement(node.subselect, scope, is_for_each=gives_value)
        if gives_value or node.subLinkType == SubLinkType.EXISTS_SUBLINK:
            return SUBQUERY
        return mixed(self.term(node.testexpr, scope))

    def _MultiAssignRef(self, node: Any, scope: Scope) -> Term:
        if isinstance(node.source, ast.RowExpr):
            return self.term(node.source.args[node.colno - 1], scope)
        return self.term(node.source, scope) if node.colno == 1 else ANY


def number(value: Decimal) -> Value:
    """A number that PostgreSQL's parser doesn't take for an integer of 32 bits, as a literal of the grammar."""
    text = format(value, "f")
    if len(text) > 40:
        return ANY
    return Value(text, int(text) if re.fullmatch(r"-?\d{1,18}", text) else value)


def _word(name: str) -> str:
    return name if re.fullmatch(r"[a-z_][a-z0-9_]*", name) else "call"


def nodes_of(tree: Any) -> Iterator[Any]:
    """All nodes of a tree, from the top down."""
    if isinstance(tree, tuple):
        for it in tree:
            yield from nodes_of(it)
    elif isinstance(tree, ast.Node):
        yield tree
        for name in tree:
            yield from nodes_of(getattr(tree, name))


def named_tables(tree: Any) -> list[str]:
    """The names without a schema of all tables that a tree names, with repeats."""
    return [it.relname for it in nodes_of(tree) if isinstance(it, ast.RangeVar) and it.schemaname is None]
