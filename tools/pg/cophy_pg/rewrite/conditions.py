"""Turns the parser's conditions into tests of columns and equalities between them."""
from __future__ import annotations

import re
from typing import TYPE_CHECKING, Any

from pglast import ast
from pglast.enums import A_Expr_Kind as Kind
from pglast.enums import BoolExprType, BoolTestType, NullTestType, SubLinkType

from cophy_pg.rewrite.block import Block, Condition, Test, Tie
from cophy_pg.rewrite.expressions import name_of
from cophy_pg.rewrite.finish import FEWER, MOST_LOOKED_UP
from cophy_pg.rewrite.ranges import as_counted, fitted
from cophy_pg.rewrite.rows import most_rows
from cophy_pg.rewrite.scope import Scope
from cophy_pg.rewrite.terms import ANY, ITEM, Col, Term, Unknown, Value, as_value, columns, has_unknown, is_value

if TYPE_CHECKING:
    from cophy_pg.rewrite.rewriter import Rewriter

INVERSE = {"=": "<>", "<>": "=", "<": ">=", ">=": "<", ">": "<=", "<=": ">"}
TURNED = {"=": "=", "<>": "<>", "<": ">", ">": "<", "<=": ">=", ">=": "<="}
ITEMS = 10
"""As many items as PostgreSQL's planner takes an array to have of which it knows nothing."""
MOST_NOT_IN = 8


class Conditions:
    """Adds the conditions of ON and WHERE to a block."""

    def __init__(self, rewriter: Rewriter, block: Block) -> None:
        self.rewriter, self.block = rewriter, block

    def note(self, change: str) -> None:
        self.rewriter.note(change)

    def add(self, node: Any, scope: Scope, negated: bool = False) -> None:
        """Adds a condition, or its opposite."""
        if node is not None:
            getattr(self, f"_{type(node).__name__}", self._other)(node, scope, negated)

    def _term(self, node: Any, scope: Scope) -> Term:
        return self.rewriter.expressions.term(node, scope)

    def _value(self, term: Term) -> Value:
        if not isinstance(term, Value):
            self.note("value")
        return as_value(term)

    def _test(self, col: Col, form: str, *values: Value) -> None:
        counted = as_counted(col, form, values)
        if counted is not None:
            if counted.form != form or (form == "BETWEEN" and not col.column.has_fractions):
                self.note("range end")
            self.block.conditions.append(counted)
            return
        fits = tuple(fitted(col, it) for it in values)
        if any(one == ANY != other for one, other in zip(fits, values)):
            self.note("value")
        self.block.conditions.append(Test(col, form, fits))

    def _need(self, change: str, *terms: Term) -> None:
        """Keeps the columns of terms needed."""
        self.note(change)
        for it in terms:
            self.block.need(columns(it))

    # AND, OR, NOT

    def _BoolExpr(self, node: Any, scope: Scope, negated: bool) -> None:
        if node.boolop == BoolExprType.NOT_EXPR:
            if not isinstance(node.args[0], ast.SubLink):
                self.note("negation")
            self.add(node.args[0], scope, not negated)
        elif (node.boolop == BoolExprType.AND_EXPR) != negated:
            for it in node.args:
                self.add(it, scope, negated)
        else:
            self._either(node.args, scope, negated)

    def _either(self, sides: Any, scope: Scope, negated: bool) -> None:
        """One of several sides: what they all share stays, one column becomes IN, and other columns stay needed."""
        apart = [self._apart(it, scope, negated) for it in sides]
        known = [it for it in apart if it is not None]
        if len(known) < len(apart):
            self.note("or")
            self._need_all(known)
            return
        lists = [it[0] for it in known]
        shared = [it for it in lists[0] if all(it in other for other in lists[1:])]
        rests = [[it for it in one if it not in shared] for one in lists]
        if shared:
            self.note("common condition")
            self.block.conditions += shared
        if not all(rests) and shared:
            self._need_all(known)
            return
        is_whole = self._listed(rests) and not any(it[1] for it in known)
        self.note("or of one column" if is_whole else "or")
        if not is_whole:
            self._need_all(known)

    def _need_all(self, sides: list[tuple[list[Condition], list[Col]]]) -> None:
        for conditions, needed in sides:
            self.block.need(col for it in conditions for col in it.columns())
            self.block.need(needed)

    def _listed(self, rests: list[list[Condition]]) -> bool:
        """Adds IN for each column that every side compares with values; says whether that is all that the sides say."""
        counts: dict[Col, list[Value]] = {}
        for number, side in enumerate(rests):
            for it in side:
                if isinstance(it, Test) and it.form in ("=", "IN") and (number == 0 or it.col in counts):
                    counts.setdefault(it.col, []).extend(it.values)
            here = {it.col for it in side if isinstance(it, Test) and it.form in ("=", "IN")}
            counts = {col: values for col, values in counts.items() if col in here}
        for col, values in counts.items():
            self.block.conditions.append(Test(col, "IN", tuple(values)))
        return len(counts) == 1 and all(len(side) == 1 for side in rests)

    def _apart(self, node: Any, scope: Scope, negated: bool) -> tuple[list[Condition], list[Col]] | None:
        """The conditions of a side alone and its other columns; nothing where it is a value that may be true."""
        mark, before = self.block.mark(), len(self.block.slots)
        self.rewriter.no_joins += 1
        self.add(node, scope, negated)
        self.rewriter.no_joins -= 1
        assert len(self.block.slots) == before
        found, needed = self.block.conditions[mark[1] :], self.block.needed[mark[2] :]
        self.block.reset(mark)
        self.block.need(needed)
        return (found, needed) if found or needed else None

    # Comparisons

    def _A_Expr(self, node: Any, scope: Scope, negated: bool) -> None:
        kind, operator = node.kind, name_of(node.name)
        if kind == Kind.AEXPR_IN:
            self._in(node, scope, (operator == "<>") != negated)
        elif kind in (Kind.AEXPR_OP_ANY, Kind.AEXPR_OP_ALL):
            self._array(node, scope, operator, negated)
        elif kind in (Kind.AEXPR_BETWEEN, Kind.AEXPR_NOT_BETWEEN, Kind.AEXPR_BETWEEN_SYM, Kind.AEXPR_NOT_BETWEEN_SYM):
            self._between(node, scope, (kind in (Kind.AEXPR_NOT_BETWEEN, Kind.AEXPR_NOT_BETWEEN_SYM)) != negated)
        elif kind in (Kind.AEXPR_LIKE, Kind.AEXPR_ILIKE, Kind.AEXPR_SIMILAR):
            self._like(node, scope, operator.startswith("!") != negated, kind == Kind.AEXPR_LIKE)
        elif kind in (Kind.AEXPR_DISTINCT, Kind.AEXPR_NOT_DISTINCT):
            self.note("distinct from")
            equal = (kind == Kind.AEXPR_NOT_DISTINCT) != negated
            self._compare(self._term(node.lexpr, scope), "=" if equal else "<>", self._term(node.rexpr, scope))
        elif kind == Kind.AEXPR_OP and operator in (*INVERSE, "!=") and node.lexpr is not None:
            operator = "<>" if operator == "!=" else operator
            self._operator(node, INVERSE[operator] if negated else operator, scope)
        elif kind == Kind.AEXPR_OP and operator in ("~", "~*", "!~", "!~*", "~~", "!~~"):
            self._like(node, scope, operator.startswith("!") != negated, False)
        else:
            self._other(node, scope, negated)

    def _operator(self, node: Any, operator: str, scope: Scope) -> None:
        left, right = node.lexpr, node.rexpr
        if isinstance(left, ast.RowExpr) and isinstance(right, ast.RowExpr):
            self.note("row")
            if operator == "=":
                for one, other in zip(left.args, right.args):
                    self._compare(self._term(one, scope), "=", self._term(other, scope))
                return
            first = operator[0] + "=" if operator in ("<", ">") else operator
            if operator != "<>":
                self._compare(self._term(left.args[0], scope), first, self._term(right.args[0], scope))
            self._need("columns compared", *(self._term(it, scope) for it in (*left.args, *right.args)))
            return
        self._compare(self._term(left, scope), operator, self._term(right, scope))

    def _compare(self, left: Term, operator: str, right: Term) -> None:
        if is_value(left) and not is_value(right):
            left, operator, right = right, TURNED[operator], left
        if is_value(left):
            self.note("constant condition")
        elif isinstance(left, Col) and is_value(right):
            self._test(left, operator, self._value(right))
        elif isinstance(left, Col) and isinstance(right, Col) and operator == "=":
            self.block.conditions.append(Tie(left, right))
        elif has_unknown(left) or has_unknown(right):
            if operator != "=" or not (self._look_up(left, right) or self._look_up(right, left)):
                self._need("own statement", left, right)
        else:
            self._through_function(left, operator, right)

    def _look_up(self, left: Term, right: Term) -> bool:
        """Says by IN that a nested loop looks up what a query gives that is priced elsewhere; whether that is so."""
        rows = right.rows if isinstance(right, Unknown) else None
        if rows is None or not isinstance(left, Col) or left.column.no_key or not self.rewriter.options.look_ups:
            return False
        if not 1 <= rows <= MOST_LOOKED_UP or rows * FEWER > left.slot.table.rows:
            return False
        self.note("looked up")
        self.block.conditions.append(Test(left, "IN", (ANY,) * rows))
        return True

    def _through_function(self, left: Term, operator: str, right: Term) -> None:
        ones, others = [*dict.fromkeys(columns(left))], [*dict.fromkeys(columns(right))]
        if len(ones) == 1 and not others:
            self._function_of(ones[0], operator == "<>")
        elif operator == "=" and len(ones) == len(others) == 1 and ones[0].slot is not others[0].slot:
            self.note("join through a function")
            self.block.conditions.append(Tie(ones[0], others[0]))
        else:
            self._need("columns compared", left, right)

    def _function_of(self, col: Col, negated: bool = False) -> None:
        if negated:
            self._need("not", col)
        else:
            self.note("function of a column")
            self._test(col, "LIKE", ANY)

    def _in(self, node: Any, scope: Scope, negated: bool) -> None:
        if isinstance(node.lexpr, ast.RowExpr):
            self._rows_in(node, scope, negated)
            return
        left, items = self._term(node.lexpr, scope), [self._term(it, scope) for it in node.rexpr]
        if isinstance(left, Col) and all(map(is_value, items)):
            self._listed_in(left, [self._value(it) for it in items], negated)
        elif is_value(left) and all(map(is_value, items)):
            self.note("constant condition")
        else:
            found = {col for it in (left, *items) for col in columns(it)}
            if len(found) == 1 and not any(map(has_unknown, (left, *items))):
                self._function_of(found.pop(), negated)
            else:
                self._need("columns compared", left, *items)

    def _listed_in(self, col: Col, items: list[Value], negated: bool) -> None:
        if not negated:
            self._test(col, "IN", *items)
        elif len(items) <= MOST_NOT_IN:
            self.note("not in")
            for it in items:
                self._test(col, "<>", it)
        else:
            self._need("not", col)

    def _rows_in(self, node: Any, scope: Scope, negated: bool) -> None:
        lefts = [self._term(it, scope) for it in node.lexpr.args]
        rows = [it.args for it in node.rexpr if isinstance(it, ast.RowExpr) and len(it.args) == len(lefts)]
        if negated or len(rows) != len(node.rexpr):
            self._need("not" if negated else "columns compared", *lefts)
            return
        self.note("row")
        for at, left in enumerate(lefts):
            items = [self._term(row[at], scope) for row in rows]
            if isinstance(left, Col) and all(map(is_value, items)):
                self._test(left, "IN", *map(self._value, items))
            else:
                self._need("columns compared", left, *items)

    def _array(self, node: Any, scope: Scope, operator: str, negated: bool) -> None:
        is_any = node.kind == Kind.AEXPR_OP_ANY
        left = self._term(node.lexpr, scope)
        items = self._items(node.rexpr, scope)
        equal = (is_any and operator == "=" and not negated) or (not is_any and operator == "<>" and negated)
        unequal = (not is_any and operator in ("<>", "!=") and not negated) or (is_any and operator == "=" and negated)
        if items is None or not isinstance(left, Col) or not (equal or unequal):
            found = {*columns(left), *columns(self._term(node.rexpr, scope))}
            if len(found) == 1 and not negated and is_any:
                self._function_of(found.pop())
            else:
                self._need("not" if negated or not is_any else "columns compared", *found)
            return
        self.note("any array")
        self._listed_in(left, items, unequal)

    def _items(self, node: Any, scope: Scope) -> list[Value] | None:
        """The items of an array of values; nothing where it isn't one."""
        while isinstance(node, ast.TypeCast):
            node = node.arg
        if isinstance(node, ast.A_ArrayExpr):
            found = [self._term(it, scope) for it in node.elements or ()]
            return [self._value(it) for it in found] or [ANY] if all(map(is_value, found)) else None
        term = self._term(node, scope)
        if isinstance(term, Value) and isinstance(term.known, str) and re.fullmatch(r"\{[^{}\"]*\}", term.known):
            listed = [it.strip() for it in term.known[1:-1].split(",")]
            return [Value(it, int(it)) if re.fullmatch(r"-?\d{1,18}", it) else ANY for it in listed]
        return [ITEM] * ITEMS if is_value(term) else None

    def _between(self, node: Any, scope: Scope, negated: bool) -> None:
        if node.kind in (Kind.AEXPR_BETWEEN_SYM, Kind.AEXPR_NOT_BETWEEN_SYM):
            self.note("symmetric")
        col, low, high = (self._term(it, scope) for it in (node.lexpr, *node.rexpr))
        if negated:
            self._need("not", col, low, high)
        elif isinstance(col, Col) and is_value(low) and is_value(high):
            self._test(col, "BETWEEN", self._value(low), self._value(high))
        elif isinstance(col, Col) and (is_value(low) or is_value(high)):
            self._compare(col, ">=", low)
            self._compare(col, "<=", high)
        elif is_value(col) and is_value(low) and is_value(high):
            self.note("constant condition")
        elif is_value(col):
            self._compare(low, "<=", col)
            self._compare(high, ">=", col)
        else:
            found = {*columns(col), *columns(low), *columns(high)}
            if len(found) == 1:
                self._function_of(found.pop())
            else:
                self._need("columns compared", *found)

    def _like(self, node: Any, scope: Scope, negated: bool, is_like: bool) -> None:
        left, right = self._term(node.lexpr, scope), self._term(node.rexpr, scope)
        if negated:
            self._need("not", left, right)
        elif isinstance(left, Col) and is_value(right):
            if not is_like:
                self.note("pattern")
            self._test(left, "LIKE", self._value(right) if is_like else ANY)
        elif is_value(left) and is_value(right):
            self.note("constant condition")
        else:
            self._through_function(left, "like", right)

    # Other tests

    def _NullTest(self, node: Any, scope: Scope, negated: bool) -> None:
        term = self._term(node.arg, scope)
        is_null = (node.nulltesttype == NullTestType.IS_NULL) != negated
        if isinstance(term, Col):
            self._test(term, "IS NULL" if is_null else "IS NOT NULL")
        elif is_value(term):
            self.note("constant condition")
        else:
            self._need("columns compared", term)

    def _BooleanTest(self, node: Any, scope: Scope, negated: bool) -> None:
        kind = node.booltesttype
        if kind in (BoolTestType.IS_TRUE, BoolTestType.IS_FALSE):
            self.add(node.arg, scope, (kind == BoolTestType.IS_FALSE) != negated)
        else:
            self._need("not", self._term(node.arg, scope))

    def _ColumnRef(self, node: Any, scope: Scope, negated: bool) -> None:
        term = self._term(node, scope)
        if isinstance(term, Col):
            self.note("boolean")
            self._test(term, "=", ANY)
        else:
            self._other(node, scope, negated)

    def _CollateClause(self, node: Any, scope: Scope, negated: bool) -> None:
        self.add(node.arg, scope, negated)

    def _other(self, node: Any, scope: Scope, negated: bool) -> None:
        """A test of another form: a function of one column, of several, or of none."""
        term = self._term(node, scope)
        found = [*dict.fromkeys(columns(term))]
        if not found:
            self.note("own statement" if has_unknown(term) else "constant condition")
        elif len(found) == 1 and not has_unknown(term):
            self._function_of(found[0], negated)
        else:
            self._need("columns compared", *found)

    def _SubLink(self, node: Any, scope: Scope, negated: bool) -> None:
        kind, rewriter = node.subLinkType, self.rewriter
        if kind == SubLinkType.EXISTS_SUBLINK:
            if negated or not rewriter.join_subquery(self.block, node.subselect, scope, None):
                rewriter.own_statement(node.subselect, scope)
        elif kind == SubLinkType.ANY_SUBLINK and not node.operName:
            compared = node.testexpr
            if negated or not rewriter.join_subquery(self.block, node.subselect, scope, compared):
                left = self._term(compared, scope)
                rows = most_rows(node.subselect, scope.common, rewriter.changed_rows())
                if negated or not self._look_up(left, Unknown(rows)):
                    self._need("own statement", left)
                rewriter.own_statement(node.subselect, scope)
        elif kind == SubLinkType.EXPR_SUBLINK:
            rewriter.own_statement(node.subselect, scope, is_for_each=True)
        else:
            self._need("own statement", self._term(node.testexpr, scope))
            rewriter.own_statement(node.subselect, scope)
