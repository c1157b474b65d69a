"""What a statement asks of an index, in a few words: what like statements have in common, as their select list, is
left out."""
from __future__ import annotations

import re
from collections.abc import Iterable
from typing import Any

from pglast import ast
from pglast.parser import ParseError
from pglast.stream import RawStream

from cophy_text.shown import short
from cophy_pg.expression_hints import joined, sides
from cophy_pg.rewrite.expressions import nodes_of
from cophy_pg.rewrite.parse import parsed
from cophy_pg.schema import plain_name

_FROM, _WHERE = (re.compile(rf"\b{it}\b", re.IGNORECASE) for it in ("FROM", "WHERE"))
CLAUSES = {"sortClause": "ORDER BY", "groupClause": "GROUP BY"}
MOST_PARSED = 5_000
"""A statement of more characters isn't parsed, since deep ones take time by the square of their length."""


def purpose_of(sql: str, table: str, columns: Iterable[str], most: int) -> str:
    """Of a statement the conditions with a column of an index, behind WHERE wherever they stand; or else what it
    orders or groups by with one; or else, and where it is long, what begins with its first FROM; all of it where it
    has none or can't be parsed. The names of table and columns are those of the catalogue; one may stand within a
    function."""
    named = {it for shown in columns for it in re.findall(r"\w+", shown.lower())}
    try:
        served = _served(parsed(sql), table, named) if len(sql) <= MOST_PARSED else ""
    except (ParseError, RecursionError, ValueError, NotImplementedError):
        return short(sql, most)
    found = _FROM.search(sql)
    return short(served or sql[found.start() if found else 0 :], most)


def filter_of(sql: str, most: int) -> str:
    """A statement where it isn't cut; or else its conditions, those first that compare more than a column to a value by
    `=`, with its table where it reads one alone; or else what begins with its first WHERE or FROM."""
    whole = short(sql, most)
    if whole == short(sql, most + 3):
        return whole
    try:
        text = _filter(parsed(sql)) if len(sql) <= MOST_PARSED else ""
    except (ParseError, RecursionError, ValueError, NotImplementedError):
        text = ""
    found = _WHERE.search(sql) or _FROM.search(sql)
    return short(text or sql[found.start() if found else 0 :], most)


def _filter(tree: Any) -> str:
    """The conditions of the first part of a statement that has some; nothing where none has."""
    node = next((it for it in nodes_of(tree) if getattr(it, "whereClause", None) is not None), None)
    if node is None:
        return ""
    sources = [*(getattr(node, "fromClause", None) or [])]
    begin = f"FROM {sources[0].relname} " if len(sources) == 1 and isinstance(sources[0], ast.RangeVar) else ""
    conditions = sorted(joined(node.whereClause), key=_is_plain)
    return f"{begin}WHERE {' AND '.join(_written(it, len(conditions) > 1) for it in conditions)}"


def _is_plain(node: Any) -> bool:
    """Whether a condition compares a column by `=`."""
    return any(isinstance(side, ast.ColumnRef) for side, _ in sides(node)[:1])


def _served(tree: Any, table: str, columns: set[str]) -> str:
    """The part of a statement that an index serves; nothing where that isn't seen."""
    names = {_visible(it) for it in nodes_of(tree) if isinstance(it, ast.RangeVar) and _is_of(it, table)}

    def has(node: Any) -> bool:
        return any(_is_in(it, names, columns) for it in nodes_of(node))

    nodes = [*nodes_of(tree)]
    clauses = [getattr(it, name, None) for it in nodes for name in ("whereClause", "quals")]
    conditions = [it for clause in clauses for it in joined(clause)]
    plain = [
        it for it in conditions if it is not None and not any(isinstance(one, ast.SubLink) for one in nodes_of(it))
    ]
    if served := [it for it in plain if has(it)]:
        return f"WHERE {' AND '.join(dict.fromkeys(_written(it, len(served) > 1) for it in served))}"
    for name, words in CLAUSES.items():
        listed = [it for node in nodes if has(it := getattr(node, name, None) or ())]
        if listed:
            return f"{words} {', '.join(map(_written, listed[0]))}"
    return ""


def _visible(node: Any) -> str:
    return str(node.alias.aliasname if node.alias else node.relname).lower()


def _is_of(node: Any, table: str) -> bool:
    """Whether a name is that of a table of the catalogue, which may have its schema before it."""
    name = plain_name(node.relname).lower()
    return table.lower() == name or table.lower().endswith(f"_{name}")


def _is_in(node: Any, names: set[str], columns: set[str]) -> bool:
    """Whether this is one of some columns of a table with one of these names, or may be."""
    if not isinstance(node, ast.ColumnRef) or not isinstance(node.fields[-1], ast.String):
        return False
    *before, column = (str(it.sval) for it in node.fields)
    return plain_name(column).lower() in columns and (not before or before[-1].lower() in names)


def _written(node: Any, is_one_of_many: bool = False) -> str:
    """A condition, in which columns stand without their table where all are of one."""
    found = [it for it in nodes_of(node) if isinstance(it, ast.ColumnRef) and len(it.fields) > 1]
    if len({tuple(part.sval for part in it.fields[:-1] if isinstance(part, ast.String)) for it in found}) == 1:
        for it in found:
            it.fields = it.fields[-1:]
    text = str(RawStream()(node))
    return f"({text})" if is_one_of_many and isinstance(node, ast.BoolExpr) else text
