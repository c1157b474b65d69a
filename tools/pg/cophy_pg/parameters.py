"""The types of a statement's parameters, where the server can't tell them itself."""
from __future__ import annotations

from collections.abc import Iterable, Iterator
from dataclasses import dataclass, field
from typing import Any

from pglast import ast

from cophy_pg.expected import Expected, known
from cophy_pg.rewrite.expressions import nodes_of
from cophy_pg.rewrite.parse import parsed
from cophy_pg.server import Server, ServerFault, quoted_name

UNTYPED = frozenset(("42P18", "42P08", "42725", "42804", "42846", "42883"))
"""Faults of a statement that another type of a parameter may lack."""
KINDS = ("numeric", "text", "int4", "interval", "timestamptz", "date", "_text", "_int8", "jsonb")
PAIRS = (("timestamptz", "interval"), ("interval", "timestamptz"), ("date", "int4"), ("int4", "date"))
"""Types of two parameters that are computed with each other."""


@dataclass
class Columns:
    """The types of all columns of tables, by the table's number."""

    types: dict[int, dict[str, str]] = field(default_factory=dict)

    @staticmethod
    def read(server: Server, tables: Iterable[int]) -> Columns:
        found = Columns()
        rows = server.rows(
            "SELECT a.attrelid::int8, a.attname::text, n.nspname::text, t.typname::text FROM pg_catalog.pg_attribute a "
            "JOIN pg_catalog.pg_type t ON t.oid = a.atttypid JOIN pg_catalog.pg_namespace n ON n.oid = t.typnamespace "
            "WHERE a.attrelid = ANY(%s::oid[]) AND a.attnum > 0 AND NOT a.attisdropped",
            ([*tables],),
        )
        for table, name, schema, kind in rows:
            found.types.setdefault(int(table), {})[str(name)] = f"{quoted_name(schema)}.{quoted_name(kind)}"
        return found

    def type_of(self, column: Any, sources: dict[str, set[int]]) -> str | None:
        """The type of a column reference; nothing where columns of several types may be meant."""
        *before, name = [it.sval if isinstance(it, ast.String) else "*" for it in column.fields]
        named = sources.get(before[-1]) if before else None
        tables = named if named is not None else set[int]().union(*sources.values())
        found = {kind for it in tables if (kind := self.types.get(it, {}).get(name))}
        return found.pop() if len(found) == 1 else None


def of_columns(tree: Any, numbers: dict[tuple[str | None, str], int], columns: Columns) -> Iterator[dict[int, str]]:
    """Types for parameters: those that what stands beside them asks for, and then none. `numbers` are those of the tables."""
    sources: dict[str, set[int]] = {}
    for it in nodes_of(tree):
        if isinstance(it, ast.RangeVar) and (number := numbers.get((it.schemaname, it.relname))):
            sources.setdefault(it.alias.aliasname if it.alias else it.relname, set()).add(number)
    found = Expected(tree, lambda it: columns.type_of(it, sources)).types
    yield found
    if found:
        yield {}


def choices(text: str, fault: ServerFault, typed: Iterable[int]) -> Iterator[dict[int, str]]:
    """Types for those parameters without one that a fault of a statement with this text is about."""
    group = [it for it in _at(text, fault) if it not in {*typed}]
    for kind in KINDS if group else ():
        yield dict.fromkeys(group, known(kind))
    for pair in PAIRS if len(group) == 2 else ():
        yield dict(zip(group, map(known, pair), strict=True))


def _at(text: str, fault: ServerFault) -> list[int]:
    """The parameters that a fault is about: the one that it names, those of what stands at its place, or else all."""
    if fault.parameter:
        return [fault.parameter]
    every = [*nodes_of(parsed(text)[0].stmt)]
    if fault.place is None:
        return _numbers(every)
    at = len(text[: fault.place].encode())
    here = [it for it in every if getattr(it, "location", None) == at]
    near = [_numbers(_terms(tuple(getattr(it, name) for name in it), True)) for it in here]
    return next(filter(None, (*near, *(_numbers(nodes_of(it)) for it in here))), [])


def _numbers(nodes: Iterable[Any]) -> list[int]:
    return [*dict.fromkeys(it.number for it in nodes if isinstance(it, ast.ParamRef))]


def _is_computed(node: Any) -> bool:
    return isinstance(node, ast.A_Expr) and node.name[-1].sval in ("+", "-", "*", "/", "%")


def _terms(node: Any, is_deep: bool) -> Iterator[Any]:
    """The columns and parameters that a side consists of, or those below what is computed too."""
    if isinstance(node, (ast.ColumnRef, ast.ParamRef)):
        yield node
    elif isinstance(node, tuple):
        for it in node:
            yield from _terms(it, is_deep)
    elif isinstance(node, ast.A_ArrayExpr):
        yield from _terms(node.elements or (), is_deep)
    elif is_deep and _is_computed(node):
        yield from _terms((node.lexpr, node.rexpr), True)
