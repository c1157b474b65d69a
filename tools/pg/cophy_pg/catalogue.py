"""Writes a schema as a catalogue, and reads one back."""
from __future__ import annotations

import tomllib
from collections.abc import Mapping
from datetime import date
from typing import Any

from cophy_text import keys
from cophy_pg.bounds import MOST_PARTS
from cophy_pg.places import MOST_SCALE, day_number, text_of_number
from cophy_pg.schema import Column, Index, Schema, Table, share_of

VERSION = 2
KINDS = ("int", "text", "date")


def toml_text(text: str) -> str:
    """A text of TOML in ASCII, whatever it holds."""
    shown = ['"']
    for it in text:
        code = ord(it)
        if it in '"\\':
            shown.append("\\" + it)
        elif 32 <= code < 127:
            shown.append(it)
        else:
            shown.append(f"\\u{code:04x}" if code < 0x10000 else f"\\U{code:08x}")
    return "".join([*shown, '"'])


def _toml(value: object) -> str:
    if isinstance(value, list):
        return f"[{', '.join(map(_toml, value))}]"
    if isinstance(value, bool):
        return str(value).lower()
    if isinstance(value, float):
        return f"{value:.6f}"
    return toml_text(value) if isinstance(value, str) else str(value)


def _lines(values: Mapping[str, object]) -> list[str]:
    """A line for each key that has a value."""
    return [f"{key} = {_toml(it)}" for key, it in values.items() if it is not None]


def catalogue_text(schema: Schema, rates: dict[str, int], head: list[str]) -> str:
    """The catalogue, with remarks as comments."""
    lines = [*(f"# {it}" for it in head), *_lines({"version": VERSION, keys.TAKEN: schema.taken or None})]
    lines += ["", "[rates]", *_lines(rates)]
    for table in schema.tables.values():
        lines += ["", *(f"# {it}" for it in table.remarks), "[[table]]", *_lines(_table(table))]
        for column in (*table.columns.values(), *table.spares):
            lines += ["", "[[table.column]]", *_lines(_column(column))]
        for index in table.indexes:
            lines += ["", *index_lines(index, table)]
    return "\n".join(lines) + "\n"


def index_lines(index: Index, table: Table) -> list[str]:
    """The block of an index."""
    return ["[[table.index]]", *_lines(_index(index, table))]


def _table(table: Table) -> dict[str, object]:
    notes = [keys.PARTITIONED] * table.is_partitioned + [keys.NOT_ANALYSED] * (not table.is_analysed)
    is_plain = not notes and (table.schema, table.name) == ("public", table.shown)
    return {
        "name": table.shown,
        "rows": table.rows,
        "pages": table.pages,
        "may_cluster": table.may_cluster or None,
        keys.OURS: None if is_plain else [table.schema, table.name, *notes],
        keys.CHILDREN: [[*it] for it in table.children] or None,
    }


def _column(column: Column) -> dict[str, object]:
    has_ends = column.low is not None and column.high is not None
    return {
        "name": column.shown,
        "kind": column.kind,
        "width": column.width,
        "distinct": column.distinct,
        "low": _end_of(column, column.low) if has_ends else None,
        "high": _end_of(column, column.high) if has_ends else None,
        "bounds": [_end_of(column, it) for it in column.bounds] or None,
        keys.OURS: column.name if column.shown != column.name else None,
        keys.TYPE: column.type or None,
        keys.SCALE: column.scale or None,
        keys.FRACTIONS: column.has_fractions or None,
        keys.NULLS: column.nulls or None,
        keys.COMMON: column.common or None,
        keys.SIZES: column.sizes or None,
        keys.CORRELATION: column.correlation or None,
        keys.MOST: column.most or None,
        keys.NO_KEY: column.no_key or None,
    }


def _end_of(column: Column, end: int | None) -> int | str | None:
    if end is None or column.kind != "date":
        return end
    return text_of_number(column, end).removeprefix("DATE ").strip("'")


def _index(index: Index, table: Table) -> dict[str, object]:
    return {
        "name": index.shown,
        "keys": [table.columns[it].shown for it in index.keys],
        keys.OURS: index.name if index.shown != index.name else None,
        "unique": index.unique or None,
        "clustered": index.clustered or None,
        keys.ORDERED: index.ordered or None,
    }


class NoCatalogue(Exception):
    """A file that holds no catalogue."""


def read_schema(content: bytes) -> Schema:
    """The schema of a catalogue that `cophy` takes, with the names that PostgreSQL knows where it has them."""
    try:
        document = tomllib.loads(content.decode())
        is_second = document.get("version") == VERSION
        tables = [_read_table(it, is_second) for it in _of(list, document.get("table", []))]
        taken = _texts(document.get(keys.TAKEN, []))
    except (ValueError, TypeError, KeyError, AttributeError, RecursionError):
        raise NoCatalogue from None
    path = dict.fromkeys(["public", *(it.schema for it in tables)])
    schema = Schema(tables, path)
    schema.taken, schema.is_written = taken, True
    return schema


def _of(kind: type, value: Any) -> Any:
    """A value, if it is of this type."""
    if not isinstance(value, kind) or (kind is int and isinstance(value, bool)):
        raise TypeError
    return value


def _texts(value: Any) -> list[str]:
    return [_of(str, it) for it in _of(list, value)]


def _read_table(element: dict[str, Any], is_second: bool) -> Table:
    shown = _of(str, element["name"])
    schema, name, *notes = _texts(element.get(keys.OURS, ["public", shown]))
    table = Table(schema, name, shown, _of(int, element["rows"]), _of(int, element["pages"]))
    table.is_partitioned, table.is_analysed = keys.PARTITIONED in notes, keys.NOT_ANALYSED not in notes
    table.may_cluster = is_second and _of(bool, element.get("may_cluster", False))
    for it in _of(list, element.get(keys.CHILDREN, [])):
        child_schema, child = _texts(it)
        table.children.append((child_schema, child))
    by_shown: dict[str, str] = {}
    for it in _of(list, element["column"]):
        column = _read_column(it, is_second)
        if column.name:
            table.columns[column.name] = column
            by_shown[column.shown.lower()] = column.name
        else:
            table.spares.append(column)
    for it in _of(list, element.get("index", [])):
        names = [by_shown[key.lower()] for key in _texts(it["keys"])]
        flags = (_of(bool, it.get(flag, False)) for flag in ("unique", "clustered", keys.ORDERED))
        table.indexes.append(Index(_of(str, it.get(keys.OURS, it["name"])), _of(str, it["name"]), names, *flags))
    return table


def _read_column(element: dict[str, Any], is_second: bool) -> Column:
    shown, kind = _of(str, element["name"]), _of(str, element["kind"])
    if kind not in KINDS:
        raise ValueError
    column = Column(_of(str, element.get(keys.OURS, shown)), shown, kind, _of(int, element["width"]))
    column.no_key, column.type = (_of(str, element.get(it, "")) for it in (keys.NO_KEY, keys.TYPE))
    column.scale = min(MOST_SCALE, max(0, _of(int, element.get(keys.SCALE, 0))))
    column.nulls = share_of(_of(float, element.get(keys.NULLS, 0.0)))
    column.common = share_of(_of(float, element.get(keys.COMMON, 0.0)))
    column.correlation = share_of(_of(float, element.get(keys.CORRELATION, 0.0)))
    column.sizes = [max(1, _of(int, it)) for it in _of(list, element.get(keys.SIZES, []))]
    column.has_fractions = _of(bool, element.get(keys.FRACTIONS, False))
    column.most = max(0, _of(int, element.get(keys.MOST, 0)))
    if "distinct" in element:
        column.distinct = _of(int, element["distinct"])
    if kind != "text":
        column.low, column.high = _end(kind, element.get("low")), _end(kind, element.get("high"))
        if is_second and "bounds" in element:
            column.bounds = _read_bounds(kind, _of(list, element["bounds"]))
    return column


def _read_bounds(kind: str, values: list[Any]) -> list[int]:
    found = [end for it in values if (end := _end(kind, it)) is not None]
    if not 2 <= len(found) <= MOST_PARTS + 1 or found != sorted(found):
        raise ValueError
    return found


def _end(kind: str, value: Any) -> int | None:
    if value is None:
        return None
    return day_number(date.fromisoformat(_of(str, value))) if kind == "date" else int(_of(int, value))
