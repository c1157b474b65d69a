"""The keys of a catalogue, as docs/FORMATS.md lists them."""
from __future__ import annotations

import difflib
import re
from collections.abc import Iterator
from typing import Any

RATES = {
    "seq_page": 1000,
    "rand_page": 4000,
    "row_cpu": 10,
    "sort_cpu": 5,
    "merge_cpu": 5,
    "hash_cpu": 8,
    "group_cpu": 5,
}
KNOWN: dict[str, tuple[str, ...]] = {
    "": ("version", "rates", "table"),
    "rates": tuple(RATES),
    "table": ("name", "rows", "pages", "column", "index"),
    "column": ("name", "kind", "width", "distinct", "low", "high"),
    "index": ("name", "keys", "unique", "clustered"),
}
SECOND = {"table": ("may_cluster",), "column": ("bounds",)}
"""The keys that version 2 has beside these."""
RANGES = {
    "version": "the whole number 1 or 2",
    "rows": "a whole number from 0 to 10^12",
    "pages": "a whole number from 0 to 10^12",
    "width": "a whole number of bytes from 1 to 1000",
    "distinct": "a whole number from 1 to 10^12",
    "kind": 'one of the texts "int", "text" and "date"',
    "low": 'a whole number for a column of kind int, a text "yyyy-mm-dd" for one of kind date',
    "high": "what low may be, and not below it",
    "bounds": "a list of 2 to 257 ends, each of which low may be, none below the one before",
    "may_cluster": "true or false",
    "name": "a text of 1 to 64 ASCII letters, digits and _, with no digit first",
    "keys": "a list of 1 to 8 names of columns of the table",
    "unique": "true or false",
    "clustered": "true or false, and true for one index of a table at most",
    "table": "at most 200 tables, each written [[table]]",
    "column": "1 to 200 columns, each written [[table.column]]",
    "index": "at most 1000 indexes in all, each written [[table.index]]",
    "rates": "a table [rates]",
    **{it: "a whole number from 0 to 1000000" for it in RATES},
}
OURS = "postgres"
"""A key under which the export keeps what PostgreSQL calls a table, a column or an index; `cophy` passes it over, as it does
the keys below. A table's has its schema, its name, and words of these two. A column's is empty where PostgreSQL has no such
column."""
PARTITIONED, NOT_ANALYSED = "partitioned", "never analysed"
NO_KEY = "postgres_no_key"
"""Why no B-tree index can have a column."""
CHILDREN = "postgres_children"
"""The tables that inherit from a table, each with its schema and its name."""
TAKEN = "postgres_taken"
"""Names of relations that the catalogue doesn't have, which no new index may have."""
TYPE = "postgres_type"
"""The name of a column's type, where it is PostgreSQL's own."""
SCALE = "postgres_scale"
"""The numbers of a column are its values times ten to this power."""
FRACTIONS = "postgres_fractions"
"""Whether values of a column lie between its numbers."""
NULLS = "postgres_nulls"
"""The share of the rows that have no value in a column."""
COMMON = "postgres_common"
"""The share that a column's most common value has of the rows with a value."""
SIZES = "postgres_sizes"
"""How many bytes the values of a column of texts take with their headers: each number stands for as many rows."""
CORRELATION = "postgres_correlation"
"""How nearly the rows lie in the order of a column, where they nearly do."""
MOST = "postgres_most"
"""The most bytes that a value of a column may have in an index, where its length varies and no index limits it."""
ENTRY, LONGEST_ENTRY = 2704, 2600
"""The bytes that an entry of an index has at most, a third of a page, and those without its header and the gaps between its
columns."""
ORDERED = "postgres_ordered"
"""Whether the rows lie in the order of an index that isn't `clustered`, since they may be laid in another one."""
PASSED_OVER = frozenset(
    (OURS, NO_KEY, CHILDREN, TAKEN, TYPE, SCALE, FRACTIONS, NULLS, COMMON, SIZES, CORRELATION, MOST, ORDERED)
)

_STEP = re.compile(r"([a-z_]+)(?:\[(\d+)\])?")


def steps(path: str) -> list[tuple[str, int]]:
    """The steps of a path such as `table[2].column[1].width`, each with its number from 1, or 0."""
    return [(it[1], int(it[2] or 0)) for it in _STEP.finditer(path)]


def nearest(word: str, known: tuple[str, ...] | list[str]) -> str | None:
    """The known word that is most like this one, if any is."""
    folded = {it.lower(): it for it in known}
    found = difflib.get_close_matches(word.lower(), list(folded), 1, 0.6)
    return folded[found[0]] if found else None


def known(part: str, version: object) -> tuple[str, ...]:
    """The keys of a part of a catalogue of this version."""
    return KNOWN.get(part, ()) + (SECOND.get(part, ()) if version == 2 else ())


def unknown_keys(catalogue: dict[str, Any]) -> Iterator[tuple[str, str]]:
    """Each key that `cophy` passes over, as its path and a hint, which may be empty."""
    version = catalogue.get("version")
    yield from _unknown("", "", catalogue, version)
    rates = catalogue.get("rates")
    if isinstance(rates, dict):
        yield from _unknown("rates", "rates.", rates, version)
    for number, table in _elements(catalogue, "table"):
        yield from _unknown("table", f"table[{number}].", table, version)
        for part in ("column", "index"):
            for at, element in _elements(table, part):
                yield from _unknown(part, f"table[{number}].{part}[{at}].", element, version)


def _unknown(part: str, path: str, element: dict[str, Any], version: object) -> Iterator[tuple[str, str]]:
    for key in element:
        if key in known(part, version) or key in PASSED_OVER:
            continue
        yield f"{path}{key}", _hint(part, key, version)


def _hint(part: str, key: str, version: object) -> str:
    if key in SECOND.get(part, ()):
        return "version 2 has it"
    if part == "" and key in ("column", "index", "columns", "indexes"):
        singular = "column" if key.startswith("column") else "index"
        return f"write [[table.{singular}]], below the table that it belongs to"
    if part == "" and key in RATES:
        return "it belongs under [rates]"
    near = nearest(key, known(part, version))
    return f"did you mean {near}?" if near else f"known here are {', '.join(known(part, version))}"


def _elements(parent: dict[str, Any], part: str) -> Iterator[tuple[int, dict[str, Any]]]:
    listed = parent.get(part)
    for number, element in enumerate(listed if isinstance(listed, list) else [], 1):
        if isinstance(element, dict):
            yield number, element
