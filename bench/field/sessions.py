"""Connections to the field's server, and indexes as the field names them."""
from __future__ import annotations

import re
from collections.abc import Iterator
from contextlib import contextmanager
from typing import Any, NamedTuple

import psycopg
from server import FieldServer

Connection = psycopg.Connection[Any]
_CREATE = re.compile(r'ON (?:ONLY )?(?:"?\w+"?\.)?"?(\w+)"? ?(?:USING btree )?\(([^()]*)\)')


class Index(NamedTuple):
    """A B-tree index by its table and its columns."""

    table: str
    columns: tuple[str, ...]

    def __str__(self) -> str:
        return f"{self.table}({', '.join(self.columns)})"

    def quoted(self) -> str:
        """As CREATE INDEX has it behind ON."""
        return f'"{self.table}" ({", ".join(f"{chr(34)}{it}{chr(34)}" for it in self.columns)})'


def index_of(statement: str) -> Index:
    """The index that a CREATE INDEX makes."""
    found = _CREATE.search(statement)
    if found is None:
        raise ValueError(f"no index can be read from {statement}")
    return Index(found[1], tuple(it.strip().strip('"') for it in found[2].split(",")))


@contextmanager
def session(server: FieldServer, database: str) -> Iterator[Connection]:
    """A connection as the owner of the tables, without transactions of its own and without prepared statements."""
    words = f"host={server.folder} user=cophy dbname={database}"
    with psycopg.connect(words, autocommit=True, prepare_threshold=None) as connection:
        yield connection


def made(connection: Connection) -> list[Index]:
    """The B-tree indexes that are there, whole columns alone."""
    rows = connection.execute(
        "SELECT pg_get_indexdef(indexrelid) FROM pg_index JOIN pg_class c ON c.oid = indrelid "
        "WHERE relnamespace::regnamespace::text = 'public' AND indexprs IS NULL AND indpred IS NULL"
    )
    return [index_of(it[0]) for it in rows.fetchall()]
