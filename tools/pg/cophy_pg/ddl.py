"""The indexes that stand for the picks of an advice, with the statements that make them."""
from __future__ import annotations

import re
from dataclasses import dataclass

from cophy_text import files
from cophy_text.answers import Advice, Candidate, NoAnswer, read_advice, read_retuned
from cophy_pg.included import key_count
from cophy_pg.schema import Schema, Table, path_of, plain_name

LONGEST = 63
_PLAIN = re.compile(r"[ -~]*\Z")


class NoIndex(Exception):
    """A pick that isn't of this catalogue."""


@dataclass(frozen=True)
class Applied(Candidate):
    """An index over a function of its one column, which the program doesn't know."""

    function: str = ""

    def shown(self) -> str:
        return f"{self.table}({self.function}({self.columns[0]}))"


@dataclass(frozen=True)
class Named:
    """An index that is to be made: its name, its table, its columns, of which the first `keys` are keys, whether it
    is made CONCURRENTLY, and PostgreSQL's function of its one column that it is over, where it isn't over that
    itself."""

    name: str
    where: tuple[str, str]
    columns: list[str]
    keys: int
    is_concurrent: bool
    function: str = ""

    def shown(self) -> str:
        """Its name with its schema, as it is written."""
        return written_path((self.where[0], self.name))

    def columns_text(self) -> str:
        """Its columns as they are written. No other function of that name is meant, whatever the path."""
        if self.function:
            return f"(pg_catalog.{self.function}({written_name(self.columns[0])}))"
        keys, others = (
            ", ".join(map(written_name, it)) for it in (self.columns[: self.keys], self.columns[self.keys :])
        )
        return f"({keys})" + (f" INCLUDE ({others})" if others else "")

    def statement(self) -> str:
        """The statement that makes it."""
        concurrently = "CONCURRENTLY " if self.is_concurrent else ""
        return (
            f"CREATE INDEX {concurrently}{written_name(self.name)} ON {written_path(self.where)} {self.columns_text()};"
        )


@dataclass(frozen=True)
class Laid:
    """A table whose rows are to be laid in the order of an index, and the name of that."""

    where: tuple[str, str]
    index: str

    def statements(self) -> list[str]:
        """The statements that lay them."""
        table = written_path(self.where)
        return [f"CLUSTER {table} USING {written_name(self.index)};", f"ANALYZE {table};"]


@dataclass
class Made:
    """A pick with the indexes that stand for it, of a clustered one with the table that is laid in the order of its index, or
    why none can be made; and its place among those that are made, from 1, as it is shown."""

    pick: Candidate
    indexes: tuple[Named, ...] = ()
    why_not: str = ""
    laid: Laid | None = None
    place: int = 0

    @property
    def name(self) -> str:
        """The name of the first index."""
        return self.indexes[0].name if self.indexes else self.laid.index if self.laid else ""

    @property
    def where(self) -> tuple[str, str]:
        """The table, where anything is made."""
        return self.laid.where if self.laid else self.indexes[0].where

    @property
    def path(self) -> str:
        """The table as it is shown to people."""
        return path_of(*self.where, self.pick.table) if self.indexes or self.laid else self.pick.table

    def shown(self) -> str:
        """The pick as it is shown to people."""
        return self.path + self.pick.shown().removeprefix(self.pick.table)

    @property
    def analyses(self) -> list[str]:
        """What counts the values of functions once their indexes are there."""
        tables = dict.fromkeys(it.where for it in self.indexes if it.function)
        return [f"ANALYZE {written_path(it)};" for it in tables]

    @property
    def statements(self) -> list[str]:
        """The statements that make the indexes."""
        laid = self.laid.statements() if self.laid else ()
        return [*(it.statement() for it in self.indexes), *laid, *self.analyses]


def advice_of(file: str, may_be_retuned: bool = False) -> Advice:
    """The advice of a file, or of the standard input; of what `retune` printed the last one, where only the picks' tables and
    columns count, since it numbers the candidates of the edited statements."""
    text = files.read(file).decode(errors="replace")
    if not text.startswith("advice 1\n"):
        return read_advice(text)
    if not may_be_retuned:
        raise NoAnswer("retune numbers the candidates of the edited statements: give what cophy advise prints on these")
    return read_retuned(text)[-1]


def table_of(schema: Schema, pick: Candidate) -> Table:
    """The table of a pick."""
    table = next((it for it in schema.tables.values() if it.shown.lower() == pick.table.lower()), None)
    if table is None:
        raise NoIndex(f"the catalogue has no table {pick.table}: is this its advice?")
    return table


def names_of(schema: Schema, pick: Candidate) -> tuple[Table, list[str]]:
    """The table of a pick and PostgreSQL's names of its columns."""
    table = table_of(schema, pick)
    by_shown = {it.shown.lower(): it.name for it in table.columns.values()}
    if any(it.lower() not in by_shown for it in pick.columns):
        raise NoIndex(f"the table {pick.table} lacks a column of {pick.shown()}: is this its advice?")
    return table, [by_shown[it.lower()] for it in pick.columns]


def why_not(schema: Schema, pick: Candidate) -> str:
    """Why PostgreSQL can't make a pick; nothing where it can."""
    table = table_of(schema, pick)
    given = {it.lower() for it in pick.columns}
    if given & {it.shown.lower() for it in table.spares}:
        return "it has a column that stands for what no index holds"
    if pick.is_clustered and (table.is_partitioned or table.children or not table.may_cluster):
        return "the catalogue doesn't say that the rows of its table may be laid anew"
    columns = names_of(schema, pick)[1]
    found = [it for it in columns if table.columns[it].no_key]
    return "; ".join(f"no index can have {table.columns[it].shown}: {table.columns[it].no_key}" for it in found)


def written_name(name: str) -> str:
    """A name in PostgreSQL's quotes, in printable ASCII whatever it holds."""
    return _written(name, '"', _PLAIN.match(name) is not None)


def written_path(path: tuple[str, str]) -> str:
    """A name behind its schema, as they are written."""
    return ".".join(map(written_name, path))


def written_text(text: str) -> str:
    """A text as a literal in printable ASCII, whatever it holds and however the server takes a backslash."""
    return _written(text, "'", _PLAIN.match(text) is not None and "\\" not in text)


def _written(text: str, quote: str, is_plain: bool) -> str:
    if is_plain:
        return quote + text.replace(quote, 2 * quote) + quote
    shown = []
    for it in text:
        code = ord(it)
        if it in (quote, "\\"):
            shown.append(it * 2)
        else:
            shown.append(it if 32 <= code < 127 else f"\\{code:04x}" if code < 0x10000 else f"\\+{code:06x}")
    return f"U&{quote}{''.join(shown)}{quote}"


def create(schema: Schema, pick: Candidate, taken: set[str]) -> Made:
    """The index that is to be made, of whose columns the first ones, or else all, are keys; of a table that others inherit
    from, one for each of them too."""
    why = why_not(schema, pick)
    if why:
        return Made(pick, why_not=why)
    table, columns = names_of(schema, pick)
    where, there = (table.schema, table.name), table.index_over(columns) if pick.is_clustered else None
    if there is not None and there.ordered:
        return Made(pick, why_not=f"the rows lie in its order already, by the index {written_name(there.name)}")
    if there is not None:
        return Made(pick, laid=Laid(where, there.name))
    function = pick.function if isinstance(pick, Applied) else ""
    end, count = "_".join([*[function] * bool(function), *pick.columns]), key_count(pick, schema.searched)
    name = _free(f"{table.shown}_{end}", taken)
    indexes = [Named(name, where, columns, count, not table.is_partitioned, function)]
    for child in table.children:
        known = schema.tables.get(child)
        if known is None or function or not any(it.keys == columns for it in known.indexes):
            stem = known.shown if known is not None else plain_name(child[1])
            indexes.append(Named(_free(f"{stem}_{end}", taken), child, columns, count, True, function))
    return Made(pick, tuple(indexes), laid=Laid(where, name) if pick.is_clustered else None)


def _free(stem: str, taken: set[str]) -> str:
    """A name that no table and no index has, of at most 63 bytes."""
    number = 0
    while True:
        end = f"_{number}_idx" if number else "_idx"
        name = stem[: LONGEST - len(end)] + end
        if name.lower() not in taken:
            taken.add(name.lower())
            return name
        number += 1


def taken_names(schema: Schema) -> set[str]:
    """The names of all tables and indexes of a catalogue, and of what was left out of it."""
    tables = schema.tables.values()
    names = {it.name.lower() for it in tables} | {index.name.lower() for it in tables for index in it.indexes}
    return names | {it.lower() for it in schema.taken}
