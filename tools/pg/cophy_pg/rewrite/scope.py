"""The names that a query sees: its sources with their columns, and those of the queries around it."""
from __future__ import annotations

from collections.abc import Iterator
from dataclasses import dataclass, field
from typing import TYPE_CHECKING, Any

from cophy_pg.rewrite.terms import ANY, Col, Rows, Slot, Term, Unknown

if TYPE_CHECKING:
    from cophy_pg.rewrite.block import Block

SYSTEM = frozenset(("ctid", "xmin", "xmax", "cmin", "cmax", "tableoid"))


@dataclass
class Entry:
    """A source as the query sees it. Its columns go by name; `is_open` says that it may have others, of which nothing is
    known. `slot` is there where the source is a table."""

    name: str
    columns: dict[str, Term] = field(default_factory=dict)
    slot: Slot | None = None
    is_open: bool = False
    schema: str | None = None

    def renamed(self, names: list[str]) -> Entry:
        """The entry with other names for its first columns."""
        if not names:
            return self
        listed = list(self.columns.items())
        changed = {names[at] if at < len(names) else name: term for at, (name, term) in enumerate(listed)}
        return Entry(self.name, changed, self.slot if len(names) == 0 else None, self.is_open, self.schema)

    def get(self, column: str) -> Term | None:
        if column in self.columns:
            return self.columns[column]
        return Unknown() if self.is_open else None


def entry_of(slot: Slot, name: str) -> Entry:
    """The entry of a table."""
    return Entry(name, {it.name: Col(slot, it) for it in slot.table.columns.values()}, slot, schema=slot.table.schema)


@dataclass
class Common:
    """A query of WITH: either its tree, to be joined where it is named once, or what stands for it."""

    tree: Any
    names: list[str]
    entry: Entry | None = None


class NoSuchColumn(Exception):
    """A name that no source of the query has."""


class Scope:
    """The entries of a query, the block that it is written to, and the scope around it. `outer_is_value` says that columns
    of the scope around are values here, since this query is a statement of its own."""

    def __init__(self, block: Block | None, outer: Scope | None = None, outer_is_value: bool = True) -> None:
        self.block, self.outer, self.outer_is_value = block, outer, outer_is_value
        self.entries: list[Entry] = []
        self.common: dict[str, Common] = dict(outer.common) if outer else {}
        self.used_outside: list[Col] = []
        self.merged: dict[str, Term] = {}

    def column(self, name: str) -> Term | None:
        """What an unqualified name stands for."""
        if name in self.merged:
            return self.merged[name]
        found = [it.columns[name] for it in self.entries if name in it.columns]
        if found:
            return found[0]
        whole = next((it for it in self.entries if it.name == name), None)
        if whole is not None:
            return Rows(whole.slot) if whole.slot is not None else Unknown()
        outside = self._outside(lambda it: it.column(name))
        if outside is None and any(it.is_open for it in self.entries):
            return Unknown()
        return outside

    def qualified(self, qualifier: str, name: str, schema: str | None = None) -> Term | None:
        """What a name with a qualifier stands for."""
        for it in self.entries:
            if it.name == qualifier and schema in (None, it.schema):
                return it.get(name)
        return self._outside(lambda it: it.qualified(qualifier, name, schema))

    def _outside(self, look: Any) -> Term | None:
        if self.outer is None:
            return None
        found: Term | None = look(self.outer)
        if found is None or not self.outer_is_value:
            return found
        if isinstance(found, Col):
            self.used_outside.append(found)
        return ANY

    def need(self, found: list[Col]) -> None:
        """Keeps columns of the query's block needed."""
        if self.block is not None:
            self.block.need(found)

    def starred(self, qualifier: str | None = None) -> Iterator[Term]:
        """What a star stands for."""
        for it in self.entries:
            if qualifier in (None, it.name):
                if it.slot is not None:
                    yield Rows(it.slot)
                else:
                    yield from it.columns.values()
