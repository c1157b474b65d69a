"""Columns whose type allows values that exceed an entry of an index: an index over one makes an INSERT of such a value fail."""
from __future__ import annotations

from collections.abc import Iterable
from dataclasses import dataclass, field

from cophy_text.answers import Candidate
from cophy_text.keys import ENTRY, LONGEST_ENTRY
from cophy_text.rules import Rule, read_rule
from cophy_text.shown import grouped
from cophy_text.tokens import Token, tokens
from cophy_pg.ddl import NoIndex, names_of
from cophy_pg.included import CLAUSES, is_apart, is_name
from cophy_pg.schema import Column, Schema, Table

WORD = "--long-columns"
MOST_NAMED = 2
TEXTS = frozenset(("text", "varchar", "bpchar"))
FAR_LONGER = 16
"""Of a type whose lengths the statistics don't have, a value may be so many times as long as they are on average."""


def may_exceed(columns: Iterable[Column]) -> list[str]:
    """Of the columns of an index those of which a value may exceed an entry, or else all that may do so together."""
    listed = [it for it in columns if it.most]
    alone = [it.shown for it in listed if it.most > LONGEST_ENTRY]
    is_much = sum(it.most for it in listed) > LONGEST_ENTRY
    return alone or [it.shown for it in listed if is_much]


def exceeding(schema: Schema, pick: Candidate) -> list[str]:
    """Such columns of a pick, by their names in the catalogue, which end no comment."""
    return may_exceed(_columns_of(schema, pick))


def likely(schema: Schema, pick: Candidate) -> list[str]:
    """Those of them of which a value may be as long by the statistics: where they have the lengths of values, none is."""
    return may_exceed(it for it in _columns_of(schema, pick) if _may_be_long(it))


def _columns_of(schema: Schema, pick: Candidate) -> list[Column]:
    """The columns of a pick; none of one that PostgreSQL can't make."""
    try:
        table, names = names_of(schema, pick)
    except NoIndex:
        return []
    return [table.columns[it] for it in names]


def _may_be_long(column: Column) -> bool:
    """Whether values are long, or their lengths aren't known: those of texts are, unless one of them is long."""
    return not column.sizes and (column.type in TEXTS or FAR_LONGER * column.width >= ENTRY)


def far_longer(schema: Schema, pick: Candidate) -> list[str]:
    """Of the columns of a pick those of which all values that the statistics have are so short that one that exceeds an entry isn't
    to be expected."""
    listed = _columns_of(schema, pick)
    return [it.shown for it in listed if it.sizes and max(it.sizes) * FAR_LONGER <= ENTRY]


def warning(names: list[str]) -> str:
    """What happens with an index over such columns; nothing where there are none."""
    together = " together" * (len(names) > 1)
    return (
        f"an INSERT of more than {grouped(ENTRY)} bytes in {' and '.join(names)}{together} would fail" if names else ""
    )


def never(schema: Schema, candidates: Iterable[Candidate], workload: bytes, given: Iterable[str]) -> list[str]:
    """Rules that keep such columns from all indexes where no statement compares, joins, groups or orders by them, so that an
    index would have them for reading alone, and no given rule asks for one of them."""
    compared, found = compared_columns(schema, workload), list[str]()
    asked = [it for it in map(read_rule, given) if it is not None and it.verb == "must"]
    wanted = {(it.table.lower(), column.lower()) for it in asked for column in it.columns}
    for pick in candidates:
        for table, column in _long_of(schema, pick):
            if (table.shown.lower(), column.shown.lower()) not in compared | wanted:
                found.append(Rule("never", table.shown, column=column.shown).line())
    return [*dict.fromkeys(found)]


def _long_of(schema: Schema, pick: Candidate) -> list[tuple[Table, Column]]:
    """The columns of a candidate of which a value alone may exceed an entry, with its table."""
    try:
        table, names = names_of(schema, pick)
    except NoIndex:
        return []
    return [(table, it) for it in map(table.columns.__getitem__, names) if it.most > LONGEST_ENTRY]


def told(rules: list[str]) -> str:
    """What is said of such rules; nothing where there are none."""
    names = [it.removeprefix("never ") for it in rules]
    some = ", ".join(names[:MOST_NAMED]) + (f" and {len(names) - MOST_NAMED} more" if names[MOST_NAMED:] else "")
    return f"no index has {some}: an INSERT over {grouped(ENTRY)} bytes there would fail ({WORD})" if names else ""


@dataclass
class _Statement:
    """What a statement names: its tables by their visible names, and columns that are compared, each behind the visible name
    that stands before it, if one does."""

    tables: dict[str, str] = field(default_factory=dict)
    compared: list[tuple[str, str]] = field(default_factory=list)
    last: str = ""

    def add_source(self, name: str, is_first: bool) -> None:
        """Takes a table, or the alias of the one before."""
        self.last = name if is_first else self.last
        self.tables[name] = self.last

    def columns(self, schema: Schema) -> set[tuple[str, str]]:
        """The columns that are compared, each with its table; without a table before it one counts for all that have it."""
        known = {it.shown.lower(): {one.shown.lower() for one in it.columns.values()} for it in schema.tables.values()}
        found = set[tuple[str, str]]()
        for visible, column in self.compared:
            tables = [self.tables[visible]] if visible in self.tables else [*self.tables.values()]
            found |= {(it, column) for it in tables if column in known.get(it, set())}
        return found


def compared_columns(schema: Schema, workload: bytes) -> set[tuple[str, str]]:
    """The columns, each with its table, that some statement compares but by LIKE, which no index serves, joins, groups, orders
    by, or reads DISTINCT. What is handed to a function isn't compared itself."""
    found, statement, clause, calls = set[tuple[str, str]](), _Statement(), "", list[bool]()
    listed = [*tokens(workload)]
    for at, token in enumerate(listed):
        before, after = listed[at - 1] if at else token, listed[at + 1 : at + 4]
        if token.text == b";":
            found |= statement.columns(schema)
            statement, clause, calls = _Statement(), "", []
        elif token.text == b"(":
            calls.append(is_name(before))
        elif token.text == b")" and calls:
            calls.pop()
        elif token.word in CLAUSES:
            clause = CLAUSES[token.word]
        elif token.word == "DISTINCT" and clause == "read" and not calls:
            clause = "searched"
        elif clause == "sources" and is_name(token) and not calls:
            statement.add_source(token.name, before.text == b"," or before.word in CLAUSES)
        elif (
            clause == "searched" and is_name(token) and not any(calls) and not is_apart(after) and not _is_liked(after)
        ):
            statement.compared.append((listed[at - 2].name if before.text == b"." else "", token.name))
    return found | statement.columns(schema)


def _is_liked(after: list[Token]) -> bool:
    words = [it.word for it in after]
    return words[:1] == ["LIKE"] or words[:2] == ["NOT", "LIKE"]
