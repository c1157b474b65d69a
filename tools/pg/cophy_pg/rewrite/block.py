"""A statement that is being written: its sources, its conditions and its lists."""
from __future__ import annotations

from collections.abc import Iterable, Iterator
from dataclasses import dataclass, field

from cophy_pg.rewrite.terms import Call, Col, Printer, Rows, Slot, Term, Value, aggregates, columns, mixed
from cophy_pg.schema import Table, cleaned, quoted

MOST_SLOTS = 8


@dataclass(frozen=True)
class Test:
    """A condition on one column: `form` is a comparison, BETWEEN, IN, LIKE, IS NULL or IS NOT NULL."""

    col: Col
    form: str
    values: tuple[Value, ...] = ()

    def columns(self) -> tuple[Col, ...]:
        return (self.col,)

    def text(self, printer: Printer) -> str:
        column, texts = printer.column(self.col), [it.text for it in self.values]
        if self.form == "BETWEEN":
            return f"{column} BETWEEN {texts[0]} AND {texts[1]}"
        if self.form == "IN":
            return f"{column} IN ({', '.join(texts)})"
        return " ".join((column, self.form, *texts))


@dataclass(frozen=True)
class Tie:
    """An equality of two columns."""

    left: Col
    right: Col

    def columns(self) -> tuple[Col, ...]:
        return self.left, self.right

    def text(self, printer: Printer) -> str:
        return f"{printer.column(self.left)} = {printer.column(self.right)}"


Condition = Test | Tie


@dataclass
class Block:
    """A SELECT, or what an UPDATE or a DELETE reads.

    `group` is None where the statement doesn't group. `needed` are columns that no list or condition may mention. `rows` are
    those that a call gives or changes, where that is known, and `inner` the statements of its correlated subqueries.
    """

    slots: list[Slot] = field(default_factory=list)
    conditions: list[Condition] = field(default_factory=list)
    items: list[Term] = field(default_factory=list)
    distinct: bool = False
    group: list[Col] | None = None
    having: list[tuple[Term, str, Term]] = field(default_factory=list)
    order: list[tuple[Term, bool]] = field(default_factory=list)
    limit: str = ""
    offset: str = ""
    needed: list[Col] = field(default_factory=list)
    rows: float | None = None
    inner: list[str] = field(default_factory=list)

    def add_slot(self, table: Table, name: str) -> tuple[Slot, bool]:
        """Adds a source under a name of its own, and says whether it had to be another than the one given."""
        shown = cleaned(name, {it.name.lower() for it in self.slots})
        slot = Slot(table, shown)
        self.slots.append(slot)
        return slot, shown.lower() != name.lower()

    def need(self, found: Iterable[Col]) -> None:
        """Keeps columns needed."""
        for it in found:
            if it not in self.needed:
                self.needed.append(it)

    def mark(self) -> tuple[int, int, int]:
        return len(self.slots), len(self.conditions), len(self.needed)

    def reset(self, mark: tuple[int, int, int]) -> None:
        """Takes out all that was added since the mark."""
        del self.slots[mark[0] :], self.conditions[mark[1] :], self.needed[mark[2] :]

    def ties(self) -> Iterator[Tie]:
        """The equalities that connect two slots."""
        for it in self.conditions:
            if isinstance(it, Tie) and it.left.slot is not it.right.slot:
                yield it

    def groups(self) -> list[list[Slot]]:
        """The slots, taken apart where no equality connects them, in order."""
        label = {id(it): number for number, it in enumerate(self.slots)}
        for tie in self.ties():
            one, other = label[id(tie.left.slot)], label[id(tie.right.slot)]
            label = {it: min(one, other) if number in (one, other) else number for it, number in label.items()}
        return [[it for it in self.slots if label[id(it)] == number] for number in sorted(set(label.values()))]

    def mentions(self) -> Iterator[Col]:
        """All columns that the written statement mentions, apart from the needed ones."""
        for it in self.conditions:
            yield from it.columns()
        for term in [
            *self.items,
            *(it for it, _ in self.order),
            *(side for it in self.having for side in (it[0], it[2])),
        ]:
            yield from columns(term)
        yield from self.group or []

    def part(self, slots: list[Slot]) -> Block:
        """What the statement says of some of its slots alone."""
        kept = set(map(id, slots))

        def is_in(found: Iterable[Col]) -> bool:
            return all(id(it.slot) in kept for it in found)

        part = Block(slots, [it for it in self.conditions if is_in(it.columns())], distinct=self.distinct)
        part.items = [it for it in (_within(term, kept) for term in self.items) if it is not None]
        has_aggregate = any(next(aggregates(it), None) for it in self.items)
        if has_aggregate and self.group is None and not any(next(aggregates(it), None) for it in part.items):
            part.items = [mixed_count(part.items)]
        if self.group is not None:
            part.group = [it for it in self.group if id(it.slot) in kept]
        part.having = [it for it in self.having if is_in((*columns(it[0]), *columns(it[2])))]
        if all(is_in(columns(it)) for it, _ in self.order):
            part.order, part.limit, part.offset = self.order, self.limit, self.offset
        part.needed = [it for it in self.needed if id(it.slot) in kept]
        for it in self.mentions():
            if id(it.slot) in kept:
                part.need([it])
        return part


def mixed_count(terms: list[Term]) -> Term:
    """An aggregate over the columns of terms, for a statement that gives one row."""
    found = tuple(dict.fromkeys(col for it in terms for col in columns(it)))
    return Call("count", found) if found else Call("count", (), star=True)


def _within(term: Term, kept: set[int]) -> Term | None:
    """A term as far as it speaks of the kept slots; None where it doesn't."""
    found = [*columns(term)]
    if found and not any(id(it.slot) in kept for it in found):
        return None
    if all(id(it.slot) in kept for it in found):
        return term
    if isinstance(term, Rows):
        return term
    return mixed(*(it for it in found if id(it.slot) in kept))


def select_text(block: Block) -> str:
    """The text of a SELECT, without a `;`."""
    printer = Printer(block.slots)
    lines = [f"SELECT {'DISTINCT ' * block.distinct}{', '.join(_items(block, printer))}"]
    lines.append("FROM " + ", ".join(map(source_text, block.slots)))
    lines += where_text(block, printer)
    if block.group:
        lines.append("GROUP BY " + ", ".join(map(printer.column, block.group)))
    if block.having:
        tests = (f"{printer.term(left)} {sign} {printer.term(right)}" for left, sign, right in block.having)
        lines.append("HAVING " + " AND ".join(tests))
    if block.order:
        lines.append("ORDER BY " + ", ".join(printer.term(it) + " DESC" * down for it, down in block.order))
    if block.limit:
        lines.append(f"LIMIT {block.limit}" + (f" OFFSET {block.offset}" if block.offset else ""))
    return "\n".join(lines)


def source_text(slot: Slot) -> str:
    """A source as FROM writes it."""
    table = quoted(slot.table.shown)
    return table if slot.name.lower() == slot.table.shown.lower() else f"{table} {quoted(slot.name)}"


def where_text(block: Block, printer: Printer) -> list[str]:
    """The line of WHERE, if there is one; columns that only have to stay needed stand last."""
    mentioned = set(block.mentions())
    texts = [it.text(printer) for it in block.conditions]
    needed = [*(it for it in block.needed if it not in mentioned), *spares(block)]
    texts += [f"{printer.column(it)} IS NOT NULL" for it in needed]
    return ["WHERE " + " AND ".join(dict.fromkeys(texts))] if texts else []


def spares(block: Block) -> Iterator[Col]:
    """The spare columns of slots that no index may cover; a star mentions all of them."""
    needed = {*block.mentions(), *block.needed}
    for slot in block.slots:
        if not any(isinstance(it, Rows) and it.slot is slot for it in block.items):
            for column in slot.table.spares_for(it.column for it in needed if it.slot is slot):
                yield Col(slot, column)


def _items(block: Block, printer: Printer) -> list[str]:
    if block.items == [*map(Rows, block.slots)]:
        return ["*"]
    listed = []
    for it in block.items:
        if isinstance(it, Rows):
            listed.append(f"{quoted(it.slot.name)}.*")
        else:
            listed.append(printer.term(it))
    return list(dict.fromkeys(listed)) or ["1"]
