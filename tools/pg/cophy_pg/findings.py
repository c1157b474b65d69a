"""What is wrong with the indexes of a database: each finding names an index and the reasons."""
from __future__ import annotations

from collections.abc import Collection, Sequence
from dataclasses import dataclass, field

from cophy_pg.existing import Column, Everything, Existing, Key
from cophy_pg.stored import ALIGNMENTS, LONG, NOT_SHARED, Part, pages

BLOATED, LEAST_WASTE = 2.0, 128
"""An index is bloated that has this many times the pages of a fresh one, and so many pages more."""
INVALID, DUPLICATE, PREFIX, UNUSED, BLOAT = "invalid", "duplicate", "prefix", "unused", "bloated"
UNATTACHED = "unattached"
"""Of a partitioned table an index that some partition has no part of. The others' parts go with it, so it may not go."""
DROPPED = (INVALID, DUPLICATE, PREFIX, UNUSED)
"""The kinds of findings for which an index may go."""
SERVES = "serves"
"""Why an index that has no scans stays."""


@dataclass
class Finding:
    """An index with what was found of it, by kinds; each with its reason."""

    index: Existing
    reasons: dict[str, str] = field(default_factory=dict)
    is_needed: bool = False
    """Whether a workload costs more without it."""

    def is_small(self, pages: int) -> bool:
        """Whether it is said only that an index of fewer pages is unused."""
        return {*self.reasons} == {UNUSED} and self.index.pages is not None and self.index.pages < pages

    def may_go(self) -> bool:
        """Whether a reason is one to drop the index."""
        return not self.is_needed and any(it in DROPPED for it in self.reasons)


def findings(found: Everything) -> list[Finding]:
    """The findings, the largest indexes first."""
    listed = {it.oid: Finding(it) for it in found.indexes}
    by_table: dict[int, list[Existing]] = {}
    for it in found.indexes:
        by_table.setdefault(it.table_oid, []).append(it)
        if not it.is_valid and it.is_partitioned:
            listed[it.oid].reasons[UNATTACHED] = "INVALID: some partition has no index that is attached to it"
        elif not it.is_valid:
            listed[it.oid].reasons[INVALID] = "INVALID: no query takes it, and each write may pay for it"
    for several in by_table.values():
        valid = [it for it in several if it.is_valid]
        for it, other in _duplicates(valid):
            listed[it.oid].reasons[DUPLICATE] = f"the same as {_name(other)}"
        others = [it for it in valid if DUPLICATE not in listed[it.oid].reasons]
        for it, other in _prefixes(others):
            listed[it.oid].reasons[PREFIX] = f"its columns are the first ones of {_name(other)}"
    for it in found.indexes:
        if _is_unused(it):
            listed[it.oid].reasons[UNUSED] = "no scan was counted" + (
                f" since {found.since} UTC" if found.since else ""
            )
    for key in sorted(found.keys, key=lambda it: len(it.serving)):
        _keep_one(key, [listed[it] for it in key.serving if it in listed])
    for it in found.indexes:
        _measure(it, found.columns.get(it.table_oid, {}))
        if it.pages is not None and it.expected is not None and _is_bloated(it.pages, it.expected):
            listed[it.oid].reasons[BLOAT] = f"{it.pages / it.expected:.1f} times as large as a fresh one would be"
    told = (it for it in listed.values() if {*it.reasons} - {SERVES})
    return sorted(told, key=lambda it: (-(it.index.pages or 0), it.index.oid))


def _keep_one(key: Key, serving: list[Finding]) -> None:
    """Where all indexes that serve a foreign key may go, the smallest valid one stays."""
    valid = [it for it in serving if it.index.is_valid]
    if valid and all(it.may_go() for it in serving):
        kept = min(valid, key=lambda it: (it.index.pages is None, it.index.pages or 0, it.index.oid))
        kept.reasons = {
            SERVES: f"no scan was counted, but of those that stay it alone serves {key.name!a}, a foreign key"
        }


def _name(it: Existing) -> str:
    return f"{it.name!a}"


def _is_unused(it: Existing) -> bool:
    return it.is_valid and it.scans == 0 and not it.is_bound and not it.is_unique


def _is_bloated(real: int, expected: int) -> bool:
    return real >= BLOATED * expected and real - expected >= LEAST_WASTE


def _duplicates(listed: list[Existing]) -> list[tuple[Existing, Existing]]:
    """Each index that another one stands for wholly, with that one."""
    groups: dict[object, list[Existing]] = {}
    for it in listed:
        key = (it.method, it.keys, tuple(it.columns), tuple(it.parts), it.expressions, it.predicate)
        groups.setdefault(key, []).append(it)
    found = []
    for several in groups.values():
        best, *others = sorted(several, key=lambda it: (not it.is_bound, not it.is_unique, -(it.scans or 0), it.oid))
        found += [(it, best) for it in others if not it.is_bound and (best.is_unique or not it.is_unique)]
    return found


def is_prefix(
    keys: Sequence[object], columns: Collection[object], others: Sequence[object], their: Collection[object]
) -> bool:
    """Whether an index with other keys, that begin with these, and with all of its columns serves what it serves."""
    return len(keys) < len(others) and [*others[: len(keys)]] == [*keys] and {*columns} <= {*their}


def _prefixes(listed: list[Existing]) -> list[tuple[Existing, Existing]]:
    """Each index whose keys another one begins with, with that one. One that is scanned isn't given up for one that may go
    itself."""
    found = []
    for it in listed:
        if it.method != "btree" or it.is_bound or it.is_unique or it.expressions:
            continue
        for other in (other for other in listed if _is_unused(it) or not _is_unused(other)):
            begins = is_prefix(it.parts, it.columns, other.parts, other.columns)
            holds = other.predicate == it.predicate and not other.expressions
            if other.method == "btree" and begins and holds and other.is_partitioned == it.is_partitioned:
                found.append((it, other))
                break
    return found


def _measure(it: Existing, columns: dict[int, Column]) -> None:
    """Reckons how large the index would be if it were fresh, where its columns are known."""
    listed = [columns.get(number) for number in it.columns]
    if it.method != "btree" or it.is_partitioned or not it.is_valid or it.rows <= 0:
        return
    known = [column for column in listed if column is not None and (column.length > 0 or column.width is not None)]
    if len(known) < len(listed):
        return
    is_shared = it.keys == len(it.columns) and not it.is_unique and not any(c.type in NOT_SHARED for c in known)
    it.expected = pages(it.rows, [_part(c, it.rows) for c in known], is_shared)


def _part(column: Column, rows: float) -> Part:
    """A value's room; a short one without a fixed length isn't aligned."""
    count = column.distinct or -1.0
    distinct = count if count > 0 else -count * rows
    if column.length > 0:
        return Part(column.length, ALIGNMENTS[column.alignment], distinct, column.nulls)
    width = column.width or 1
    return Part(width, 1 if width < LONG else ALIGNMENTS[column.alignment], distinct, column.nulls)
