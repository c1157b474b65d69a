"""What pg_stat_statements counted of a folder's statements since then, beside what it had counted before."""
from __future__ import annotations

import re
from collections.abc import Collection, Iterable, Sequence
from dataclasses import dataclass
from statistics import median_high, median_low
from typing import Any

from cophy_pg.closing import made_hints
from cophy_pg.inputs import Input
from cophy_pg.overview import user_of
from cophy_pg.paths import Paths
from cophy_pg.snapshots import Snapshot, digest, since

SLOWER, SEEN, ENOUGH = 1.5, 0.01, 5
"""A statement got slower that takes so many times as long, which is told where it lost such a part of the time of all by that.
Of fewer calls than this, before or since, it isn't said."""
WRITES = ("INSERT", "UPDATE", "DELETE", "MERGE")
FEWEST, SHARE, FASTER, LONGER = 5, 0.05, 0.8, 1.25
"""How busy the server was is known by so many statements that no new index touches, or by two with such a part of the
time before; it differs where they take less than such a part of what they took, or more than such a one."""
ALIKE, BUSIER_BEFORE, BUSIER_SINCE = "alike", "busier before", "busier since"
_WRITES = re.compile(rf"\b(?:{'|'.join(WRITES)})\b", re.IGNORECASE)


@dataclass(frozen=True)
class Measured:
    """A statement of the folder: its numbers, whether an index that is there helps it by the advice, its calls since then,
    the milliseconds a call before and since, its calls before, whether it is a read that no such index touches, the places of
    those that help it, and of those by which it gains the most of all."""

    numbers: list[int]
    sql: str
    is_helped: bool
    calls: int
    before: float
    since: float
    earlier: int = ENOUGH
    is_other: bool = False
    indexes: tuple[int, ...] = ()
    main: tuple[int, ...] = ()

    @property
    def saved(self) -> float:
        """The milliseconds that all calls saved; less than 0 where they lost some."""
        return self.calls * (self.before - self.since)


@dataclass(frozen=True)
class Load:
    """How busy the server was, by statements that no new index touches: what a call took since, in parts of before."""

    others: list[Measured]
    ratio: float

    @property
    def name(self) -> str:
        """When it was busier."""
        return _side(self.ratio)


def given_of(statement: dict[str, Any], paths: Paths) -> Input:
    """A statement of a document as the server counts it, with the path that its role has."""
    role = str(statement["role"] or "")
    return Input(str(statement["sql"]), statement["calls"], statement["seconds"], role=role, path=paths.of(role))


def called_since(
    now: Snapshot, listed: list[Input], then: Snapshot, document: dict[str, Any], paths: Paths, there: Collection[int]
) -> list[Measured]:
    """The statements that were called since then, those that saved the most first. Indexes at these places are there."""
    counted = {digest(it): it for it in since(listed, then, now.begun, now.database)}
    hints, mains = made_hints(document), mains_of(document, there)
    changed = _changed(hints, there) | _changed(document["picks"], there)
    found = list[Measured]()
    for it in document["statements"]:
        called = counted.get(digest(given_of(it, paths)))
        if called is None or not it["calls"] or it["seconds"] is None:
            continue
        before, after = 1000 * it["seconds"] / it["calls"], 1000 * (called.seconds or 0.0) / called.calls
        main = {at for at, numbers in mains.items() if it["numbers"] and it["numbers"] == numbers}
        hinted = {hint["place"] for hint in hints if {*it["numbers"]} & _changed([hint], there)}
        indexes = {*it["picks"]} & {*there} | hinted | main
        is_known = bool(it["numbers"]) and not {*it["numbers"]} & changed
        is_other = is_known and not indexes and not _WRITES.search(it["sql"])
        more = it["calls"], is_other, (*sorted(indexes),), (*sorted(main),)
        found.append(Measured(it["numbers"], it["sql"], bool(indexes), called.calls, before, after, *more))
    return sorted(found, key=lambda it: (-it.saved, it.numbers))


def mains_of(document: dict[str, Any], there: Collection[int]) -> dict[int, list[int]]:
    """The statement that gains the most by each index that is there, as the summary names it, by the places of these."""
    rows = [*document["picks"], *made_hints(document)]
    users = {it["place"]: user_of(it) for it in rows if it["place"] in there}
    return {place: it["numbers"] for place, it in users.items() if it}


def _changed(rows: Iterable[dict[str, Any]], there: Collection[int]) -> set[int]:
    """The numbers of the statements whose cost picks or hints change that are there."""
    return {at for it in rows if it["place"] in there for change in it["changes"] for at in change["numbers"]}


def load_of(found: Sequence[Measured]) -> Load | None:
    """How busy the server was; nothing where too little is known, or the statements don't agree."""
    others = [it for it in found if it.is_other and min(it.calls, it.earlier) >= ENOUGH and it.before > 0]
    before, after = sum(it.calls * it.before for it in others), sum(it.calls * it.since for it in others)
    whole = sum(it.calls * it.before for it in found)
    if len(others) < 2 or len(others) < FEWEST and before < SHARE * whole:
        return None
    # One that has another plan by chance would stand for all.
    ratios = [it.since / it.before for it in others]
    sides = {_side(it) for it in (median_low(ratios), median_high(ratios), after / before)}
    return Load(others, after / before) if len(sides) == 1 else None


def _side(ratio: float) -> str:
    return BUSIER_BEFORE if ratio < FASTER else BUSIER_SINCE if ratio > LONGER else ALIKE


def told_of(found: Sequence[Measured]) -> list[Measured]:
    """Those of them that an index helps, or that got slower."""
    slower = slower_of(found)
    return [it for it in found if it.is_helped or it in slower]


def slower_of(found: Sequence[Measured]) -> list[Measured]:
    """Those of them that got slower, as far as that is felt in the time of all."""
    whole, load = sum(it.calls * it.since for it in found), load_of(found)
    return [it for it in found if is_slower(it, load) and -it.saved > SEEN * whole]


def writes_of(found: Sequence[Measured]) -> list[Measured]:
    """Those of them that write."""
    return [it for it in found if it.sql.lstrip("( \n\t").upper().startswith(WRITES)]


def is_slower(it: Measured, load: Load | None = None) -> bool:
    """Whether it takes much longer, by enough calls to say so, and than others that take longer."""
    longer = load.ratio if load and load.name == BUSIER_SINCE else 1.0
    return it.since > SLOWER * longer * it.before and min(it.calls, it.earlier) >= ENOUGH


def a_call(listed: Iterable[Measured]) -> tuple[float, float]:
    """The milliseconds that a call of some statements took before and since, by the calls since."""
    every = [*listed]
    calls = sum(it.calls for it in every) or 1
    before, after = sum(it.calls * it.before for it in every), sum(it.calls * it.since for it in every)
    return before / calls, after / calls
