"""The hints of `expression_hints` in the document, in the form of picks: those that the script makes, and what is
told of the others."""
from __future__ import annotations

from collections import Counter
from collections.abc import Iterable
from dataclasses import dataclass, field
from typing import Any

from cophy_text.shown import percent, short, space
from cophy_pg.ddl import Applied
from cophy_pg.expression_hints import Hint
from cophy_pg.guesses import saved_of, time_saved
from cophy_pg.outcomes import Verdict
from cophy_pg.recommended import LITTLE
from cophy_pg.schema import Schema
from cophy_pg.sizes import stored_pages
from cophy_pg.unlimited import likely, warning

MOST_SHOWN = 2
"""So many that take too much stand in the summary."""
ALONE = "the server's planner alone: outside our model, its bound, and what it counts for writes"
Found = tuple[dict[str, Any], Applied]


@dataclass
class Room:
    """What the picks leave to hints: pages, and how many indexes a table may get, beside how many it does; and how
    many percent each has to save."""

    pages: int
    least: float = LITTLE
    most_per_table: int | None = None
    made: Counter[str] = field(default_factory=Counter)

    def why_not(self, shown: dict[str, Any], fails: str) -> str | None:
        """Why a hint isn't made; nothing where it is."""
        if saved_of(shown) < self.least:
            return f"{self.least:g} % are asked for"
        if self.most_per_table is not None and self.made[shown["table"]] >= self.most_per_table:
            return f"{self.most_per_table} a table are asked for at most"
        much = f"it takes {space(self.missing(shown))} more than the budget leaves" if self.missing(shown) else None
        return fails or much

    def missing(self, shown: dict[str, Any]) -> int:
        """How many pages more a hint takes than there are."""
        return max(0, int(shown["stored_pages"]) - self.pages)

    def take(self, shown: dict[str, Any]) -> None:
        """Makes a hint."""
        self.pages -= shown["stored_pages"]
        self.made[shown["table"]] += 1


def documents_of(hints: Iterable[Hint], schema: Schema, cost: float, time: float | None, room: Room) -> list[Found]:
    """The hints, those that save the most first, each with its index. A statement gains by the first that is made
    alone. `cost` and `time` are those of all statements without indexes."""
    found, served = list[Found](), set[int]()
    by_saving = sorted(hints, key=lambda it: -saved_of(_document(it.users, it.index.pick(), schema, cost, time)))
    for it in by_saving:
        users, pick = [user for user in it.users if user[0].number not in served], it.index.pick()
        if not users:
            continue
        shown = _document(users, pick, schema, cost, time)
        why = room.why_not(shown, warning(likely(schema, pick)))
        found.append((shown | {"missing_pages": room.missing(shown), "why_not": why}, pick))
        if why is None:
            room.take(shown)
            served |= {verdict.number for verdict, _ in users}
    return found


def _document(
    users: list[tuple[Verdict, float]], pick: Applied, schema: Schema, cost: float, time: float | None
) -> dict[str, Any]:
    """A hint in the form of a pick, with the statements that cost less by it. It is as large as an index over the
    column."""
    changes, seconds = list[dict[str, Any]](), 0.0
    for it, after in users:
        saved, given = (it.after or 0.0) - after, it.input
        seconds += (given.seconds or 0.0) * saved / (it.before or 1.0)
        said = {"numbers": it.written, "sql": short(given.text), "calls": given.calls, "seconds": given.seconds}
        changes.append(said | {"guess": False, "ours": 0.0, "server": _percent(it.calls * saved, cost)})
    planned = None if time is None else _percent(seconds, time)
    return {
        "place": None,
        "table": pick.table,
        "columns": [f"{pick.function}({pick.columns[0]})"],
        "stored_pages": stored_pages(schema, pick) or 0,
        "saves": {"server": round(sum(it["server"] for it in changes), 4), "planned": planned},
        "changes": sorted(changes, key=lambda it: -float(it["server"] if it["seconds"] is None else it["seconds"])),
    }


def _percent(part: float, whole: float) -> float:
    return round(100 * part / whole, 4) if whole else 0.0


def hints_shown(document: dict[str, Any]) -> list[str]:
    """A line for each of those that save the most and take too much, for the summary."""
    kept_out = [it for it in document.get("hints", []) if it["why_not"] and it["missing_pages"]]
    much = [it for it in kept_out if saved_of(it) >= LITTLE]
    return [f"a hint by the server's planner alone: {_told(it)}, but {_why(it)}" for it in much[:MOST_SHOWN]]


def hints_told(document: dict[str, Any]) -> list[str]:
    """All that the script doesn't make, with what makes them."""
    lines = list[str]()
    for it in document.get("hints", []):
        if it["why_not"]:
            lines += [f"  {statement}" for statement in it["statements"]]
            lines += [f"    {space(it['stored_pages'])}; {_told(it)}, but {_why(it)}"]
    return [f"hints that the script doesn't make, judged by {ALONE}:", *lines, ""] if lines else []


def hinted(document: dict[str, Any]) -> set[int]:
    """The numbers of the statements that have hints."""
    return {at for it in document.get("hints", []) for change in it["changes"] for at in change["numbers"]}


def _told(hint: dict[str, Any]) -> str:
    what = "cost" if time_saved(hint) is None else "time"
    return f"{hint['table']}({hint['columns'][0]}) saves {percent(saved_of(hint))} of the {what}"


def _why(hint: dict[str, Any]) -> str:
    return str(hint["why_not"])
