"""What `advise` prints: a verdict, the indexes, and the one command that makes them. All else is counted."""
from __future__ import annotations

from math import ceil
from typing import Any

from cophy_text import files
from cophy_text.answers import counted
from cophy_text.keys import ENTRY
from cophy_text.shown import about, grouped, percent, share, space
from cophy_pg import folder
from cophy_pg.closing import (
    doubts_of,
    is_hint,
    made_by,
    made_hints,
    pages_of,
    proof_of,
    recommended_of,
    rows_of,
    seen_by,
    time_falls,
)
from cophy_pg.folder import Folder
from cophy_pg.guesses import is_judged, saved_of, seconds_of
from cophy_pg.hints import ALONE, hints_shown
from cophy_pg.overview import headline, measured, much_skipped, part_of, purpose, time_of, told_as, unhelped, user_of
from cophy_pg.recommended import LITTLE
from cophy_pg.searches import CUT, OVER, WELL_FILLED
from cophy_pg.speed import duration
from cophy_pg.writes import told

SQL, LONGEST = 34, 40
"""So many characters of a statement are shown, and such a name of an index has others in its column."""
MOST_WARNINGS = 2
"""Where there are no more warnings, the summary has them, each up to what ends it."""
MUCH_SPACE, FEW, APART = 0.25, 3, 5
"""An index that takes more than this part of the space for less than so many percent, and a tenth of what all save, is
told; so is that rows don't sum to what all save but for a few percent more."""
MUCH_MORE = 10
"""Where others could save so many percent of the cost more, the index that most of that is of is told."""
MOST_LISTED = 3
"""So many columns of that are shown."""
MOST_LONG = 2
"""So many columns are named whose values may be too long."""
Row = tuple[int, dict[str, Any]]
WELL_JUDGED = 0.9
"""Where the statements that were priced have this part of the measured time, that isn't told."""


def verdict(document: dict[str, Any], kept: Folder) -> list[str]:
    """The summary of a document whose files are in a folder."""
    picks = rows_of(document)
    advised = [it for it in picks if not it[1].get("caveat")]
    lines = _sentences(document, len(advised))
    head = "time" if time_of(document) else "saves"
    lines += ["", f"{'MB':>10}{head:>9}  index, for"] * bool(advised)
    lines += _rows(advised, document)
    lines += [f"* judged by {ALONE}"] * bool(made_hints(document))
    lines += ["", *_unadvised(document), *_notes(advised, document), *_rest(document, kept)]
    if picks:
        known = [it["build_seconds"] for _, it in advised or picks if it.get("build_seconds") is not None]
        time = f" (about {duration(sum(known))}, reads and writes go on)" if known and not _locks(document) else ""
        lines += [f"make them{time}; it asks first, and --undo takes them back:", made_by(document, kept)]
        lines += [seen_by(kept)]
    return lines


def _locks(document: dict[str, Any]) -> bool:
    return any(it.get("clustered") for it in document["picks"])


def _sentences(document: dict[str, Any], count: int) -> list[str]:
    """What to do, what that brings, and how far it is from the best, a line each."""
    if not count:
        what = headline(document)
        return [f"{what[0].upper()}{what[1:]} for {document['database']!a}, judged by {part_of(document)}."]
    make, they = ("this index", "It saves") if count == 1 else (f"these {count} indexes", "They save")
    return [
        f"Make {make}: {space(pages_of(document))} of the budget of {space(document['asked_pages'])}.",
        f"{they} {_saved(document)}.",
        f"{_best(document, they)} ({proof_of(document)}).",
    ]


def _saved(document: dict[str, Any]) -> str:
    """What is saved of the measured time where that is known, or else of the cost."""
    falls = _percent_saved(document)
    if time := time_of(document):
        return f"about {about(falls)} of {time}, if time falls like the planner's cost"
    return f"{percent(falls)} of the cost by the server's planner"


def _percent_saved(document: dict[str, Any]) -> float:
    """What all that is made saves of the measured time, or else of the cost by the server's planner."""
    if time_of(document):
        return time_falls(document)
    before, after = document["server_cost"]["before"], recommended_of(document)["server_cost"]
    picks: float = 100 * (before - after) / before if before else 0.0
    return picks + float(sum(it["saves"]["server"] for it in made_hints(document)))


def _best(document: dict[str, Any], they: str) -> str:
    """What no indexes save more than, and how much of the budget stays free for that, where it is much."""
    ours, cost, asked = document["cost"], recommended_of(document)["cost"], document["asked_pages"]
    left = asked - pages_of(document)
    if cost == ours["bound"]:
        free = f"{space(left)} left: nothing fitting saves more"
        begin = free if left > asked * (1 - WELL_FILLED) else "No indexes within the budget save more"
        return f"{begin} by our model"
    saved, most = ours["before"] - cost, ceil(1000 * (ours["before"] - ours["bound"]) / ours["before"]) / 10
    # The certificate is of so many pages of our model.
    others = f"no others of {space(document['budget_pages'])} over {percent(most)}"
    return f"By our model {they[0].lower()}{they[1:]} {share(saved, ours['before'])} of the cost, {others}"


def _is_well_judged(document: dict[str, Any]) -> bool:
    """Whether the statements that were priced have nearly all of the measured time, or are all where that isn't
    known."""
    every = document["statements"]
    whole, priced = seconds_of(every), seconds_of(it for it in every if it["numbers"])
    return (priced or 0.0) >= WELL_JUDGED * whole if whole else all(it["numbers"] for it in every)


def _rows(advised: list[Row], document: dict[str, Any]) -> list[str]:
    """A row for each index, in the order of their numbers, and one for all that save little, where they are
    several."""
    shown, little = _apart(advised)
    wide = max((len(told_as(it)) for _, it in shown if len(told_as(it)) <= LONGEST), default=0)
    lines = {at: _row(at, it, wide, document) for at, it in shown}
    if little:
        lines[little[0][0]] = _together(little)
    return [lines[at] for at in sorted(lines)]


def _apart(advised: list[Row]) -> tuple[list[Row], list[Row]]:
    """The indexes that have rows of their own, and those that share one."""
    little = [it for it in advised if saved_of(it[1]) < LITTLE]
    return ([it for it in advised if it not in little], little) if little[1:] else (advised, [])


def _notes(advised: list[Row], document: dict[str, Any]) -> list[str]:
    """The index that takes much of the space for little, that rows don't sum to what all save, and which values can't be
    written any more, where that is so."""
    whole, size, lines = _percent_saved(document), pages_of(document), list[str]()
    little = min(FEW, whole / 10)
    much = [it for it in _apart(advised)[0] if saved_of(it[1]) < little and it[1]["stored_pages"] > MUCH_SPACE * size]
    for at, it in much[:1]:
        what = f"{at} takes {space(it['stored_pages'])} for {percent(saved_of(it))}"
        lines += [f"{what}: make --without {at} leaves it out"]
    summed = sum(saved_of(it) for _, it in advised)
    if advised and abs(summed - whole) >= APART:
        why = "others stand in for one that is missing" if summed < whole else "some save only together"
        lines += [f"rows sum to {summed:.0f} %, not {whole:.0f}: {why}"]
    near = [(at, it, [name for name in it.get("long", []) if name not in it.get("long_far", [])]) for at, it in advised]
    long = [str(at) for at, _, names in near if names]
    columns = sorted({f"{it.get('path') or it['table']}.{name}" for _, it, names in near for name in names})
    if long:
        where = f"{', '.join(columns[:MOST_LONG])}{' ..' * (len(columns) > MOST_LONG)}"
        lines += [f"INSERTs of over {grouped(ENTRY)} bytes in {where} will fail (index {', '.join(long)})"]
    return lines + _held_back(document)


def _held_back(document: dict[str, Any]) -> list[str]:
    """Which index others could save much more by, and why it isn't advised, where that is so."""
    ours, gap = document["cost"], document.get("gap")
    more = 100 * (recommended_of(document)["cost"] - ours["bound"]) / max(1, ours["before"])
    if not gap or more < MUCH_MORE:
        return []
    table, _, columns = gap["index"].partition("(")
    listed = columns.split(", ")
    named = gap["index"] if len(listed) <= MOST_LISTED else f"{table}({', '.join(listed[:MOST_LISTED])}, ..)"
    return [f"most of what others could save more is {named}: {gap['why']}"]


def _row(at: int, pick: dict[str, Any], wide: int, document: dict[str, Any]) -> str:
    """An index with its size, what it saves, and what the statement that gains the most asks of it."""
    user = user_of(pick)
    mark = "*" if is_hint(pick) else " " if is_judged(pick) else "~"
    sql = f"  {purpose(pick, user, document, SQL)}" if user else ""
    begin = _begin(f"{at}.", pick["stored_pages"])
    return f"{begin} {mark}{percent(saved_of(pick)):>7}  {told_as(pick):<{wide}}{sql}".rstrip()


def _together(little: list[Row]) -> str:
    """Picks that save little with what they take and save together, and how the script passes over them."""
    begin = _begin(f"{little[0][0]}-{little[-1][0]}.", sum(it["stored_pages"] for _, it in little))
    what = f"{len(little)} indexes that save less than {LITTLE} % each"
    passed = f"make --without {','.join(str(at) for at, _ in little)} leaves them out"
    return f"{begin}  {percent(sum(saved_of(it) for _, it in little)):>7}  {what}: {passed}"


def _begin(number: str, pages: int) -> str:
    size = space(pages).removesuffix(" MB")
    return f"{number:>3} {size:>{9 - max(3, len(number))}}"


def _unadvised(document: dict[str, Any]) -> list[str]:
    """How many picks the script leaves out, whose reasons the details have."""
    rows = rows_of(document)
    count = sum(bool(it.get("caveat")) for _, it in rows)
    made = len(rows) > count
    if not count:
        return []
    size = space(document["stored_pages"] - recommended_of(document)["stored_pages"])
    what = f"{count}{' more' * made} {'is' if count == 1 else 'are'}n't recommended"
    more = document["stored_pages"] - recommended_of(document)["stored_pages"] + pages_of(document)
    over = more - document["asked_pages"]
    too_much = f", with which all are {space(over)} over the budget" if over > 0 else ""
    return [f"{what} ({size}{too_much}; make --all takes {'it' if count == 1 else 'them'}{' too' * made})"]


def _rest(document: dict[str, Any], kept: Folder) -> list[str]:
    """What changes the advice, and how much there is to read beside it."""
    lines = []
    made = [it for it in rows_of(document) if not it[1].get("caveat")] or rows_of(document)
    beside: dict[str, list[int]] = {}
    for at, it in made:
        for name in it.get("superfluous", []):
            beside.setdefault(name, []).append(at)
    if beside:
        found = (f"{name} beside {', '.join(map(str, places))}" for name, places in beside.items())
        lines += [f"may be dropped once these are in use: {'; '.join(found)}"]
    lines += told(document.get("writes", []), made)
    lines += [*hints_shown(document), *unhelped(document)]
    if rows_of(document) and not _is_well_judged(document):
        lines += [f"judged by {part_of(document)}"]
    if much := much_skipped(document):
        what = "time" if measured(document) == "seconds" else "calls"
        lines += [f"no index is advised for skipped statements with {much} of the {what}"]
    every = [*document["warnings"], *doubts_of(document)]
    warnings = [it for it in every if it != CUT]
    few = len(warnings) <= MOST_WARNINGS
    shown = [it for it in warnings if few or it.startswith(OVER) or it.endswith(" leaves them out")]
    lines += [f"warning: {it.partition('; ')[0]}" for it in shown]
    # That the time for exchanges was up is counted, but isn't worth a look alone.
    is_more = len(warnings) > len(shown)
    notes = [counted(len(every) - len(shown), "more warning" if shown else "warning")] * is_more
    return [*lines, f"{', '.join([*notes, 'all else'])}: {files.shown(kept.path(folder.DETAILS))}"]
