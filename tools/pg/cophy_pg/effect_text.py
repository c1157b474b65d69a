"""What `effect` prints for people: three sentences, the indexes, and the statements whose time became another."""
from __future__ import annotations

from typing import Any

from cophy_text.shown import about, grouped, percent, short
from cophy_pg.measured import ALIKE, BUSIER_BEFORE
from cophy_pg.standing import THERE

MOST_LINES, MOST_INDEXES, MOST_STATEMENTS, MOST_SLOWER, LEAST = 20, 12, 10, 3, 4
"""About so many lines are printed; all indexes where they are so many, at most so many statements, of these so many that got
slower; and at least so many rows of statements, and of more indexes."""
CHANGED, FELT, LITTLE, OFTEN = 0.1, 0.1, 0.01, 5
"""A statement is shown whose call took such a part more or less, by so many milliseconds or such a part of what all
changed; one that was called so often is no faster that took such a part less."""


def lines_of(found: dict[str, Any]) -> list[str]:
    """The text of a document."""
    head, end, indexes = _sentences(found), _rest(found), found["indexes"]
    statements = _changed(found["counted"]["statements"]) if found["counted"] else []
    # Each of both has a blank line and one of names.
    room = MOST_LINES - len(head) - len(end) - 4
    least = LEAST if len(indexes) > MOST_INDEXES else len(indexes)
    rows = min(len(indexes), max(least, room - min(len(statements), MOST_STATEMENTS)))
    others = min(MOST_STATEMENTS, max(LEAST, room - rows))
    places = {it["place"] for it in _shown(indexes, rows)}
    if not statements:
        return [*head, *_indexes(indexes, rows), *end]
    every = found["counted"]["statements"]
    uncalled = [it for it in found["counted"]["not_called"] if it in places]
    told = [*_statements(statements, others, places, len(every)), *_uncalled(uncalled), *_no_faster(every)]
    return [*head, *_indexes(indexes, rows), *told, *end]


def _sentences(found: dict[str, Any]) -> list[str]:
    """Whether all is there, and what that brought by the clock and by the planner, the latter first where the load
    differed."""
    clock, planner = _by_clock(found), _by_planner(found)
    brought = [*planner, *clock] if _is_other_load(found["counted"]) else [*clock, *planner]
    return [_there(found["indexes"]), *brought]


def _is_other_load(counted: dict[str, Any] | None) -> bool:
    """Whether the server was known to be busier before or since."""
    return counted is not None and counted.get("others", {"load": ALIKE})["load"] != ALIKE


def _by_clock(found: dict[str, Any]) -> list[str]:
    """How long a call took before and since."""
    counted = found["counted"]
    if found["source"] != "pg_stat_statements":
        return ["The statements came from a file, so no times are compared."]
    if counted is None or not any(it["state"] == THERE for it in found["indexes"]):
        return []
    if not counted["statements"]:
        again = "calls are counted from now on: call this again later."
        return [f"No statement that they help was called since; {again}"]
    which = "all" if all(it["state"] == THERE for it in found["indexes"]) else "these"
    begin = f"Since {which} indexes stood" if counted["begin"] == "indexes" else "Since the advice"
    lines = (_against if _is_other_load(counted) else _times)(counted, begin)
    if slower := sum(it["slower"] for it in counted["statements"]):
        are = "statement is" if slower == 1 else "statements are"
        lines += [f"{slower} {are} slower by more than half: look at EXPLAIN ANALYZE of what is marked with a !."]
    if counted["begin"] == "advice":
        lines += ["Calls from before they were made may be in it; a later call of effect leaves those out."]
    return lines


def _times(counted: dict[str, Any], begin: str) -> list[str]:
    """What these statements and all took since, beside what they took before, where the server was as busy."""
    alike = "; others about the same" * ("others" in counted)
    took = f"{_ms(counted['since'])} ms a call, {_ms(counted['before'])} before{alike}"
    return [f"{begin} {_these(counted)} took {took}.", _of_all(counted)]


def _against(counted: dict[str, Any], begin: str) -> list[str]:
    """What others took since, as the server was busier or less busy, and what these and all took against that."""
    others, every = counted["others"], f"all {grouped(counted['all']['calls'])} calls"
    when = "then" if others["load"] == BUSIER_BEFORE else "since"
    took = f"statements without new indexes took {about(100 * others['ratio'])} of their time before"
    told = {"statements": _these(counted), "all": every, "writes": "writes"}
    known = [(told[name], about(100 * others["against"][name])) for name in told if others["against"][name] is not None]
    (what, part), *more = known
    against = ", ".join([f"{what} took {part} of theirs", *(f"{what} {part}" for what, part in more)])
    return [f"{begin} {took}: the server was busier {when}.", f"Against them {against}."]


def _by_planner(found: dict[str, Any]) -> list[str]:
    """What is saved by the server's planner, and what the advice said: of the time where that is known, as in its summary,
    or else of the cost."""
    if not (cost := found["server_cost"]):
        return []
    part = f"{cost['statements']} of {cost['of']}" if cost["statements"] < cost["of"] else "the"
    if time := cost["time"]:
        saved, said, shown = time["saved"], time["advised"], about
        what = "would take {} of the time measured for queries"
    else:
        saved = 100 * (cost["before"] - cost["now"]) / cost["before"] if cost["before"] else 0.0
        said, what, shown = 100 - cost["advised"], "cost {}", percent
    is_more = saved <= -0.05
    changed = what.format(f"{shown(abs(saved))} {'more' if is_more else 'less'}")
    with_all = " less" * is_more + " with all" * any(it["state"] != THERE for it in found["indexes"])
    return [f"By the server's planner {part} statements {changed}; the advice said {shown(said)}{with_all}."]


def _of_all(counted: dict[str, Any]) -> str:
    """The measured total of all statements that were called since, beside what it was before, and what writes take."""
    every, writes = counted["all"], counted["writes"]
    took, was = (_seconds(every["calls"] * every[it]) for it in ("since", "before"))
    text = f"All {grouped(every['calls'])} calls took {took} s, at the times before {was}"
    saved = 100 * (1 - every["since"] / every["before"]) if every["before"] else 0.0
    text += f": {about(abs(saved))} {'less' if saved >= 0 else 'more'}"
    if not writes["calls"]:
        return f"{text}."
    change = writes["calls"] * (writes["since"] - writes["before"])
    much = f"{_seconds(abs(change))} s {'more' if change >= 0 else 'less'} in all"
    return f"{text}; writes {_ms(writes['since'])} ms a call, {_ms(writes['before'])} before, {much}."


def _there(indexes: list[dict[str, Any]]) -> str:
    """How many are there, and in use."""
    there = [it for it in indexes if it["state"] == THERE]
    used = sum(it["scans"] > 0 for it in there)
    if not indexes:
        return "The folder has no index to make."
    if len(indexes) == 1:
        return f"The index is {'there' if there else 'not there'}{', not used yet' * (bool(there) and not used)}."
    if not there:
        return f"None of the {len(indexes)} indexes is there."
    count = f"All {len(indexes)}" if len(there) == len(indexes) else f"{len(there)} of {len(indexes)}"
    idle = ", ".join(str(it["place"]) for it in there if not it["scans"])
    unused = f", not used yet: {idle}" if used and idle else ""
    return f"{count} indexes are there, {used or 'none'} of them in use{' yet' * (not used)}{unused}."


def _these(counted: dict[str, Any]) -> str:
    count = len(counted["statements"])
    return "this statement" if count == 1 else f"these {count} statements"


def _changed(every: list[dict[str, Any]]) -> list[dict[str, Any]]:
    """The statements that got slower, and those whose change isn't noise; those that gained or lost the most first."""
    whole = sum(map(_change, every))

    def is_shown(it: dict[str, Any]) -> bool:
        change = abs(it["since"] - it["before"])
        is_felt = change >= FELT or _change(it) >= LITTLE * whole
        return bool(it["slower"] or it["main"]) or change >= CHANGED * it["before"] and is_felt

    return sorted(filter(is_shown, every), key=lambda it: -_change(it))


def _change(statement: dict[str, Any]) -> float:
    """How many milliseconds all calls of a statement gained or lost."""
    return abs(float(statement["calls"] * (statement["since"] - statement["before"])))


def _indexes(indexes: list[dict[str, Any]], most: int) -> list[str]:
    """A row for each index; where they are more, for those that aren't there and the first others, and one for the rest."""
    if not indexes:
        return []
    shown = _shown(indexes, most)
    lines = ["", f"{'scans':>17}  index"]
    for it in sorted(shown, key=lambda it: int(it["place"])):
        uses, number = grouped(it["scans"]) if it["state"] == THERE else it["state"], f"{it['place']}."
        lines += [f"{number:>3} {uses:>13}  {short(it['index'], 80)}"]
    rest = [it for it in indexes if it not in shown]
    scans = [it["scans"] for it in rest if it["state"] == THERE]
    used = f"{len(scans)} are there, {sum(it > 0 for it in scans)} of them in use"
    return lines + [f"and {len(rest)} more, of which {used}"] * bool(rest)


def _shown(indexes: list[dict[str, Any]], most: int) -> list[dict[str, Any]]:
    """The indexes that have rows."""
    by_need = sorted(indexes, key=lambda it: (it["state"] == THERE, it["place"]))
    return by_need if len(indexes) <= most else by_need[: most - 1]


def _statements(every: list[dict[str, Any]], most: int, places: set[int], count: int) -> list[str]:
    """A row for the statement that gains the most by each index that has one, then for each that gained or lost the most,
    and for the first that got slower; and how many of so many have none."""
    mains = sorted((it for it in every if places & {*it["main"]}), key=lambda it: min(places & {*it["main"]}))
    rest = [it for it in every if it not in mains]
    slower = [it for it in rest if it["slower"]][:MOST_SLOWER]
    others = [it for it in rest if it not in slower][: max(0, most - len(slower) - len(mains))]
    shown = [*mains, *(it for it in rest if it in slower or it in others)]
    lines = ["", f"{'ms before':>9} {'ms since':>9} {'calls':>11} {'index':>5}  statement"]
    lines += [
        f"{_ms(it['before']):>9} {_ms(it['since']):>9} {grouped(it['calls']):>11} {_numbers(it):>5}"
        f" {'!' if it['slower'] else ' '}{it['sql']}"
        for it in shown
    ]
    more = count - len(shown)
    return lines + [f"and {grouped(more)} more"] * bool(more)


def _no_faster(every: list[dict[str, Any]]) -> list[str]:
    """The indexes whose main statements, called often enough, aren't faster."""
    slow = [it for it in every if it["calls"] >= OFTEN and it["since"] > (1 - CHANGED) * it["before"]]
    places = sorted({at for it in slow for at in it["main"]})
    return [f"no faster with them: the statements of {', '.join(map(str, places))}"] * bool(places)


def _numbers(it: dict[str, Any]) -> str:
    """The numbers of the indexes that help a statement, where they are many those first by which it gains the most of all."""
    listed = it["indexes"]
    if len(listed) > 3:
        listed = [*it["main"], *(at for at in listed if at not in it["main"])][:2] + [".."]
    return ",".join(map(str, listed))


def _uncalled(places: list[int]) -> list[str]:
    """The indexes whose main statements weren't called."""
    return [f"not called since: those of {', '.join(map(str, places))}"] * bool(places)


def _rest(found: dict[str, Any]) -> list[str]:
    """What makes those that aren't there."""
    others = "the others" if any(it["state"] == THERE for it in found["indexes"]) else "them"
    return ["", f"to make {others}:", *found["make"]] if found["make"] else []


def _ms(time: float) -> str:
    """Milliseconds in digits that say something."""
    return f"{time:,.1f}" if time >= 1 else f"{time:.2f}" if time >= 0.1 else f"{time:.3f}"


def _seconds(milliseconds: float) -> str:
    """Seconds, of which a thousandth is seen."""
    return f"{milliseconds / 1000:,.1f}" if milliseconds >= 10000 else f"{milliseconds / 1000:.3g}"
