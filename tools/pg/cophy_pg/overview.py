"""What `advise` found, for the terminal."""
from __future__ import annotations

from typing import Any

from cophy_text.answers import counted
from cophy_text.shown import SHORT, grouped, in_row, percent, share, short, space
from cophy_pg.choice import ASKED, UNTAKEN
from cophy_pg.closing import costs, is_hint, last_of, now_of, pages_of, recommended_of, rows_of
from cophy_pg.expression_hints import SAME
from cophy_pg.guesses import doubt_of, gains, saved_of, seconds_of, time_saved, warning_of
from cophy_pg.hints import ALONE, hinted, hints_told
from cophy_pg.purpose import filter_of, purpose_of
from cophy_pg.recommended import KINDS, LITTLE
from cophy_pg.rewrite.parse import without_literals
from cophy_pg.speed import duration
from cophy_pg.unlimited import told, warning

MOST_CHANGES = 5
SAVES = f"   {'size':>9} {'our model':>9} {'server':>9}"
MUCH = 20
"""A skipped statement is named that has this part of the whole."""
UNHELPED, SEEN, SLOW = 10, 1000, 0.005
"""Statements that no index helps are told that have this part of the time together, each this one and so many seconds a call."""
MOST_NUMBERS = 5
"""So many numbers of statements are shown."""
WIDE = 5
"""Of so many columns some are mostly only read."""


def lines_of(document: dict[str, Any]) -> list[str]:
    """The summary of a document."""
    lines = [_head(document), *(f"warning: {it}" for it in document["warnings"])]
    time = "measured time" if measured(document) == "seconds" else "calls"
    head = f"{SAVES}{' time':>10}" if time_of(document) else SAVES
    lines += [f"{head}  % saved; statement, {time}"] if rows_of(document) else [""]
    for at, it in rows_of(document):
        lines += [*_pick(at, it, document), *_longer(it, document)]
    lines += [""] * bool(rows_of(document))
    lines += [*_hints(document), *hints_told(document)]
    lines += [told(long), ""] if (long := document.get("long_columns", [])) else []
    lines += [*_left_out(document["left_out"]), *_skipped(document)]
    unknown = [it for it in document["statements"] if it["not_explained"]]
    if unknown:
        lines += [f"{counted(len(unknown), 'statement')} couldn't be explained by the server:"]
        shown = ((name_of(it), it["not_explained"], filter_of(it["sql"], SHORT)) for it in unknown[:MOST_CHANGES])
        lines += [f"  {name}: {why}: {sql}" for name, why, sql in shown]
        lines += [f"  and {grouped(len(unknown) - MOST_CHANGES)} more", ""] if unknown[MOST_CHANGES:] else [""]
    return [*lines, *costs(document), *last_of(document)]


def _longer(pick: dict[str, Any], document: dict[str, Any]) -> list[str]:
    """The picks that serve what this one serves, but are larger."""
    columns = pick["columns"]
    found = [
        at
        for at, it in rows_of(document)
        if it["table"] == pick["table"] and it["columns"] != columns and it["columns"][: len(columns)] == columns
    ]
    return [f"   {at} begins with its columns" for at in found]


def _left_out(left_out: list[dict[str, Any]]) -> list[str]:
    """How many were left out, by the reasons; the report names each."""
    untaken = sum(it["why"] == UNTAKEN for it in left_out)
    asked = sum(ASKED in it["why"] for it in left_out)
    counts = {"taken by no plan": untaken, "beyond limits": asked, "for other reasons": len(left_out) - untaken - asked}
    shown = ", ".join(f"{count} {why}" for why, count in counts.items() if count)
    return [f"left out, see the report: {shown}", ""] if left_out else []


def much_skipped(document: dict[str, Any]) -> str:
    """What part of the time, or of the calls, the skipped statements have that have much of it each; nothing where none has."""
    what = measured(document)
    whole = sum(it[what] for it in document["statements"])
    much = _much_skipped(document)
    return share(sum(it[what] for it in much), whole) if much else ""


def _much_skipped(document: dict[str, Any]) -> list[dict[str, Any]]:
    every, what = document["statements"], measured(document)
    whole = sum(it[what] for it in every)
    return [it for it in every if not it["numbers"] and it[what] * MUCH >= whole > 0]


def unhelped(document: dict[str, Any]) -> list[str]:
    """A line about the slow statements without hints that cost the server about as much with the picks, where they have much of
    the measured time together, with the one that has the most."""
    whole = seconds_of(document["statements"])
    if not whole:
        return []
    others = (it for it in document["statements"] if not hinted(document) & {*it["numbers"]})
    seen = [it for it in others if it["server_cost"] and it["seconds"] >= max(SLOW * it["calls"], whole / SEEN)]
    same = [it for it in seen if now_of(it["server_cost"]) > SAME * it["server_cost"]["before"]]
    time = seconds_of(same) or 0.0
    if time * UNHELPED < whole:
        return []
    most = max(same, key=lambda it: float(it["seconds"]))
    what = f"no advised index helps statements with {share(time, whole)} of the time, the most of them"
    return [f"{what}: {filter_of(most['sql'], SHORT)}"]


def _skipped(document: dict[str, Any]) -> list[str]:
    """The skipped statements that have much of the time, or of the calls."""
    much, what = _much_skipped(document), measured(document)
    if not much:
        return []
    whole = sum(it[what] for it in document["statements"])
    lines = [
        f"  {share(it[what], whole)}: {it['skipped']}: {filter_of(it['sql'], SHORT)}" for it in much[:MOST_CHANGES]
    ]
    name = "time" if what == "seconds" else "calls"
    return [f"skipped, with much of the {name}, so no index is advised for them:", *lines, ""]


def _hints(document: dict[str, Any]) -> list[str]:
    """Options that make the advice smaller, where it has what they leave out, and how one index is left out."""
    options, picks, lines = document["options"], dict(rows_of(document)), list[str]()
    little = [at for at, it in picks.items() if max(it["saves"].get(key) or 0 for key in KINDS) < LITTLE]
    if little and options["min_saving"] < LITTLE:
        size = space(sum(picks[at]["stored_pages"] for at in little))
        save, take = ("saves", "takes") if len(little) == 1 else ("save", "take")
        what = f"{in_row([str(at) for at in little])} {save} less than {LITTLE} % and {take} {size}"
        lines += [f"{what}: --min-saving {LITTLE} leaves such out"]
    wide = [at for at, it in picks.items() if len(it["columns"]) >= WIDE]
    if wide and not options["include"]:
        have = "has" if len(wide) == 1 else "have"
        what = f"{in_row([str(at) for at in wide])} {have} {WIDE} columns or more"
        lines += [f"{what}: --include puts what is only read behind INCLUDE"]
    unadvised = [at for at, it in picks.items() if it.get("caveat")]
    if unadvised:
        lines += [f"{in_row([str(at) for at in unadvised])} not recommended: cophy-pg make --all makes such too"]
    if len(picks) > 1:
        lines += ["to leave some out: cophy-pg make --without N,N, their numbers"]
    return [*lines, ""] if lines else []


def named(pick: dict[str, Any]) -> str:
    """A pick by the names of the catalogue."""
    return f"{pick['table']}({', '.join(pick['columns'])}){' clustered' * pick.get('clustered', False)}"


def told_as(pick: dict[str, Any]) -> str:
    """A pick by the name of its table in PostgreSQL, where that is plain."""
    return named({**pick, "table": pick.get("path") or pick["table"]})


def gain_of(pick: dict[str, Any]) -> str:
    """What a pick saves, of the measured time where that is known, and the statement that gains the most, without literals."""
    user, saved = user_of(pick), f"saves {percent(saved_of(pick))}"
    saved += " of the time" * (time_saved(pick) is not None) + " by the server's planner alone" * is_hint(pick)
    return saved + (f", the most of {short(without_literals(user['sql']))}" if user else "")


def user_of(pick: dict[str, Any]) -> dict[str, Any] | None:
    """The statement that gains the most by a pick, which is the first."""
    gaining = (it for it in pick["changes"] if max(it["ours"], it["server"]) > 0)
    return next(iter(gains(pick)), None) if time_saved(pick) is None else next(gaining, None)


def name_of(statement: dict[str, Any]) -> str:
    """A statement by its numbers in the workload, or as one without."""
    numbers = statement["numbers"]
    return f"statement{'s' * (len(numbers) > 1)} {listed_numbers(numbers)}" if numbers else "a skipped statement"


def listed_numbers(numbers: list[int]) -> str:
    """The first of some numbers."""
    return ", ".join(map(str, numbers[:MOST_NUMBERS])) + (", .." if len(numbers) > MOST_NUMBERS else "")


def headline(document: dict[str, Any]) -> str:
    """How many indexes there are to make."""
    count = sum(not it.get("caveat") for _, it in rows_of(document))
    plainly = "plainly " * bool(document["picks"])
    return f"{count} index{'es' * (count != 1)} to make" if count else f"no index is {plainly}worth making"


def _head(document: dict[str, Any]) -> str:
    others = sum(bool(it.get("caveat")) for _, it in rows_of(document))
    is_any = len(rows_of(document)) > others
    size = f", {space(pages_of(document))} of {space(document['asked_pages'])}" if is_any else ""
    rest = document["stored_pages"] - recommended_of(document)["stored_pages"]
    size += f", and {others} not recommended, {space(rest)}" if others else ""
    what = f"database {document['database']!a}, {part_of(document)}"
    return f"{headline(document)}{size}: {what}; advised in {_seconds(sum(document['seconds'].values()))}"


def part_of(document: dict[str, Any]) -> str:
    """How many statements are priced, of those that the server counted or a file has, and what they have of the
    measured time, or of all calls where some were skipped."""
    every, what = document["statements"], measured(document)
    text = f"{grouped(sum(bool(it['numbers']) for it in every))} of {counted(len(every), 'statement')}"
    text += " counted" * (document["options"]["source"] == "pg_stat_statements")
    whole = sum(it[what] for it in every)
    if not whole or what == "calls" and all(it["numbers"] for it in every):
        return text
    of = time_of(document) or "the calls"
    return f"{text} with {share(sum(it[what] for it in every if it['numbers']), whole)} of {of}"


def time_of(document: dict[str, Any]) -> str:
    """The measured time of all statements in words, which commands such as VACUUM are no part of; nothing where it
    isn't known."""
    whole = seconds_of(document["statements"])
    return f"the {_seconds(whole)} measured for queries" if whole else ""


def measured(document: dict[str, Any]) -> str:
    """What statements are compared by: their time, or their calls where some time isn't known."""
    return "calls" if any(it["seconds"] is None for it in document["statements"]) else "seconds"


def _pick(at: int, pick: dict[str, Any], document: dict[str, Any]) -> list[str]:
    taken = {
        "taken": f"judged by {ALONE}" if is_hint(pick) else "",
        "unknown": "whether plans take it isn't known",
        "not taken": "a rule asks for it, no plan takes it",
    }[pick.get("outcome", "taken")]
    lines = [f"{at}. {it}" if n == 0 else f"   {it}" for n, it in enumerate(pick["statements"])]
    lines += [f"   {space(pick['stored_pages']):>9} {_shares(pick)}  {_for(pick, document)}"]
    lines += [f"   {taken}"] if taken else []
    caveat, fails = pick.get("caveat"), warning(pick.get("long", []))
    why = f"not recommended: {caveat}" if caveat else doubt_of(pick) or warning_of(pick, document)
    lines += [f"   {it}" for it in (why, fails) if it and it != caveat]
    lines += [f"   unknown: {it}" for it in pick.get("unknown_for", [])]
    lines += [f"   {pick['begins']} begins with its columns"] if pick.get("begins") else []
    lines += [f"   beside it {name} is superfluous" for name in pick.get("superfluous", [])]
    return lines + [f"   {it}" for it in pick["notes"]]


def purpose(pick: dict[str, Any], change: dict[str, Any], document: dict[str, Any], most: int) -> str:
    """What a statement asks of a pick or a hint."""
    numbers = change["numbers"]
    sql = next((it["sql"] for it in document["statements"] if numbers and it["numbers"] == numbers), change["sql"])
    return purpose_of(sql, pick["table"], pick["columns"], most)


def _for(pick: dict[str, Any], document: dict[str, Any]) -> str:
    """The statement that gains the most by a pick, and which others gain or lose."""
    found = gains(pick)
    if not found:
        return "less than 0.1 % of the cost in each statement"
    first, *others = found
    losing = [it for it in pick["changes"] if is_seen(it) and it not in found]
    text = f"{name_of(first)}, {_measured_time([first])}: {purpose(pick, first, document, SHORT)}"
    text += f"; also {_all_of(others)}" if others else ""
    return text + (f"; {_all_of(losing)} lose{'s' * (len(losing) == 1)}" if losing else "")


def _all_of(changes: list[dict[str, Any]]) -> str:
    """The statements of changes by their numbers."""
    return listed_numbers(sorted(number for it in changes for number in it["numbers"]))


def _measured_time(changes: list[dict[str, Any]]) -> str:
    """What the server measured of statements, or else their calls."""
    seconds = seconds_of(changes)
    return _seconds(seconds) if seconds is not None else counted(sum(it["calls"] for it in changes), "call")


def _seconds(number: float) -> str:
    if number >= 120:
        return duration(number)
    return f"{number:,.1f} s" if number >= 1 else f"{number:.2g} s"


def _shares(pick: dict[str, Any]) -> str:
    """What a pick saves of the cost, by our model and by the server's planner, and of the measured time where that is known."""
    time = time_saved(pick)
    found = [pick["saves"].get("ours"), pick["saves"]["server"], *[time] * (time is not None)]
    return " ".join(f"{'-' if it is None else percent(it).removesuffix(' %'):>9}" for it in found)


def is_seen(change: dict[str, Any]) -> bool:
    """Whether a change is one in the digits that are shown."""
    return abs(float(change["ours"])) >= 0.05 or abs(float(change["server"])) >= 0.05
