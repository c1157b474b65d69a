"""Which picks rest on a guess: on a range whose end isn't known, in statements that have next to none of the measured time; and
of which the server thinks far less than our model."""
from __future__ import annotations

import re
from collections.abc import Collection, Iterable
from typing import Any

from cophy_text.shown import percent, space

LITTLE = 1.0
"""So many percent of the measured time are little."""
FEW, FAR = 5.0, 4
"""Few percent, of what counted rows say; and where our model saves so many times what the server does, and the server little,
that is told."""
COUNTED = "rows of a call"
"""The change by which a range of parameters holds as many rows as the server counted."""
_HELD = re.compile(r"(\w+)\s*(?:[<>]=?|BETWEEN)\s*(?:-?\d|'|DATE '|TIMESTAMP ')", re.IGNORECASE)
_OPEN = re.compile(r"(\w+)\s*(?:[<>]=?|BETWEEN)\s*\?", re.IGNORECASE)


def is_guessed(text: str, columns: Iterable[str]) -> bool:
    """Whether a statement of a workload compares one of these columns to an end that isn't known, so that a part of the
    table is taken for the range."""
    return not {it.lower() for it in _OPEN.findall(text)}.isdisjoint(it.lower() for it in columns)


def is_counted(text: str, changes: Collection[str], columns: Iterable[str]) -> bool:
    """Whether a statement of a workload, changed so, compares one of these columns to a range that holds as many rows as the server
    counted. Its planner takes a default for the parameters that were there."""
    return COUNTED in changes and not {it.lower() for it in _HELD.findall(text)}.isdisjoint(
        it.lower() for it in columns
    )


def gains(pick: dict[str, Any]) -> list[dict[str, Any]]:
    """The changes of a pick by which a statement costs less, in the digits that are shown."""
    return [it for it in pick["changes"] if max(it["ours"], it["server"]) >= 0.05]


def seconds_of(listed: Iterable[dict[str, Any]]) -> float | None:
    """The measured time of statements or of changes; nothing where some isn't known."""
    return whole_of([it.get("seconds") for it in listed])


def whole_of(listed: list[float | None]) -> float | None:
    """The sum of measured times; nothing where some isn't known."""
    return sum(it for it in listed if it is not None) if None not in listed else None


def warning_of(pick: dict[str, Any], document: dict[str, Any]) -> str:
    """What there is to warn of where a pick rests on a guess and on little of the measured time."""
    found, whole = seconds_of(gains(pick)), seconds_of(document["statements"])
    if not any(it.get("guess") for it in gains(pick)) or found is None or not whole or 100 * found >= LITTLE * whole:
        return ""
    return f"rests on a guess, a range whose end isn't known, and on {100 * found / whole:.2g} % of the measured time"


def is_judged(pick: dict[str, Any]) -> bool:
    """Whether the server says what a pick saves, as it does of each hint: it knows a clustered one as an ordinary
    index alone."""
    return pick.get("outcome", "taken") == "taken" and not pick.get("clustered", False)


def time_saved(pick: dict[str, Any]) -> float | None:
    """What a pick saves of the measured time, in percent: by the server's planner where that judges it, or else by whoever sees
    more. Nothing where some time isn't known."""
    found: float | None = pick["saves"].get("planned" if is_judged(pick) else "measured")
    return found


def saved_of(pick: dict[str, Any]) -> float:
    """What is printed that a pick or a hint saves, in percent: of the measured time, where that is known, or else
    of the cost, by the server's planner where that judges it."""
    time = time_saved(pick)
    return float(pick["saves"]["server" if is_judged(pick) else "ours"] if time is None else time)


def by_server(pick: dict[str, Any]) -> tuple[float, str]:
    """What a pick saves by the server's planner, of the cost or of the measured time, whichever is more, and its words."""
    server, time = (float(pick["saves"].get(it) or 0.0) for it in ("server", "planned"))
    what = f"it saves {percent(time)} of the measured time" if time > server else f"the server saves {percent(server)}"
    return max(server, time), what


def doubt_of(pick: dict[str, Any]) -> str:
    """What there is to say of a pick that by the server, of the cost and of the measured time, saves little and far less than by
    our model, but where this saves enough by counted rows."""
    ours = max(float(pick["saves"].get(it) or 0.0) for it in ("ours", "measured"))
    saved, what = by_server(pick)
    counted = sum(float(it["ours"]) for it in pick.get("changes", ()) if it.get("counted"))
    if not is_judged(pick) or saved >= LITTLE or counted >= FEW or ours < max(LITTLE, FAR * saved):
        return ""
    return f"{what}: probably not worth {space(pick['stored_pages'])}"
