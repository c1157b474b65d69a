"""The points of a database: what each budget buys, with its certificate, and their check.

All calls are made in a folder that holds the inputs as `catalogue.toml` and `workload.sql`.
"""
from __future__ import annotations

import zlib
from collections.abc import Iterable
from pathlib import Path

from cophy_fleet.calls import Failed, NoCommand, Refused, Settings, last_line, said
from cophy_fleet.outcomes import Point
from cophy_fleet.settings import MOST
from cophy_text.answers import Advice, Candidate, NoAnswer, read_candidates, read_config, read_left_over, read_points

AT_ONCE = 16
"""How many budgets a call of `sweep` has at most."""
TOO_LONG = "refused: folded workload too long"


def fold(folder: str, settings: Settings) -> None:
    """Puts one statement in the place of those that cost the same under all indexes, where the program does that. Candidates,
    and the cost under each set of them, stay."""
    if not settings.fold:
        return
    try:
        said(folder, settings, "fold", "folded.sql")
        Path(folder, "folded.sql").replace(Path(folder, "workload.sql"))
    except NoCommand:
        return
    except Refused as refused:
        if not str(refused).startswith(TOO_LONG):
            raise
    except OSError as fault:
        raise Failed(f"cophy fold wrote nothing: {fault.strerror}") from None


def sweep(folder: str, settings: Settings) -> tuple[Point, ...]:
    """The points at budgets an equal step apart from 0, below the size that no budget limits, and the one without a limit."""
    last = _advice(folder, MOST, settings)
    most = last.numbers.size
    step = max(1, -(-most // settings.steps))
    count = max(1, -(-most // step))
    try:
        found = _swept(folder, step, count, settings)
    except NoCommand:
        found = [_advice(folder, it * step, settings) for it in range(count)]
    except (NoAnswer, KeyError, OSError) as fault:
        raise Failed(f"cophy sweep gives no points: {fault}") from None
    return (*found, last)


def fault_of(folder: str, points: Iterable[Point], settings: Settings) -> str:
    """What the first certificate proves that doesn't prove its advice; nothing where each does."""
    for it in points:
        Path(folder, "certificate").write_bytes(zlib.decompress(it.certificate))
        answer = said(folder, settings, "check", "certificate")
        advice = it.numbers
        if answer != f"proved cost {advice.cost} bound {advice.bound} budget {it.budget}\n":
            return f"the certificate for {it.budget} pages: {last_line(answer.encode())}"
    return ""


def _advice(folder: str, budget: int, settings: Settings) -> Point:
    words = (str(budget), "--nodes", str(settings.nodes), "--cert", "certificate")
    text = said(folder, settings, "advise", *words)
    return Point(budget, text, zlib.compress(Path(folder, "certificate").read_bytes()))


def _swept(folder: str, step: int, count: int, settings: Settings) -> list[Point]:
    """So many points from 0 on, by few calls of `sweep`."""
    found: list[Point] = []
    candidates = said(folder, settings, "candidates") if count else ""
    for at in range(0, count, AT_ONCE):
        numbers = map(str, (at * step, step, min(AT_ONCE, count - at)))
        text = said(folder, settings, "sweep", *numbers, "--nodes", str(settings.nodes), "--cert", "point-")
        for number, advice in enumerate(read_points(text), 1):
            certificate = Path(folder, f"point-{number}").read_bytes()
            advice.picks = _picks(certificate, candidates)
            found.append(Point(advice.budget, as_advised(advice, candidates, settings), zlib.compress(certificate)))
    if [it.budget for it in found] != [it * step for it in range(count)]:
        raise NoAnswer("these aren't the budgets that were asked for")
    return found


def _picks(certificate: bytes, candidates: str) -> list[Candidate]:
    listed = {it.number: it for it in read_candidates(candidates)}
    return [listed[it] for it in read_config(certificate.decode("ascii"))]


def as_advised(advice: Advice, candidates: str, settings: Settings) -> str:
    """A point of a sweep in the words that `advise` has for it."""
    lines = [f"budget {advice.budget}"]
    lines.append(f"candidates {len(read_candidates(candidates))} left over {read_left_over(candidates)}")
    lines += [f"pick {it.number} {it.shown()} {it.pages} pages" for it in advice.picks]
    lines += [f"{it} {getattr(advice, it)}" for it in ("size", "cost", "bound", "gap")]
    lines += [f"nodes {advice.nodes} of {settings.nodes}", "finished" if advice.is_finished else "stopped", ""]
    return "\n".join(lines)
