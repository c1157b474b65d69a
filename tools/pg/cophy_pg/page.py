"""`report`: what a folder of `advise` holds, as one page of HTML that asks nothing of any network."""
from __future__ import annotations

import argparse
import json
import shlex
from pathlib import Path
from typing import Any

from cophy_text import files
from cophy_text.answers import counted
from cophy_text.shown import grouped, percent, share, short, space
from cophy_pg import folder
from cophy_pg.closing import end_of, is_all_advised, is_hint, made_hints, now_of, pages_of, recommended_of, rows_of
from cophy_pg.curves import curve_of
from cophy_pg.folder import Folder
from cophy_pg.guesses import doubt_of, time_saved, warning_of
from cophy_pg.hints import ALONE, hints_told
from cophy_pg.overview import headline, is_seen, name_of, named, told_as
from cophy_pg.plan_text import plan_text
from cophy_pg.progress import say
from cophy_pg.purpose import filter_of
from cophy_pg.rewrite import CHANGES
from cophy_pg.unlimited import told, warning

try:
    import jinja2
except ImportError:
    jinja2 = None  # type: ignore[assignment]

TEMPLATE = Path(__file__).resolve().parent / "page.html"
VERSION = 1
KEPT = "\n\N{NO-BREAK SPACE}"


class NoReport(Exception):
    """Why there is no report."""


def add_report(commands: argparse._SubParsersAction[argparse.ArgumentParser]) -> None:
    """The words of `report`."""
    parser = commands.add_parser(
        "report",
        help="write what a folder of advise holds as one page of HTML",
        description="Writes report.html into a folder of advise: the indexes with their reasons, each statement with its "
        "plans before and after, what was changed and left out, and how to check the certificate. The page asks nothing of "
        "any network. Its curve is that of curve.json, what cophy-pg curve --json prints, where the folder has that.",
    )
    parser.add_argument("folder", metavar="DIR", help="the folder of advise")
    parser.add_argument("--output", metavar="FILE", help="the file of the page (report.html in the folder)")
    parser.set_defaults(run=report)


def report(words: argparse.Namespace) -> int:
    """Writes the page."""
    kept = Folder(words.folder)
    name = words.output or kept.path(folder.REPORT)
    files.check([name], [kept.path(it) for it in (folder.RESULT, folder.PLANS, folder.CURVE)])
    files.write([files.File(name, page_of(kept))])
    say(f"{files.shown(name)} is written")
    return 0


def page_of(kept: Folder) -> bytes:
    """The page of a folder."""
    if jinja2 is None:
        raise NoReport("no report is written: python3-jinja2 isn't installed")
    try:
        document, plans = json.loads(kept.result()), json.loads(kept.read(folder.PLANS))
        if document["version"] != VERSION:
            raise ValueError
        points = json.loads(kept.read(folder.CURVE)) if kept.has(folder.CURVE) else []
        curve = curve_of(points, int(document["cost"]["before"]))
        return page_text(document, plans, curve).encode("utf-8", "replace")
    except (ValueError, TypeError, LookupError, ArithmeticError, AttributeError, RecursionError, jinja2.TemplateError):
        raise NoReport(f"{files.shown(kept.name)} is no folder of cophy-pg advise of this version") from None


def page_text(document: dict[str, Any], plans: dict[str, Any], curve: dict[str, Any] | None) -> str:
    """The page. All that stands in it is escaped, and of characters that aren't printed none is left."""
    environment = jinja2.Environment(
        autoescape=True, undefined=jinja2.StrictUndefined, trim_blocks=True, lstrip_blocks=True, finalize=plain
    )
    environment.filters |= {
        "grouped": grouped,
        "model": lambda cost: _cost(cost / 1000),
        "cost": _cost,
        "percent": lambda number: whole(percent(number)),
        "space": lambda pages: whole(space(pages)),
        "whole": whole,
        "filter": filter_of,
        "short": short,
    }
    return environment.from_string(TEMPLATE.read_text()).render(
        it=document,
        end=end_of(document),
        headline=headline(document),
        found=recommended_of(document),
        pages=pages_of(document),
        alone=ALONE,
        some=not is_all_advised(document),
        by_default=any("made" in (it["server_cost"] or {}) for it in document["statements"]),
        has_hints=bool(made_hints(document)),
        picks=[_pick(at, it, document) for at, it in rows_of(document)],
        left_out=[{"index": named(it), "pages": it["pages"], "why": it["why"]} for it in document["left_out"]],
        statements=_statements(document, plans),
        skipped=_skipped(document),
        changes=_changes(document),
        rules=_rules(document),
        doubts=document.get("doubts", []),
        long=told(document.get("long_columns", [])),
        hints=hints_told(document),
        curve=curve,
        commands=_commands(document),
        counted=counted,
        share=lambda part, every: whole(share(part, every)),
    )


def _rules(document: dict[str, Any]) -> list[str]:
    """The rules that the picks keep, of those that ask for what was left out afterwards with the reason."""
    reasons = {f"must {named(it)}": it["why"] for it in document["left_out"]}
    return [it + (f"  (left out then: {reasons[it]})" if it in reasons else "") for it in document["rules"]]


def plain(value: Any) -> Any:
    """A text without the characters that aren't printed, such as those that turn the direction of what follows."""
    if isinstance(value, str) and not value.isprintable():
        return type(value)(
            "".join(it if it.isprintable() or it in KEPT else " " if it == "\t" else "\ufffd" for it in value)
        )
    return value


def whole(text: str) -> str:
    """A number that no line ends within, before its unit."""
    return text.replace(" ", "\N{NO-BREAK SPACE}")


def _cost(number: float) -> str:
    return f"{number:,.1f}" if abs(number) < 1000 else grouped(float(number))


def _pick(place: int, pick: dict[str, Any], document: dict[str, Any]) -> dict[str, Any]:
    changes = [
        {"seconds": None} | it | {"anchor": _anchor(it), "name": name_of(it)} for it in pick["changes"] if is_seen(it)
    ]
    more = {"warning": warning_of(pick, document), "doubt": doubt_of(pick), "may_fail": warning(pick.get("long", []))}
    return {
        "notes": [],
        "build_seconds": None,
        "caveat": None,
        "superfluous": [],
        "begins": None,
        "outcome": "taken",
        **pick,
        "is_hint": is_hint(pick),
        "time": time_saved(pick),
        "place": place,
        "index": told_as(pick),
        "listed": changes,
        **more,
    }


def _anchor(statement: dict[str, Any]) -> str:
    return "statement-" + "-".join(map(str, statement["numbers"]))


def _statements(document: dict[str, Any], plans: dict[str, Any]) -> list[dict[str, Any]]:
    """The statements that are priced, those that cost the most before by the server first. Of several inputs that are
    written as the same statements the first has the anchor."""
    both = zip(document["statements"], plans["statements"], strict=True)
    listed = [_statement(it, plan, plans["shown"]) for it, plan in both if it["numbers"]]
    listed.sort(key=lambda it: (-it["calls"] * (it["server_cost"] or {"before": 0})["before"], it["numbers"]))
    known = set[str]()
    for it in listed:
        it["anchor"] = "" if (anchor := _anchor(it)) in known else anchor
        known.add(anchor)
    return listed


def _statement(statement: dict[str, Any], plan: dict[str, Any], names: dict[str, str]) -> dict[str, Any]:
    """A statement with its plans before and after: where it is known what it is with what is made by default, that."""
    before, after = (plan_text(plan[side], names) if plan[side] else "" for side in ("before", "after"))
    if "made" in plan:
        after = plan_text(plan["made"], plan["made_shown"])
    cost = statement["server_cost"]
    now = now_of(cost) if cost else None
    saved = 100 * (cost["before"] - now) / cost["before"] if cost and cost["before"] else None
    return {
        **statement,
        "name": name_of(statement),
        "before": before,
        "after": after,
        "now": now,
        "saved": saved,
        "texts": [{"name": it, "text": CHANGES[it].text if it in CHANGES else ""} for it in statement["changes"]],
    }


def _skipped(document: dict[str, Any]) -> list[dict[str, Any]]:
    """The reasons why statements were skipped, with those of each."""
    found: dict[str, list[dict[str, Any]]] = {}
    for it in document["statements"]:
        if it["skipped"]:
            found.setdefault(it["skipped"].split(", at character ")[0], []).append(it)
    return [{"why": why, "listed": listed} for why, listed in sorted(found.items(), key=lambda it: -len(it[1]))]


def _changes(document: dict[str, Any]) -> list[dict[str, Any]]:
    """The kinds of changes with their effects and the numbers of the statements that they were made in."""
    found: dict[str, list[str]] = {}
    for it in document["statements"]:
        for name in it["changes"]:
            found.setdefault(name, []).extend(map(str, it["numbers"]))
    kinds = ((name, CHANGES[name]) for name in found if name in CHANGES)
    listed = [
        {"name": name, "effect": kind.effect, "text": kind.text, "numbers": [*dict.fromkeys(found[name])]}
        for name, kind in kinds
    ]
    return sorted(listed, key=lambda it: -len(it["numbers"]))


def _commands(document: dict[str, Any]) -> str:
    kept = Folder(document["folder"])
    return shlex.join(["cophy", "check", *map(kept.path, (folder.CATALOGUE, folder.WORKLOAD, folder.CERTIFICATE))])
