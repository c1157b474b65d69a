"""All that `advise` found, as one document of JSON, whose form is `advice.schema.json`."""
from __future__ import annotations

from collections import Counter
from dataclasses import dataclass, field
from functools import cached_property
from typing import Any

from cophy_text import VERSION
from cophy_text.answers import Advice, Candidate, Prices
from cophy_text.shown import short
from cophy_pg.choice import Choice
from cophy_pg.ddl import Made, create, taken_names
from cophy_pg.expression_hints import Hint
from cophy_pg.guesses import is_counted, is_guessed, saved_of, whole_of
from cophy_pg.hints import Found, Room, documents_of
from cophy_pg.outcomes import ORDINARY, Outcome, Verdict
from cophy_pg.plans import Plans
from cophy_pg.recommended import LITTLE, Recommended, caveat_of, served
from cophy_pg.rewrite.parse import without_literals
from cophy_pg.schema import Schema, path_of
from cophy_pg.sizes import stored_size
from cophy_pg.speed import Speed
from cophy_pg.unlimited import exceeding, far_longer, likely
from cophy_pg.verify import Judged
from cophy_pg.walks import walks_told
from cophy_pg.why import Reason
from cophy_pg.workload import Record, Workload
from cophy_pg.worth import worth_of
from cophy_pg.writes import Indexed, writes_of

VACUUM = (
    "plans read it without its table, which takes pages that VACUUM has marked: where many rows change, VACUUM often, "
    "or these plans cost more, or leave it"
)


@dataclass
class Result:
    """What each step found. `indexes` are those that a table of the picks has. `prices` are ours without picks, with those that
    stay, and with all of the advice; a price of ours is in thousandths of a page read."""

    schema: Schema
    workload: Workload
    advice: Advice
    choice: Choice
    judged: Judged
    plans: Plans
    prices: tuple[Prices, Prices, Prices]
    reasons: list[Reason]
    proved: str
    head: dict[str, Any]
    told: dict[str, list[str]]
    seconds: dict[str, float] = field(default_factory=dict)
    owners: dict[str, str] = field(default_factory=dict)
    indexes: dict[str, Indexed] = field(default_factory=dict)
    recommended: Recommended | None = None
    hints: list[Hint] = field(default_factory=list)

    def document(self) -> dict[str, Any]:
        """The document."""
        none, kept, all_ = self.prices
        count, before, after = self.judged.sums()
        picks, hints = self.listed
        places = {it["number"]: it["place"] for it in picks}
        owning = {it["owner"] for it in (*picks, *(hint for hint, _ in hints)) if it["place"]}
        return {
            "version": 1,
            "tools": VERSION,
            **self.head,
            "owners": [it for it in self.head["owners"] if it in owning],
            "budget_pages": self.advice.budget,
            "size_pages": sum(it.pages for it in self.choice.advice.picks),
            "stored_pages": stored_size(self.schema, self.choice.advice.picks),
            "cost": {
                "before": none.total,
                "after": kept.total,
                "advice": all_.total,
                "bound": self.advice.bound,
                "finished": self.advice.is_finished,
            },
            "server_cost": {"statements": count, "before": before, "after": after},
            "recommended": self._recommended(),
            "writes": self._writes([it for it in self.reasons if not self._caveat(it.pick.number)]),
            "proved": self.proved,
            "calls_divided_by": self.workload.divisor,
            **self.told,
            "functions": self.judged.functions,
            "picks": [it | {"caveat": self._caveat(it["number"])} for it in picks],
            "left_out": [{**_index(it), "why": why} for it, why in self.choice.left_out],
            "hints": [it for it, _ in hints],
            "statements": [self._statement(at, it, places) for at, it in enumerate(self.workload.records, 1)],
            "seconds": {name: round(it, 3) for name, it in self.seconds.items()},
        }

    def numbers(self) -> list[int]:
        """The numbers of the picks in the order in which they are shown and made."""
        return [it["number"] for it in self.plain_picks()]

    def caveats(self, asked: set[int]) -> dict[int, str]:
        """Why picks aren't recommended where all are there, by their numbers, but for those that are asked for."""
        statements = [{"seconds": it.input.seconds} for it in self.workload.records]
        document = {"statements": statements, "cost": {"after": self.prices[1].total}}
        judged = {it["number"]: it for it in self.ranked if it["number"] not in asked}
        found = {number: why for number, it in judged.items() if (why := caveat_of(it, document))}
        others = {it.pick.number: it.pick for it in self.reasons if it.pick.number not in found}
        for number in others.keys() & judged.keys():
            if why := served(judged[number], others[number], others.values(), self.schema.searched):
                found[number] = why
        return found

    def places_left_out(self) -> list[int]:
        """The places, from 1, of the picks that aren't recommended."""
        return [it["place"] for it in self.plain_picks() if self._caveat(it["number"])]

    def made_hints(self) -> list[Found]:
        """The hints that the script makes."""
        return [it for it in self.listed[1] if it[0]["why_not"] is None]

    def _caveat(self, number: int) -> str | None:
        return self.recommended.why_not.get(number) if self.recommended else None

    def _recommended(self) -> dict[str, Any]:
        """What those picks take and bring that are recommended."""
        picks = [it for it in self.choice.advice.picks if not self._caveat(it.number)]
        ours, server = self.recommended.costs if self.recommended else (self.prices[1].total, self.judged.sums()[2])
        return {
            "picks": len(picks),
            "stored_pages": stored_size(self.schema, picks),
            "cost": ours,
            "server_cost": server,
        }

    def _writes(self, picks: list[Reason]) -> list[dict[str, Any]]:
        """The writes that have more indexes to keep by some picks."""
        calls = Counter[int]()
        for it in self.workload.records:
            calls.update({at: it.input.calls for at in it.numbers})
        texts = [text for text, _ in self.workload.statements]
        paths = {it.shown: path_of(it.schema, it.name, it.shown) for it in self.schema.tables.values()}
        return [it | {"path": paths.get(it["table"])} for it in writes_of(picks, texts, calls, self.indexes)]

    @cached_property
    def _not_hot(self) -> dict[str, set[str]]:
        """The columns of each table for whose indexes UPDATEs that could be HOT can't be, were all picks made."""
        return {it["table"]: {*it["not_hot"]} for it in self._writes(self.reasons)}

    def plain_picks(self) -> list[dict[str, Any]]:
        """The picks, those that are recommended first, and of each those that save the most."""
        return self.listed[0]

    @cached_property
    def ranked(self) -> list[dict[str, Any]]:
        """The picks, those first that save the most, before it is known which are recommended."""
        outcomes = {it.pick.number: it for it in self.judged.outcomes}
        return sorted((self._plain(it, outcomes[it.pick.number]) for it in self.reasons), key=place_of)

    @cached_property
    def listed(self) -> tuple[list[dict[str, Any]], list[Found]]:
        """The picks and the hints, once it is known which picks are recommended. Places and names are given in the
        order in which they are made: picks that are recommended, hints, other picks."""
        by_number = {it.pick.number: it.pick for it in self.reasons}
        hints, taken = self._hints(), taken_names(self.schema)
        advised, others = (
            [it for it in self.ranked if bool(self._caveat(it["number"])) is is_out] for is_out in (False, True)
        )
        rows = [(it, by_number[it["number"]]) for it in advised] + [it for it in hints if not it[0]["why_not"]]
        rows += [(it, by_number[it["number"]]) for it in others]
        for place, (it, pick) in enumerate(rows, 1):
            it |= {"place": place} | self._made(pick, taken)
        for it, pick in hints:
            it |= {"owner": self.owners.get(pick.table), **self._long(pick)}
            it |= {} if it["place"] else self._made(pick, {*taken})
        return [*advised, *others], hints

    def _hints(self) -> list[Found]:
        """The hints, once it is known what the picks leave of the space that was asked for."""
        if self.recommended is None:
            return []
        time = whole_of([it.input.seconds for it in self.workload.records])
        options, picks = self.head["options"], [it for it in self.choice.advice.picks if not self._caveat(it.number)]
        left = self.head["asked_pages"] - stored_size(self.schema, picks)
        room = Room(
            left, max(LITTLE, options["min_saving"]), options["most_per_table"], Counter(it.table for it in picks)
        )
        return documents_of(self.hints, self.schema, self.judged.sums()[1], time, room)

    def _plain(self, reason: Reason, outcome: Outcome) -> dict[str, Any]:
        """A pick, with what it saves and what the server says of it."""
        return _index(reason.pick) | {
            "stored_pages": stored_size(self.schema, [reason.pick]),
            "outcome": outcome.name,
            "saves": self._saves(reason),
            "changes": self._changes(reason),
            "owner": self.owners.get(reason.pick.table),
            "unknown_for": [f"{why}: {where}" if where else why for why, where in outcome.reasons.items()],
            "begins": outcome.begins or None,
            "key": outcome.key or None,
            "superfluous": [*outcome.superfluous],
            "not_hot": [it for it in reason.pick.columns if it in self._not_hot.get(reason.pick.table, ())],
            **self._long(reason.pick),
        }

    def _long(self, pick: Candidate) -> dict[str, Any]:
        """The columns for whose long values an INSERT may fail, and those that have such by the statistics."""
        long = exceeding(self.schema, pick)
        far = [it for it in far_longer(self.schema, pick) if it in long]
        return {"long": long, "long_likely": likely(self.schema, pick), "long_far": far}

    def _made(self, pick: Candidate, taken: set[str]) -> dict[str, Any]:
        """How a pick or a hint is made, and what there is to say of that."""
        made = create(self.schema, pick, taken)
        return {
            "name": made.name,
            "path": made.path,
            "statements": [*made.statements],
            "build_seconds": round(self._build(made), 3),
            "notes": self._notes(made),
        }

    def _build(self, made: Made) -> float:
        """How long it takes to make a pick, in seconds, by a measured rate."""
        return Speed().seconds(self.schema.tables[made.where], bool(made.indexes), made.laid is not None)

    def _notes(self, made: Made) -> list[str]:
        """What a pick asks of others, and how the server was asked about a clustered one."""
        if made.laid is not None:
            return [*Speed().told(self.schema.tables[made.where], len(made.indexes)), ORDINARY]
        walking = [self.workload.records[at - 1].numbers for at in sorted(self.plans.walked.get(made.pick.number, ()))]
        notes = [walks_told([number for numbers in walking for number in numbers])] * bool(walking)
        return notes + [VACUUM] * (made.pick.number in self.plans.alone)

    def _saves(self, reason: Reason) -> dict[str, float | None]:
        """What the workload would cost more without a pick, in percent of what it costs without any, and what of the measured
        time that is about."""
        without = self.plans.without.get(reason.pick.number, {})
        every = [it.input.seconds for it in self.workload.records]
        found = worth_of(reason, self.prices[:2], self.judged.verdicts, without, every)
        return {
            "ours": round(found.ours, 4),
            "server": round(found.server, 4),
            "measured": round(found.measured, 4) if found.measured is not None else None,
            "planned": round(found.planned, 4) if found.planned is not None else None,
            "cost_without": reason.total_without,
        }

    def _changes(self, reason: Reason) -> list[dict[str, Any]]:
        """The statements that a pick changes the cost of, by our model or by the server's, what all calls save in percent of
        the workload's cost; less than 0 where they cost more with it. Those that save the most time are the first, or else
        those that save the most of the cost. Inputs that are written as the same statements are one."""
        before, server_before = self.prices[0].total, self.judged.sums()[1]
        found: dict[tuple[int, ...], dict[str, Any]] = {}
        texts = [text for text, _ in self.workload.statements]
        for verdict in self.judged.verdicts:
            ours = sum(reason.changes.get(it, 0) for it in verdict.written)
            server = verdict.calls * self.plans.saved(reason.pick.number, verdict)
            changes = self.workload.records[verdict.number - 1].found.changes
            change = found.setdefault(
                tuple(verdict.written),
                {
                    "numbers": verdict.written,
                    "sql": short(verdict.input.text),
                    "calls": 0,
                    "seconds": 0.0,
                    "guess": any(is_guessed(texts[it - 1], reason.pick.columns) for it in verdict.written),
                    "counted": any(is_counted(texts[it - 1], changes, reason.pick.columns) for it in verdict.written),
                    "ours": ours,
                    "server": 0.0,
                },
            )
            change["calls"] += verdict.calls
            known = change["seconds"] is not None and verdict.input.seconds is not None
            change["seconds"] = change["seconds"] + verdict.input.seconds if known else None
            change["server"] += server
        shares = [
            it | {"ours": _percent(it["ours"], before), "server": _percent(it["server"], server_before)}
            for it in found.values()
            if it["ours"] or it["server"]
        ]
        times = self._times(reason)
        return sorted(
            shares,
            key=lambda it: (-times.get(tuple(it["numbers"]), 0.0), -max(it["ours"], it["server"]), it["numbers"]),
        )

    def _times(self, reason: Reason) -> dict[tuple[int, ...], float]:
        """What of each statement's measured time a pick saves by the server's planner; nothing where some time isn't known."""
        found = dict[tuple[int, ...], float]()
        if whole_of([it.input.seconds for it in self.workload.records]) is None:
            return found
        for it in self.judged.verdicts:
            part = self.plans.saved(reason.pick.number, it) / it.before if it.before else 0.0
            found[tuple(it.written)] = found.get(tuple(it.written), 0.0) + (it.input.seconds or 0.0) * part
        return found

    def _statement(self, at: int, record: Record, places: dict[int, int]) -> dict[str, Any]:
        given = record.input
        verdict = next((it for it in self.judged.verdicts if it.number == at), None)
        return {
            "numbers": record.numbers,
            # A command that is skipped may hold a password.
            "sql": without_literals(given.text) if record.found.skipped else given.text,
            "line": given.line or None,
            "role": given.role or None,
            "calls": given.calls,
            "seconds": given.seconds,
            "outcome": record.found.outcome,
            "changes": [*record.found.changes],
            "skipped": record.found.skipped or None,
            "cost": self._ours(record) if record.numbers else None,
            "server_cost": self._by_server(verdict) if verdict else None,
            "not_explained": (verdict.fault or None) if verdict else None,
            "picks": [places[it] for it in verdict.taken if it in places] if verdict else [],
        }

    def _by_server(self, verdict: Verdict) -> dict[str, float] | None:
        """What a call costs by the server's planner, with what the script makes by default too where that is known."""
        if verdict.before is None or verdict.after is None:
            return None
        made = self.plans.cost_by_default(verdict)
        return {"before": verdict.before, "after": verdict.after} | ({} if made is None else {"made": made})

    def _ours(self, record: Record) -> dict[str, int]:
        """What a call costs by our model, over all statements that it is written as."""
        before, after = (round(it.of_call(self.workload.times(record))) for it in self.prices[:2])
        return {"before": before, "after": after}


def place_of(pick: dict[str, Any]) -> tuple[float, int]:
    """What picks are put in order by: what is printed that they save."""
    return -saved_of(pick), pick["number"]


def _index(pick: Candidate) -> dict[str, Any]:
    return {
        "number": pick.number,
        "table": pick.table,
        "columns": [*pick.columns],
        "clustered": pick.is_clustered,
        "pages": pick.pages,
    }


def _percent(part: float, whole: float) -> float:
    return round(100 * part / whole, 4) if whole else 0.0
