"""`advise`: from the server to its indexes in one command."""
from __future__ import annotations

import argparse
import json
import os
from collections import Counter
from dataclasses import replace
from datetime import UTC, datetime
from typing import Any

from cophy_lint.checks import catalogue_remarks, lines, workload_remarks
from cophy_text import files
from cophy_text.answers import Advice, Prices, read_advice, read_candidates
from cophy_text.shown import percent, space
from cophy_pg import export, folder, inputs, unlimited
from cophy_pg.advise_words import parser_of
from cophy_pg.amounts import Share
from cophy_pg.by_default import differing, plans_by_default
from cophy_pg.catalogue import read_schema
from cophy_pg.choice import Choice
from cophy_pg.closing import ending, made_of
from cophy_pg.clustering import permit
from cophy_pg.commands import commands_text, unless_broken_off
from cophy_pg.curve import as_json as as_json_of_point
from cophy_pg.folder import Folder
from cophy_pg.folding import Folding
from cophy_pg.included import searched_columns
from cophy_pg.expression_hints import Hint, hints_of
from cophy_pg.local import connect_as_set_up
from cophy_pg.making import ddl_text, in_order
from cophy_pg.outcomes import Verdict
from cophy_pg.overview import gain_of, lines_of, named
from cophy_pg.page import NoReport, page_of
from cophy_pg.picks import home_of
from cophy_pg.plans import Plans, plans_of
from cophy_pg.program import Program, is_unproved, program_file
from cophy_pg.progress import say
from cophy_pg.ranking import rank
from cophy_pg.recommended import Costs, Recommended, without_caveats
from cophy_pg.remainder import freed, gap_of, knee_of
from cophy_pg.report import summary
from cophy_pg.result import Result
from cophy_pg.rewrite import Rewriter
from cophy_pg.rewrite.options import options_of
from cophy_pg.rounds import Rounds
from cophy_pg.schema import Schema
from cophy_pg.searches import CUT, Rules, Searches, listed_in, refined_for
from cophy_pg.selection import ran_once, selection_of
from cophy_pg.server import Server, ServerFault, connected, reading, version_of
from cophy_pg.sizes import SIZE, stored_size
from cophy_pg.snapshots import taken_of
from cophy_pg.statistics import Found
from cophy_pg.steps import Steps
from cophy_pg.trust import database_owner, owners_of, refuse_powers
from cophy_pg.verdict import verdict
from cophy_pg.verify import advice_text, as_json, look_up
from cophy_pg.walks import take_back
from cophy_pg.why import reasons
from cophy_pg.workload import Workload, made
from cophy_pg.writes import Indexed, indexes_of

UNPROVED = "the program is unproved: no proof says that its costs and bounds are those of the model"
NOTHING = 3
"""The status where no index is plainly worth making."""


def add_advise(commands: argparse._SubParsersAction[argparse.ArgumentParser]) -> None:
    """The words of `advise`."""
    parser_of(commands).set_defaults(run=advise, is_silent=False)


def advise(words: argparse.Namespace) -> int:
    """Takes all steps, and prints what was found."""
    selection_of(words)
    program_file(words.program)
    given = [words.sql, words.log, words.since, words.rules]
    for name in (it for it in given if it):
        files.read(name)
    if words.database:
        if words.dsn:
            raise inputs.NoInput("--dsn: it names the database")
        connect_as_set_up(words.database)
    if isinstance(words.budget, Share):
        words.budget = share_of_tables(words)
    kept = Folder.made(words.folder)
    files.check([kept.path(it) for it in (folder.CATALOGUE, folder.DATABASE, folder.WORKLOAD, folder.RESULT)], given)
    with kept.unless_empty(), unless_broken_off(words, kept):
        with Steps(words.json).all() as steps:
            document = Run(words, kept, steps).document()
        details = "\n".join([*lines_of(document), *ending(document, kept)]) + "\n"
        text = details if words.verbose else "\n".join(verdict(document, kept)) + "\n"
        result = json.dumps(document, indent=2) + "\n"
        kept.write({folder.RESULT: result, folder.SUMMARY: text, folder.DETAILS: details})
    try:
        kept.write({folder.REPORT: page_of(kept)})
    except NoReport as fault:
        say(str(fault))
    if not words.is_silent:
        print(json.dumps(document, indent=2) if words.json else text, end="\n" if words.json else "")
    return 0 if made_of(document) else NOTHING


def share_of_tables(words: argparse.Namespace) -> int:
    """The pages of a share of the tables, which is told."""
    with connected(words.dsn, words.timeout) as server, reading(server):
        pages: int = words.budget.pages(int(server.value(SIZE)))
    say(f"the budget is {space(pages)}, {percent(words.budget.percent)} of the tables; --budget takes another")
    return pages


class Run:
    """One call, with what its steps hand to each other."""

    def __init__(self, words: argparse.Namespace, kept: Folder, steps: Steps) -> None:
        self.words, self.folder, self.steps = words, kept, steps
        paths = (kept.path(folder.CATALOGUE), kept.path(folder.WORKLOAD))
        self.program = Program(words.program, *paths)
        nodes = ("--nodes", str(words.nodes)) if words.nodes else ()
        self.searches = Searches(self.program, kept, words.budget, nodes, steps, patience=words.patience)
        self.rules = Rules()
        self.head: dict[str, Any] = {}
        self.owners: dict[str, str] = {}
        self.indexes: dict[str, Indexed] = {}
        self.warnings: list[str] = []

    def document(self) -> dict[str, Any]:
        """Takes the steps in turn."""
        self._clear()
        with self.steps.step("export", "reading the database and its statements"):
            found, workload = self._export()
        with self.steps.step("lint", "looking for what is probably wrong"):
            lint = self._lint()
        self._take_rules()
        try:
            rounds = Rounds(self.words, self.program, self.searches, self.rules, self.steps, found.schema, workload)
            first = rounds.searched(1)
            with connected(self.words.dsn, self.words.timeout) as server:
                choice, judged = rounds.best(server, first)
                self.steps.begin("")
                plans, hints = self._asked(server, found.schema, choice, judged.verdicts)
            with self.steps.step("check", "checking the certificate"):
                left_out = [it for it, _ in choice.left_out]
                unused = self.searches.unused(found.schema, self.rules, choice.advice.picks, left_out)
                advice, proved = self.searches.proved(choice.advice.budget)
                self.searches.keep(choice.advice.budget, choice.rules)
            with self.steps.step("curve", "searching for what other budgets buy"):
                points = [] if self.words.no_curve or self.searches.is_over() else self.searches.curve()
        finally:
            self.searches.clear()
        with self.steps.step("why", "pricing the workload without each pick", len(choice.advice.picks)):
            none, kept, reason = reasons(self.program, choice.advice, self.steps)
            all_ = self.program.whatif(it.number for it in advice.picks)
        told = {"lint": lint, "rewriting": summary(workload), "rules": listed_in(choice.rules)}
        told |= {"warnings": self._warnings(workload, none)}
        parts = (found.schema, workload, advice, choice, judged, plans, (none, kept, all_), reason, proved)
        self._tell_rest(found.schema, advice, choice, unused)
        self.head["knee"] = knee_of(points, none.total)
        result = Result(*parts, self.head, told, self.steps.seconds, self.owners, self.indexes, hints=hints)
        self.steps.begin("recommending")
        with self.steps.step("recommend", "telling what is plainly worth it"):
            asked = {it.number for it in choice.advice.picks if self.rules.asks_for(it)}
            result.recommended = self._recommended(result, rounds, asked)
        self._ask_by_default(result)
        self._write(result, points)
        return result.document()

    def _clear(self) -> None:
        """Takes away what an earlier call left in the folder."""
        files_of_steps = (folder.ADVICE, folder.CERTIFICATE, folder.CHECK, folder.VERIFY, folder.KEPT, folder.DDL)
        self.folder.clear(*files_of_steps, folder.PLANS, folder.SUMMARY, folder.RESULT, folder.REPORT)
        self.folder.clear(folder.RULES, folder.RULED, folder.CURVE, folder.DETAILS, folder.UNFINISHED, folder.EFFECT)

    def _warnings(self, workload: Workload, prices: Prices) -> list[str]:
        """What to warn of, by prices without picks. In a file of SQL a statement has the weight that it was given."""
        found = [*self.warnings, *self.rules.remarks, *([] if self.words.sql else ran_once(workload, prices))]
        cut = [CUT] * self.searches.is_cut + [refined_for(self.words.patience)] * self.searches.was_over
        return found + [UNPROVED] * is_unproved(self.words.program) + cut

    def _asked(
        self, server: Server, schema: Schema, choice: Choice, verdicts: list[Verdict]
    ) -> tuple[Plans, list[Hint]]:
        """What the server says once the picks are chosen: its plans, the hints that no given rule leaves out, and
        who owns the tables of both."""
        with self.steps.step("plans", "comparing plans", 2 * len(verdicts)):
            plans = plans_of(server, schema, choice.advice, verdicts, self.steps)
            take_back(plans, verdicts)
        with self.steps.step("hints", "looking for indexes that our model doesn't know"):
            every = hints_of(server, schema, choice.advice, verdicts, self.steps, plans.walked)
        hints = [it for it in every if not self.rules.leave_out(it.index.pick(), self.head["long_columns"])]
        tables = {it.table for it in choice.advice.picks} | {it.index.table.shown for it in hints}
        self._tell_owners(server, schema, tables)
        return plans, hints

    def _tell_owners(self, server: Server, schema: Schema, picked: set[str]) -> None:
        """Who owns the tables of picks and hints, the owner of the most first, and what indexes they have."""
        tables = [it for it in schema.tables.values() if it.shown in picked]
        with reading(server):
            found = owners_of(server, [it.oid for it in tables])
            self.indexes = indexes_of(server, tables)
            self.head["database_owner"] = database_owner(server)
        counts = Counter(found.values())
        self.head["owners"] = sorted(counts, key=lambda it: (-counts[it], it))
        self.owners = {it.shown: found[it.oid] for it in tables if it.oid in found}

    def _tell_rest(self, schema: Schema, advice: Advice, choice: Choice, unused: str | None) -> None:
        """Why the picks cost more than the bound, and why they leave space."""
        stored = stored_size(schema, choice.advice.picks)
        self.head["unused"] = unused or freed(self.words.budget, stored, len(choice.left_out))
        self.head["gap"] = gap_of(self.program, advice, choice, self.rules, self.head["long_columns"])

    def _recommended(self, result: Result, rounds: Rounds, asked: set[int]) -> Recommended:
        """Which picks stay when those are left out that there are caveats about, and that no rule asks for."""
        picks, judged, choice, doubted = result.ranked, result.judged, result.choice.advice, result.plans.doubted
        caveats = result.caveats(asked)
        all_, whole = (result.prices[1].total, judged.sums()[2]), (result.prices[0].total, judged.sums()[1])
        if not caveats:
            return Recommended({}, all_)

        def costs_of(kept: list[int]) -> Costs:
            advice = replace(choice, picks=[it for it in choice.picks if it.number in kept])
            by_server = rounds.asked(server, advice, judged.verdicts).sums()[2]
            return self.program.whatif(kept).total, by_server + sum(doubted.get(it, 0.0) for it in kept)

        with connected(self.words.dsn, self.words.timeout) as server:
            return without_caveats(picks, caveats, all_, whole, costs_of)

    def _ask_by_default(self, result: Result) -> None:
        """Asks for the plans with what the script makes by default, where they may differ from those with all picks. Where
        it makes nothing, plans with all picks are all that there is to show."""
        assert result.recommended is not None
        choice, unadvised = result.choice.advice, result.recommended.why_not
        advice = replace(choice, picks=[it for it in choice.picks if it.number not in unadvised])
        made = [pick for _, pick in result.made_hints()]
        hints = [it.index for it in result.hints if it.index.pick() in made]
        if not advice.picks and not hints:
            return
        found = differing(result.plans, result.judged.verdicts, unadvised, hints)
        if not found:
            result.plans.by_default = {}
            return
        given = (result.schema, advice, hints, found, self.words.is_trusted, self.steps)
        try:
            with self.steps.step("made", "asking for the plans with what is made by default", len(found)):
                with connected(self.words.dsn, self.words.timeout) as server:
                    result.plans.by_default = plans_by_default(server, *given)
        except ServerFault as fault:
            say(f"the plans with what is made by default aren't known: {fault.shown()}")

    def _write(self, result: Result, points: list[Advice]) -> None:
        """Writes what the last steps found, with the points of the curve where there are any."""
        none, kept, _ = result.prices
        picks, order, unadvised = result.choice.advice.picks, result.numbers(), result.places_left_out()
        hints = result.made_hints()
        also = [it for _, it in hints]
        text = advice_text(replace(result.advice, picks=picks), [it.number for it in picks], kept.total)
        brings = {named(it): gain_of(it) for it in [*result.plain_picks(), *(it for it, _ in hints)]}
        self.folder.write(
            {
                folder.VERIFY: json.dumps(as_json(result.judged, [none, kept, kept]), indent=2) + "\n",
                folder.KEPT: text,
                folder.DDL: ddl_text(
                    result.schema,
                    in_order(read_advice(text), order),
                    is_script=True,
                    unadvised=unadvised,
                    gains=brings,
                    also=also,
                ),
                folder.PLANS: json.dumps(result.plans.document(result.workload)) + "\n",
                folder.COMMANDS: commands_text(
                    self.words, self.folder, result.advice.budget, bool(result.told["rules"]), order, unadvised, also
                ),
            }
        )
        if points:
            curve = [as_json_of_point(it, none.total) for it in points]
            self.folder.write({folder.CURVE: json.dumps(curve, indent=2) + "\n"})

    def _export(self) -> tuple[Found, Workload]:
        """Reads the server, and refuses at once what would be refused after the search."""
        words, given = self.words, None
        if words.sql or words.log:
            given = inputs.from_sql(files.read(words.sql)) if words.sql else inputs.from_log(files.read(words.log))
        contents: dict[str, bytes | str] = {}
        doubts: list[str] = []
        with connected(words.dsn, words.timeout) as server:
            with reading(server):
                if not words.is_trusted:
                    refuse_powers(server)
                home_of(server)
                if given is None:
                    given = inputs.from_server(server, doubts.append, words.is_trusted)
                    inputs.tell_short(server, words.since)
                    contents[folder.SNAPSHOT] = taken_of(server, given).text()
                version, place = version_of(server), server.place()
            listed, found, self.warnings, name = export.read(server, given, selection_of(words), self.steps)
            self.warnings += permit(found.schema, words.may_cluster)
            with reading(server, "READ COMMITTED"):
                look_up(server, [Verdict(at, it, {}) for at, it in enumerate(listed, 1)], words.is_trusted)
        folding = Folding(lambda: export.catalogue_of(found, name), words.program, self.steps)
        workload = made(listed, Rewriter(found.schema, options_of(words)), self.steps, folding)
        if words.include:
            found.schema.searched = searched_columns(workload.text().encode(errors="replace"))
        self.head = self._head_of(name, version) | {"doubts": doubts, "host": place[0], "port": place[1]}
        # The program reads a catalogue at each call, so it has only what statements name.
        catalogue = export.catalogue_of(found, name, export.named_in(workload, found.schema))
        rank(workload, catalogue, words.program, is_ordered=not (words.sql or words.log))
        contents[folder.CATALOGUE], contents[folder.DATABASE] = catalogue, export.catalogue_of(found, name)
        contents[folder.WORKLOAD] = workload.text()
        contents[folder.EXPORT] = export.report_of(workload, [*doubts, *self.warnings])
        self.folder.write(contents)
        return found, workload

    def _head_of(self, name: str, version: int) -> dict[str, Any]:
        """What was asked for, and of which database."""
        words = self.words
        return {
            "made": datetime.now(UTC).strftime("%Y-%m-%dT%H:%M:%SZ"),
            "database": name,
            "server": f"{version // 10000}.{version % 10000}",
            "folder": os.path.abspath(self.folder.name),
            "asked_pages": words.budget,
            "options": {
                "source": "sql" if words.sql else "log" if words.log else "pg_stat_statements",
                "since": words.since,
                "min_calls": words.min_calls,
                "min_saving": words.min_saving,
                "planning": words.planning,
                "most_per_table": words.most_per_table,
                "patience": words.patience,
                "include": words.include,
                "long_columns": words.long_columns,
                "rules": words.rules,
                "tables": words.tables,
                "users": words.users,
                "may_cluster": words.may_cluster,
            },
        }

    def _lint(self) -> list[str]:
        workload = self.folder.read(folder.WORKLOAD)
        remarks, document = catalogue_remarks(self.folder.read(folder.CATALOGUE), workload)
        found = lines([*remarks, *workload_remarks(workload, document)])
        self.folder.write({folder.LINT: "".join(f"{it}\n" for it in found)})
        return found

    def _take_rules(self) -> None:
        """The rules that were given, and those that keep long values out of indexes."""
        schema = read_schema(self.folder.read(folder.CATALOGUE))
        self.rules, own = Rules.of(schema, self.words.rules), list[str]()
        if not self.words.long_columns:
            candidates = read_candidates(self.program.text("candidates"))
            own = unlimited.never(schema, candidates, self.folder.read(folder.WORKLOAD), self.rules.given)
        self.rules.given = [*self.rules.given, *own]
        self.head["long_columns"] = own
