"""`verify`: what PostgreSQL's own planner thinks of an advice, by hypothetical indexes."""
from __future__ import annotations

import argparse
import json
from dataclasses import dataclass
from typing import Any

from cophy_text import files
from cophy_text.answers import Advice, NoAnswer, Prices, counted, explained
from cophy_text.shown import short
from cophy_pg import inputs
from cophy_pg.catalogue import read_schema
from cophy_pg.ddl import advice_of
from cophy_pg.explain import Explainer, NoStatement, add_names, statement_of
from cophy_pg.included import searched_columns
from cophy_pg.outcomes import ORDINARY, Outcome, Verdict, outcomes, texts_in, unmatched
from cophy_pg.parameters import Columns
from cophy_pg.picks import home_of, index_names, make, replaceable
from cophy_pg.program import Program, ProgramFault, add_program
from cophy_pg.progress import Progress, say, say_once
from cophy_pg.schema import Schema
from cophy_pg.selection import add_selection, selection_of
from cophy_pg.server import Server, ServerFault, add_connection, connected, reading
from cophy_pg.sizes import both
from cophy_pg.trust import Names, functions_of_users, refuse_owner, refuse_powers, resolved
from cophy_pg.workload import form_of, forms_in


@dataclass
class Judged:
    """What the planner says: of each statement, of each pick, and which functions of users it may have run."""

    verdicts: list[Verdict]
    outcomes: list[Outcome]
    functions: list[str]

    def sums(self) -> tuple[int, float, float]:
        """How many statements are explained on both sides, and their weighted estimates without and with the picks."""
        known = [it for it in self.verdicts if it.before is not None and it.after is not None]
        return (
            len(known),
            sum(it.calls * (it.before or 0.0) for it in known),
            sum(it.calls * (it.after or 0.0) for it in known),
        )


def add_verify(commands: argparse._SubParsersAction[argparse.ArgumentParser]) -> None:
    """The words of `verify`."""
    parser = commands.add_parser(
        "verify",
        help="ask PostgreSQL's planner about an advice",
        description="Makes the picks as hypothetical indexes (extension hypopg) in one session, explains the statements "
        "without and with them, and says which statements take which pick and what is saved by PostgreSQL's estimate and by "
        "ours. Nothing is executed and nothing is made; of a statement that writes, what it reads is explained. PostgreSQL "
        "may run functions of users while it plans, so a role without any power is asked for.",
    )
    parser.add_argument("catalogue", metavar="CATALOGUE")
    parser.add_argument("workload", metavar="WORKLOAD", help="the workload that export wrote")
    parser.add_argument("advice", metavar="ADVICE", help="what cophy advise printed; - for the standard input")
    add_connection(parser)
    source = parser.add_mutually_exclusive_group()
    source.add_argument("--sql", metavar="FILE", help="the statements as export took them from a file of SQL")
    source.add_argument("--log", metavar="FILE", help="the statements as export took them from a log")
    add_selection(parser)
    add_trust(parser)
    parser.add_argument(
        "--include",
        action="store_true",
        help="ask about indexes that have columns behind INCLUDE which no statement compares, joins, groups or orders by",
    )
    parser.add_argument(
        "--advice",
        metavar="FILE",
        dest="advice_file",
        help="write the advice without the picks that nothing takes and those that are there already",
    )
    parser.add_argument(
        "--rules", metavar="FILE", help="write a line 'never TABLE(COLUMN, COLUMN)' for each pick that nothing takes"
    )
    parser.add_argument("--json", action="store_true", help="print JSON instead")
    add_program(parser)
    parser.set_defaults(run=verify)


def add_trust(parser: argparse.ArgumentParser) -> None:
    """The word that lifts what is refused for the sake of the role."""
    parser.add_argument(
        "--i-trust-the-statements",
        action="store_true",
        dest="is_trusted",
        help="explain them as a superuser or an owner too: functions of users may then do all that the role may",
    )


def judge(
    server: Server, schema: Schema, advice: Advice, found: list[Verdict], is_trusted: bool, progress: Progress
) -> tuple[list[Outcome], list[str]]:
    """Explains statements with the picks, and without them where that isn't known, and fills their verdicts."""
    with reading(server, "READ COMMITTED"):
        explainer, functions = explainer_of(server, found, is_trusted)
        _explain_without(explainer, found, progress, " without new indexes")
        listed, made = make(server, schema, advice)
        for at, it in enumerate(found, 1):
            progress(f"asking the server about statement {at} of {len(found)} with new indexes")
            _explain(explainer, it, made, True)
    return listed, functions


def explain_as_it_is(server: Server, found: list[Verdict], is_trusted: bool, progress: Progress) -> None:
    """Fills what statements cost without hypothetical indexes, and so with all that are there, as `judge` does without
    the picks."""
    with reading(server, "READ COMMITTED"):
        explainer, _ = explainer_of(server, found, is_trusted)
        # A session behind a pooler may have some of an earlier one.
        home_of(server)
        _explain_without(explainer, found, progress, "")


def explainer_of(server: Server, found: list[Verdict], is_trusted: bool) -> tuple[Explainer, list[str]]:
    """What explains statements, and the functions of users that may run then, which are told."""
    tables, every = look_up(server, found, is_trusted)
    functions = functions_of_users(server, every, tables) + replaceable(server)
    if functions:
        told = f"PostgreSQL may run these functions of users while it plans: {'; '.join(functions)}"
        say_once(f"{told}; they have this role's rights: look at their code, unless you trust their owners")
    return Explainer(server, Columns.read(server, tables)), functions


def _explain_without(explainer: Explainer, found: list[Verdict], progress: Progress, how: str) -> None:
    """Explains those statements whose cost without the picks isn't known; how, is told."""
    unknown = [it for it in found if it.before is None]
    for at, it in enumerate(unknown, 1):
        progress(f"asking the server about statement {at} of {len(unknown)}{how}")
        _explain(explainer, it, {}, False)


def look_up(server: Server, found: list[Verdict], is_trusted: bool) -> tuple[set[int], Names]:
    """The tables that statements name, and all names in them; refuses a role that owns any of that."""
    names: dict[tuple[str, ...] | None, Names] = {}
    for it in found:
        try:
            it.statement = statement_of(it.input.text, it.input.path)
            add_names(names.setdefault(it.input.path, Names()), it.statement.tree)
        except NoStatement as fault:
            it.fault = str(fault)
    numbers = {path: resolved(server, it.tables, path) for path, it in names.items()}
    for it in found:
        if it.statement is not None:
            it.statement.numbers = numbers[it.statement.path]
    tables, every = {number for it in numbers.values() for number in it.values()}, Names.of(names.values())
    if not is_trusted:
        refuse_owner(server, every, tables)
    return tables, every


def _explain(explainer: Explainer, verdict: Verdict, made: dict[str, int], is_after: bool) -> None:
    """Fills one side of a verdict; a fault on either side is the verdict's."""
    if verdict.statement is None or verdict.fault:
        return
    if verdict.statement.is_empty:
        verdict.before = verdict.after = 0.0
        return
    try:
        plan = explainer.explain(verdict.statement)
    except ServerFault as fault:
        if explainer.server.is_lost():
            raise ServerFault(f"the connection was lost at {verdict.shown()}", fault.code) from None
        verdict.fault = fault.shown()
        return
    if is_after:
        verdict.after = float(plan["Total Cost"])
        verdict.taken = sorted({made[name] for name in index_names(plan) if name in made})
    else:
        verdict.before = float(plan["Total Cost"])


def ours(words: argparse.Namespace, *picks: list[int]) -> list[Prices] | None:
    """Our own prices under sets of picks; nothing where the program doesn't give them."""
    program = Program(words.program, words.catalogue, words.workload)
    try:
        return [program.whatif(it) for it in picks]
    except (ProgramFault, NoAnswer, OSError) as fault:
        say(f"our own estimates are left out: {fault}")
        return None


def verify(words: argparse.Namespace) -> int:
    """Prints what the planner says."""
    files.check([words.rules, words.advice_file], [words.catalogue, words.workload, words.advice, words.sql, words.log])
    schema, advice, progress = read_schema(files.read(words.catalogue)), advice_of(words.advice), Progress()
    content = files.read(words.workload)
    if words.include:
        schema.searched = searched_columns(content)
    workload = content.decode(errors="replace")
    with connected(words.dsn, words.timeout) as server:
        if not words.is_trusted:
            with reading(server):
                refuse_powers(server)
        listed, forms = _statements(server, words), forms_in(workload)
        found = [Verdict(at, it, forms[form]) for at, it in enumerate(listed, 1) if (form := form_of(it.text)) in forms]
        picks, functions = judge(server, schema, advice, found, words.is_trusted, progress)
    outcomes(picks, found, texts_in(workload), unmatched(forms, found))
    judged = Judged(found, picks, functions)
    kept = [it.pick.number for it in picks if it.name != "not taken" and not it.exists]
    prices = ours(words, [], [it.number for it in advice.picks], kept)
    if words.json:
        print(json.dumps(as_json(judged, prices), indent=2))
    else:
        _print(judged, prices)
    return _write(words, advice, judged, kept, prices)


def _statements(server: Server, words: argparse.Namespace) -> list[inputs.Input]:
    given, selection = None, selection_of(words)
    if words.sql:
        given = inputs.from_sql(files.read(words.sql))
    elif words.log:
        given = inputs.from_log(files.read(words.log))
    with reading(server):
        if given is None:
            given = inputs.from_server(server, is_trusted=words.is_trusted)
        else:
            inputs.look_up(server, given)
        return selection.of(server, given)


def _write(
    words: argparse.Namespace, advice: Advice, judged: Judged, kept: list[int], prices: list[Prices] | None
) -> int:
    """Writes what is asked for. Without our own prices, what an advice costs isn't known."""
    written = []
    if words.rules:
        never = [f"never {it.pick.shown()}\n" for it in judged.outcomes if it.name == "not taken" and not it.exists]
        written.append(files.File(words.rules, "".join(never).encode("ascii"), False))
    if words.advice_file and prices is not None:
        text = advice_text(advice, kept, prices[2].total)
        written.append(files.File(words.advice_file, text.encode("ascii"), False))
    files.write(written)
    if words.advice_file and prices is None:
        say("no advice is written, since its cost isn't known")
        return 1
    return 0


def advice_text(advice: Advice, kept: list[int], cost: int) -> str:
    """An advice of fewer picks. Its bound is that of the advice, which no set of picks undercuts."""
    picks = [it for it in advice.picks if it.number in kept]
    lines = [f"budget {advice.budget}", *(f"pick {it.number} {it.shown()} {it.pages} pages" for it in picks)]
    lines += [f"size {sum(it.pages for it in picks)}", f"cost {cost}", f"bound {advice.bound}"]
    # A cost below the bound is that of a program whose bound is false, as a stand-in's may be; there is no gap then.
    gap = max(0, cost - advice.bound)
    lines += [f"gap {gap}", f"nodes {advice.nodes}", "finished" if gap == 0 else "stopped"]
    return "\n".join(lines) + "\n"


def our_saving(verdict: Verdict, prices: list[Prices] | None) -> float | None:
    """What one call saves by our estimate, in the unit of EXPLAIN, over all runs of its statements."""
    if prices is None:
        return None
    before, after = (it.of_call(verdict.times) for it in prices[:2])
    return explained(before - after)


def _print(judged: Judged, prices: list[Prices] | None) -> None:
    for outcome in judged.outcomes:
        print(f"pick {outcome.pick.number} {outcome.pick.shown()}: {outcome.shown()}")
        print(f"  {both(outcome.pick.pages, outcome.stored)}")
        users = [it for it in judged.verdicts if outcome.pick.number in it.taken]
        for it in sorted(users, key=lambda it: -it.calls * it.saved()):
            own = our_saving(it, prices)
            shown = f", ours {own:,.1f}" if own is not None else ""
            costs = f"a call costs {it.before:,.1f}, then {it.after:,.1f}, saves {it.saved():,.1f}{shown}"
            print(f"  {it.shown()} (calls {it.calls:,}): {costs}: {short(it.input.text)}")
        for why, numbers in outcome.reasons.items():
            print(f"  {why}" + (f": {numbers}" if numbers else ""))
        print()
    for it in judged.verdicts:
        if it.saved() < -0.005 * max(1.0, it.before or 0):
            costs = f"{it.before:,.1f}, then {it.after:,.1f}: {short(it.input.text)}"
            print(f"{it.shown()}: a call costs more with the picks: {costs}")
        if it.fault:
            print(f"{it.shown()}: not explained: {it.fault}: {short(it.input.text)}")
    if any(it.pick.is_clustered for it in judged.outcomes):
        print(ORDINARY)
    print(_verdict(judged))


def _verdict(judged: Judged) -> str:
    """The last line."""
    number, before, after = judged.sums()
    counts = {name: sum(it.name == name for it in judged.outcomes) for name in ("taken", "not taken", "unknown")}
    exist = sum(bool(it.exists) for it in judged.outcomes)
    text = f"verdict: of {counted(len(judged.outcomes), 'pick')} {counts['taken']} taken, {counts['not taken']} not taken, "
    text += f"{counts['unknown']} unknown" + (f", {exist} there already" if exist else "")
    share = f" ({100 * (after - before) / before:+.1f} %)" if before else ""
    costs = f"{before:,.0f} without, {after:,.0f} with them{share}"
    return f"{text}; PostgreSQL's estimate for {counted(number, 'statement')}: {costs}"


def as_json(judged: Judged, prices: list[Prices] | None) -> dict[str, Any]:
    """All of it; statements go by their numbers in the workload."""
    statements = [
        {
            "numbers": it.written,
            "sql": short(it.input.text),
            "line": it.input.line or None,
            "calls": it.calls,
            "before": it.before,
            "after": it.after,
            "picks": it.taken,
            "fault": it.fault or None,
            "ours": our_saving(it, prices),
        }
        for it in judged.verdicts
    ]
    picks = [
        {
            "number": it.pick.number,
            "index": it.pick.shown(),
            "pages": it.pick.pages,
            "stored_pages": it.stored,
            "outcome": it.name,
            "taken_by": sorted({at for v in judged.verdicts if it.pick.number in v.taken for at in v.written}),
            "reasons": it.reasons,
            "exists": it.exists or None,
            **({"note": ORDINARY} if it.pick.is_clustered else {}),
        }
        for it in judged.outcomes
    ]
    number, before, after = judged.sums()
    return {
        "verdict": _verdict(judged).removeprefix("verdict: "),
        "explained": number,
        "before": before,
        "after": after,
        "functions": judged.functions,
        "picks": picks,
        "statements": statements,
    }
