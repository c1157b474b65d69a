"""`why`: what each pick of an advice is good for."""
from __future__ import annotations

import argparse
import json
from dataclasses import dataclass

from cophy_text import files
from cophy_text.answers import UNIT, Advice, Candidate, Prices, counted
from cophy_text.shown import grouped, share, short, space
from cophy_text.tokens import statements
from cophy_pg.catalogue import NoCatalogue, read_schema
from cophy_pg.ddl import NoIndex, advice_of, why_not
from cophy_pg.program import Program, add_program
from cophy_pg.progress import Progress
from cophy_pg.sizes import both, stored_pages


@dataclass
class Reason:
    """What a pick changes: the workload's cost without it, and each statement's weighted cost without it less that with
    it, where there is a difference; more than 0 is a gain."""

    pick: Candidate
    total_without: int
    changes: dict[int, int]


def add_why(commands: argparse._SubParsersAction[argparse.ArgumentParser]) -> None:
    """The words of `why`."""
    parser = commands.add_parser(
        "why",
        help="say what each pick of an advice is good for",
        description="Prices the workload with all picks and with all but one, by cophy whatif, and shows for each pick which "
        "statements gain and lose by it, weighted, and what the workload costs without it.",
    )
    parser.add_argument("catalogue", metavar="CATALOGUE")
    parser.add_argument("workload", metavar="WORKLOAD")
    parser.add_argument("advice", metavar="ADVICE", help="what cophy advise printed; - for the standard input")
    parser.add_argument("--json", action="store_true", help="print JSON instead")
    add_program(parser)
    parser.set_defaults(run=why)


def reasons(program: Program, advice: Advice, progress: Progress) -> tuple[Prices, Prices, list[Reason]]:
    """The prices without any pick and with all, and the reason of each pick."""
    numbers = {it.number for it in advice.picks}
    none, all_ = program.whatif(()), program.whatif(numbers)
    found = []
    for at, pick in enumerate(advice.picks, 1):
        progress(f"reckoning what index {at} of {len(advice.picks)} saves")
        without = program.whatif(numbers - {pick.number})
        changes = {
            number: it.weight * (without.statements[number].cost - it.cost)
            for number, it in all_.statements.items()
            if without.statements[number].cost != it.cost
        }
        found.append(Reason(pick, without.total, changes))
    return none, all_, found


def why(words: argparse.Namespace) -> int:
    """Prints the table."""
    advice, texts = advice_of(words.advice), statements(files.read(words.workload))
    unmade, stored = _of_server(words.catalogue, advice)
    none, all_, found = reasons(Program(words.program, words.catalogue, words.workload), advice, Progress())
    if words.json:
        picks = [
            {
                "number": it.pick.number,
                "index": it.pick.shown(),
                "pages": it.pick.pages,
                "stored_pages": stored.get(it.pick.number),
                "total_without": it.total_without,
                "saves": it.total_without - all_.total,
                "changes": [
                    {"number": at, "sql": short(texts.get(at, "")), "saves": change}
                    for at, change in it.changes.items()
                ],
                **({"left_out": unmade[it.pick.number]} if it.pick.number in unmade else {}),
            }
            for it in found
        ]
        print(json.dumps({"total_without_picks": none.total, "total": all_.total, "picks": picks}, indent=2))
        return 0
    before, after = grouped(none.total), grouped(all_.total)
    print(f"without any pick the workload costs {before}, with all {after} ({share(all_.total, none.total)})")
    print(UNIT)
    for it in found:
        saves = grouped(it.total_without - all_.total)
        print(f"\npick {it.pick.number} {it.pick.shown()}, {both(it.pick.pages, stored.get(it.pick.number))}")
        if it.pick.number in unmade:
            print(f"  PostgreSQL can't make it: {unmade[it.pick.number]}")
        without = f"{grouped(it.total_without)}, {saves} more ({share(it.total_without, all_.total)})"
        print(f"  without it the workload costs {without}")
        for kind, listed in (("gains", _sorted(it, 1)), ("loses", _sorted(it, -1))):
            for number, change in listed:
                print(f"  statement {number} {kind} {grouped(abs(change))}: {short(texts.get(number, ''))}")
    return 0


def _of_server(catalogue: str, advice: Advice) -> tuple[dict[int, str], dict[int, int]]:
    """The picks that PostgreSQL can't make, by their numbers, with the reasons, and the pages of the others as it stores
    them; none where the catalogue isn't there."""
    try:
        schema = read_schema(files.read(catalogue))
        unmade = {it.number: why for it in advice.picks if (why := why_not(schema, it))}
    except (files.NoFile, NoCatalogue, NoIndex):
        return {}, {}
    sizes = ((it.number, stored_pages(schema, it)) for it in advice.picks if it.number not in unmade)
    return unmade, {number: size for number, size in sizes if size is not None}


def _sorted(reason: Reason, sign: int) -> list[tuple[int, int]]:
    listed = [(number, change) for number, change in reason.changes.items() if change * sign > 0]
    return sorted(listed, key=lambda it: (-abs(it[1]), it[0]))
