"""`ddl`: the statements that make the picks of an advice, or a script that makes them with care."""
from __future__ import annotations

import argparse
import json
import os
import re
from collections.abc import Mapping, Sequence
from contextlib import suppress
from dataclasses import replace
from textwrap import wrap
from types import MappingProxyType
from typing import Any

from cophy_text import files
from cophy_text.answers import UNIT, Advice
from cophy_text.shown import grouped, space
from cophy_pg.catalogue import read_schema
from cophy_pg.ddl import Applied, Made, advice_of, create, taken_names
from cophy_pg.included import searched_columns
from cophy_pg.progress import say
from cophy_pg.schema import Schema
from cophy_pg.script import script_text
from cophy_pg.sizes import both, stored_pages
from cophy_pg.speed import PAGES_A_SECOND, ROWS_A_SECOND, Speed
from cophy_pg.unlimited import exceeding, warning

OWNERS = [
    "-- Let the owner of the tables run this, not a superuser: functions that an owner planted, as in a partition key or behind",
    "-- an event trigger, would run with a superuser's rights. What --script prints refuses a superuser there.",
]
WAITS = "while it waits for the lock, all others wait behind it: what --script prints gives up soon"
NEWER = "the catalogue is newer than the advice: if it has changed, export and advise again"


def add_ddl(commands: argparse._SubParsersAction[argparse.ArgumentParser]) -> None:
    """The words of `ddl`."""
    parser = commands.add_parser(
        "ddl",
        help="print the statements CREATE INDEX of an advice",
        description="Prints CREATE INDEX CONCURRENTLY for each pick of an advice, with PostgreSQL's own names, and for a "
        "clustered one CLUSTER and ANALYZE. Each runs by itself, outside a transaction; psql -f runs them in turn. A pick that "
        "PostgreSQL can't make is left out, with the reason.",
    )
    parser.add_argument("catalogue", metavar="CATALOGUE", help="the catalogue that the advice is of")
    parser.add_argument(
        "advice",
        metavar="ADVICE",
        help="what cophy advise printed, or cophy retune, whose last advice counts; - for the standard input",
    )
    parser.add_argument(
        "--script",
        action="store_true",
        help="print a script of psql that can be run again after a fault, tells of INVALID indexes, makes those of partitions "
        "one by one, and with -v undo=1 drops what it made",
    )
    parser.add_argument(
        "--include",
        metavar="WORKLOAD",
        help="put columns that no statement of the workload compares, joins, groups or orders by behind INCLUDE",
    )
    _add_places(parser)
    _add_speeds(parser)
    parser.add_argument("--json", action="store_true", help="print JSON instead")
    parser.set_defaults(run=ddl)


def _add_places(parser: argparse.ArgumentParser) -> None:
    """The words of what is made in which order."""
    parser.add_argument(
        "--order",
        type=numbers,
        default=[],
        metavar="N,N,..",
        help="the order of the picks, by their numbers in the advice",
    )
    parser.add_argument(
        "--also",
        type=applied,
        action="append",
        default=[],
        metavar="T(lower(C))",
        help="an index over lower() or upper() of a column to make too, behind the picks but before those of --unadvised",
    )
    parser.add_argument(
        "--unadvised",
        type=numbers,
        default=[],
        metavar="N,N,..",
        help="the places of picks that the script makes with -v all=1 alone",
    )


def _add_speeds(parser: argparse.ArgumentParser) -> None:
    """The words of how fast the server is."""
    parser.add_argument(
        "--rows-a-second",
        type=rate,
        default=ROWS_A_SECOND,
        metavar="N",
        help=f"how fast an index is made, for the estimates ({ROWS_A_SECOND})",
    )
    parser.add_argument(
        "--pages-a-second",
        type=rate,
        default=PAGES_A_SECOND,
        metavar="N",
        help=f"how fast CLUSTER writes a table beside its indexes, for the estimates ({PAGES_A_SECOND})",
    )


def applied(text: str) -> Applied:
    """An index over a function of a column."""
    found = re.fullmatch(r"(\w+)\((lower|upper)\((\w+)\)\)", text)
    if found is None:
        raise ValueError
    return Applied(0, found[1], (found[3],), 0, function=found[2])


def numbers(text: str) -> list[int]:
    """Numbers of candidates."""
    return [int(it) for it in text.split(",")]


def in_order(advice: Advice, order: list[int]) -> Advice:
    """An advice with its picks in an order, those first that it names."""
    places = {number: at for at, number in enumerate(order)}
    return replace(advice, picks=sorted(advice.picks, key=lambda it: places.get(it.number, len(places))))


def rate(text: str) -> int:
    """A number of rows or pages a second."""
    if not 1 <= int(text) <= 10**12:
        raise ValueError
    return int(text)


def ddl(words: argparse.Namespace) -> int:
    """Prints the statements."""
    schema = read_schema(files.read(words.catalogue))
    advice = in_order(advice_of(words.advice, may_be_retuned=True), words.order)
    if words.include:
        schema.searched = searched_columns(files.read(words.include))
    is_newer = _is_newer(words.catalogue, words.advice)
    if is_newer:
        say(NEWER)
    if words.json:
        print(
            json.dumps(
                _as_json(schema, advice, made_of(schema, advice, words.also)) | {"catalogue_is_newer": is_newer},
                indent=2,
            )
        )
    else:
        more = [f"-- {NEWER}"] if is_newer else []
        speed = Speed(words.rows_a_second, words.pages_a_second)
        print(ddl_text(schema, advice, speed, words.script, more, words.unadvised, also=words.also), end="")
    return 0


def _is_newer(catalogue: str, advice: str) -> bool:
    """Whether the catalogue was written after the advice; of what is no file it isn't known."""
    with suppress(OSError):
        return os.path.isfile(advice) and os.stat(catalogue).st_mtime_ns > os.stat(advice).st_mtime_ns
    return False


def made_of(schema: Schema, advice: Advice, also: Sequence[Applied] = (), unadvised: int = 0) -> list[Made]:
    """The indexes of an advice, and others behind all but those of its last picks that aren't recommended."""
    taken, at = taken_names(schema), len(advice.picks) - unadvised
    made = [create(schema, it, taken) for it in (*advice.picks[:at], *also, *advice.picks[at:])]
    for place, it in enumerate((it for it in made if not it.why_not), 1):
        it.place = place
    # A table is laid anew before its other indexes are made, which would be made anew with it.
    return sorted(made, key=lambda it: it.laid is None)


def ddl_text(
    schema: Schema,
    advice: Advice,
    speed: Speed = Speed(),
    is_script: bool = False,
    more: list[str] | None = None,
    unadvised: Sequence[int] = (),
    gains: Mapping[str, str] = MappingProxyType({}),
    also: Sequence[Applied] = (),
) -> str:
    """The statements with comments on what they are of, or a script, which makes what isn't advised where it is asked to, and
    says what picks bring, where that is given. What isn't of the advice is made too."""
    end = "the bound is reached: no other choice costs less" if advice.is_finished else "these picks cost more than it"
    made = made_of(schema, advice, also, len(unadvised))
    budget, size = both(advice.budget, None), both(advice.size, sum(stored_of(schema, it) for it in made))
    cost, bound, gap = map(grouped, (advice.cost, advice.bound, advice.gap))
    head = [*(more or []), f"-- budget {budget}, size {size}", f"-- cost {cost}, bound {bound}, gap {gap}: {end}"]
    head.append(f"-- {UNIT}")
    left_out = [f"-- pick {it.pick.number} is left out, {_comment(it.why_not)}" for it in made if it.why_not]
    if is_script:
        shown = {name: _comment(it) for name, it in gains.items()}
        return script_text(schema, made, [*(more or []), *left_out], speed, unadvised, shown)
    lines = [*head, *OWNERS]
    for it in made:
        lines += ["", f"-- {_sized(schema, it)}"]
        lines += [f"-- {fails}"] if (fails := warning(exceeding(schema, it.pick))) and not it.why_not else []
        lines += [f"-- left out, {_comment(it.why_not)}"] if it.why_not else _statements(schema, it, speed)
    return "\n".join(lines) + "\n"


def _sized(schema: Schema, made: Made) -> str:
    """A pick with its sizes; our model knows none of a function."""
    stored = stored_of(schema, made)
    if isinstance(made.pick, Applied):
        return f"{made.pick.shown()}: about {space(stored)}"
    return f"pick {made.pick.number}: {both(made.pick.pages, stored or None)}"


def _statements(schema: Schema, made: Made, speed: Speed) -> list[str]:
    """The statements of a pick, those that lock readers out behind what there is to say of that."""
    lines = [it.statement() for it in made.indexes]
    if made.laid is not None:
        told = [*speed.told(schema.tables[made.where], len(made.indexes)), WAITS]
        lines += [*(f"-- {it}" for text in told for it in wrap(text, 117)), *made.laid.statements()]
    return [*lines, *made.analyses]


def stored_of(schema: Schema, made: Made) -> int:
    """The pages of a pick as PostgreSQL stores it; none of one that isn't made."""
    return stored_pages(schema, made.pick) or 0 if made.indexes else 0


def _comment(text: str) -> str:
    """A text of one line of printable ASCII."""
    return "".join(it if 32 <= ord(it) < 127 else "?" for it in text)


def _as_json(schema: Schema, advice: Advice, made: list[Made]) -> dict[str, Any]:
    return {
        "budget": advice.budget,
        "size": advice.size,
        "stored_size": sum(stored_of(schema, it) for it in made),
        "cost": advice.cost,
        "bound": advice.bound,
        "gap": advice.gap,
        "finished": advice.is_finished,
        "picks": [
            {
                "number": it.pick.number or None,
                "table": it.pick.table,
                "columns": it.pick.columns,
                "clustered": it.pick.is_clustered,
                "pages": it.pick.pages,
                "stored_pages": stored_of(schema, it) or None,
                "name": it.name or None,
                "statement": "\n".join(it.statements) or None,
                "long": exceeding(schema, it.pick),
                **({"left_out": it.why_not} if it.why_not else {}),
            }
            for it in made
        ],
    }
