"""For a refusal of an edit, what it may come from."""
from __future__ import annotations

import re
from collections.abc import Iterator
from typing import Any

from cophy_text.edits import edits_in, read_edit
from cophy_text.tokens import place_of
from cophy_wrapper.sql import sql_hint

_PLACED = re.compile(r"(.+) at (\d{1,18})\Z")
_OTHERS = {
    "no statement": "statements have the numbers that they have at that line, from 1: a removal moves later ones down",
    "more than 1000 statements": "a workload has at most 1000 statements: remove some before this one is added",
    "more than 2000 slots": "all statements together have at most 2000 tables: remove some before this one is added",
}


def edit_hint(
    number: int, fault: str, file: str, content: bytes, catalogue: dict[str, Any], catalogue_file: str
) -> Iterator[str]:
    """The hints for the fault of a line, a line each: the line, with the place in it where there is one, and what is wrong."""
    line = next((it for at, it in enumerate(content.split(b"\n"), 1) if at == number), b"")
    placed, edit = _PLACED.match(fault), read_edit(line)
    sql = edit.sql if edit is not None else b""
    place = place_of(line, len(line) - len(sql) + int(placed[2]) if placed is not None else 1)
    yield f"{file}, line {number}" + (f", column {place.column}" if placed is not None else "")
    yield f"  {place.shown}"
    if placed is not None:
        yield f"  {place.mark}"
        yield from sql_hint(sql, placed[1], int(placed[2]), catalogue, catalogue_file)
    elif fault == "bad line":
        yield from (why for at, _, why in edits_in(content) if at == number and isinstance(why, str))
    elif fault.endswith("combinations"):
        yield "more than 4096 combinations of orders: leave out a join condition, or split the statement"
    else:
        yield from (hint for begin, hint in _OTHERS.items() if fault.startswith(begin))
