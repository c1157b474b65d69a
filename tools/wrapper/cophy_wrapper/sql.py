"""For a fault at a place of a text of SQL, what it may come from."""
from __future__ import annotations

from collections.abc import Iterator
from typing import Any

from cophy_text import keys
from cophy_text.tokens import Token, tokens
from cophy_wrapper.forms import byte_hint, text_hint, token_hint


def sql_hint(text: bytes, fault: str, at: int, catalogue: dict[str, Any], file: str) -> Iterator[str]:
    """The hint for a fault at the byte of this number, from 1, if there is one; names are those of the catalogue in a file."""
    here = list(tokens(text))
    index = next((it for it, token in enumerate(here) if token.place >= at), len(here))
    token = here[index] if index < len(here) and here[index].place == at else None
    if fault == "bad byte":
        hint = byte_hint(text, at)
    elif fault == "open text":
        hint = "what opens here is never closed: a ' within a text is written ''"
    elif fault in ("syntax", "unsupported"):
        hint = token_hint(here, index, token)
    else:
        hint = _name_hint(fault, token, here[:index], catalogue, file)
    if hint:
        yield hint


def _name_hint(
    fault: str, token: Token | None, before: list[Token], catalogue: dict[str, Any], file: str
) -> str | None:
    name = token.text.decode(errors="replace").strip('"') if token is not None else ""
    tables = [it for it in catalogue.get("table", []) if isinstance(it, dict)]
    if fault == "no table":
        near = keys.nearest(name, [str(it.get("name")) for it in tables])
        return f"{name} is no table of {file}" + (f"; did you mean {near}?" if near else "")
    if fault == "no column":
        written = text_hint(before, token)
        if written:
            return written
        columns = {str(it.get("name")) for table in tables for it in table.get("column", []) if isinstance(it, dict)}
        near = keys.nearest(name, sorted(columns))
        if near and near.lower() == name.lower():
            return f"{name} is a column of no table that the statement names there"
        return f"{name} is no column" + (f"; did you mean {near}?" if near else "")
    return {
        "ambiguous": f"several of the statement's tables have a column {name}: write TABLE.{name}",
        "alias twice": f"{name} stands twice: give each source another alias",
        "more than 8 slots": "a statement has at most 8 tables: leave out a small one, or split the statement",
        "unjoined": "no equality of two columns connects all tables of this statement: there are no cross products",
        "bad weight": "a weight is a whole number from 1 to 1000000",
        "more than 1000 statements": "keep the 1000 statements that cost most",
        "more than 2000 slots": "all statements together have at most 2000 tables: keep those that cost most",
    }.get(fault)
