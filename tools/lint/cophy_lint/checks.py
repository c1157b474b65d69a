"""Warnings of what is probably wrong, each with its place, and notes of what is a guess; none says that a file is refused."""
from __future__ import annotations

import tomllib
from collections.abc import Iterator
from dataclasses import dataclass
from typing import Any

from cophy_text import keys
from cophy_text.shown import short
from cophy_text.tokens import Token, names_in, tokens

_RANGES = (b"<", b"<=", b">", b">=")
_LITERALS = ("whole", "decimal", "text")


@dataclass(frozen=True)
class Warning:
    """What is probably wrong: where, and what."""

    place: str
    text: str


@dataclass(frozen=True)
class Note:
    """A guess of the model: of which kind it is, and where it was made."""

    kind: str
    place: str


Remark = Warning | Note


def lines(remarks: list[Remark]) -> list[str]:
    """A line for each warning, and after them one for each kind of note with all its places."""
    places: dict[str, list[str]] = {}
    for it in remarks:
        if isinstance(it, Note):
            places.setdefault(it.kind, []).append(it.place)
    warnings = [f"{it.place}: {it.text}" for it in remarks if isinstance(it, Warning)]
    return warnings + [f"note: {kind}: {'; '.join(listed)}" for kind, listed in places.items()]


def catalogue_remarks(content: bytes, workload: bytes | None = None) -> tuple[list[Remark], dict[str, Any]]:
    """What a catalogue says in vain or leaves out, and its document. With a workload, what is wrong with the numbers of a table
    or a column that no statement names counts for nothing, and isn't told."""
    try:
        document = tomllib.loads(content.decode())
    except (ValueError, RecursionError) as fault:
        return [Warning("catalogue", f"not TOML: {_place(str(fault))}")], {}
    found: list[Remark] = [
        Warning(path, f"means nothing and is passed over{': ' + hint if hint else ''}")
        for path, hint in keys.unknown_keys(document)
    ]
    named = names_in(workload) if workload is not None else None
    for number, table in enumerate(elements_of(document, "table"), 1):
        if _is_named(table, named):
            found += _table(f"table[{number}]", table, named)
    return found, document


def _is_named(it: dict[str, Any], named: set[str] | None) -> bool:
    return named is None or str(it.get("name")).lower() in named


def _place(text: str) -> str:
    return text[text.rfind("(") + 1 : -1] if text.endswith(")") else "at its begin"


def elements_of(parent: dict[str, Any], part: str) -> list[dict[str, Any]]:
    """The tables of a part of a document, such as its columns."""
    listed = parent.get(part)
    return [it for it in listed if isinstance(it, dict)] if isinstance(listed, list) else []


def clustered_index(table: dict[str, Any]) -> str:
    """The name of the index by which a table is clustered; nothing where there is none."""
    return next((str(it.get("name")) for it in elements_of(table, "index") if it.get("clustered") is True), "")


def _table(path: str, table: dict[str, Any], named: set[str] | None) -> Iterator[Remark]:
    name = str(table.get("name"))
    notes = table.get(keys.OURS)
    if isinstance(notes, list) and keys.NOT_ANALYSED in notes[2:]:
        yield Warning(path, f"{name!a} was never analysed when it was exported: its numbers are guesses")
    elif table.get("rows") == 0:
        yield Warning(path, f"{name!a} has no rows and counts as one row on one page: was it analysed?")
    elif table.get("pages") == 0:
        yield Warning(path, f"{name!a} has rows but no pages, and counts as one page")
    clustered = clustered_index(table)
    if clustered and table.get("may_cluster") is True:
        yield Warning(path, f"{name!a} is clustered by {clustered!a} already, so may_cluster changes nothing")
    indexed = {
        str(key).lower()
        for index in elements_of(table, "index")
        for key in index.get("keys", ())
        if isinstance(key, str)
    }
    for number, column in enumerate(elements_of(table, "column"), 1):
        if _is_named(column, named):
            yield from _column(f"{path}.column[{number}]", name, column, table, indexed)
    for index in elements_of(table, "index"):
        if isinstance(index.get("keys"), list) and len(index["keys"]) > 4:
            yield Note("an index with more than four keys grows with each", f"{name + '.' + str(index.get('name'))!a}")


def _column(
    path: str, table: str, column: dict[str, Any], parent: dict[str, Any], indexed: set[str]
) -> Iterator[Remark]:
    name = f"{table}.{column.get('name')}"
    distinct, rows = column.get("distinct"), parent.get("rows")
    if distinct is None:
        more = " (a key of an index)" if str(column.get("name")).lower() in indexed else ""
        yield Note("without distinct an equality is taken to keep a tenth of the rows", f"{name!a}{more}")
    elif isinstance(distinct, int) and isinstance(rows, int) and distinct > max(1, rows):
        yield Warning(path, f"{name!a} has more distinct values than its table has rows")
    most = column.get(keys.MOST)
    if isinstance(most, int) and most > keys.LONGEST_ENTRY:
        yield Note(f"an INSERT of more than {keys.ENTRY} bytes fails where an index has the column", f"{name!a}")
    if column.get("kind") in ("int", "date") and ("low" in column) != ("high" in column):
        yield Warning(path, f"{name!a} has one end alone, which counts for nothing without the other")


def workload_remarks(content: bytes, document: dict[str, Any]) -> list[Remark]:
    """Statements whose price is a guess, and a workload without any."""
    found, statement = list[Remark](), list[Token]()
    kinds = kinds_of(document)
    number, line, at = 0, 1, 0
    for token in [*tokens(content), Token("symbol", b";", len(content) + 1)]:
        if token.kind == "weight":
            continue
        if token.text != b";":
            if not statement:
                line, at = line + content.count(b"\n", at, token.place), token.place
            statement.append(token)
        elif statement:
            number += 1
            sql = content[at - 1 : token.place - 1].decode(errors="replace")
            found += statement_remarks(statement, kinds, f"statement {number}, line {line}", sql)
            statement = []
    return found if number else [Warning("workload", "it holds no statement: every total is 0")]


def kinds_of(document: dict[str, Any]) -> dict[str, set[str]]:
    """The kinds of all columns of a name."""
    found: dict[str, set[str]] = {}
    for table in elements_of(document, "table"):
        for column in elements_of(table, "column"):
            found.setdefault(str(column.get("name")).lower(), set()).add(str(column.get("kind")))
    return found


def statement_remarks(listed: list[Token], kinds: dict[str, set[str]], place: str, sql: str) -> Iterator[Remark]:
    """What is said of a statement: of each kind of note once, with the columns that it is of and the begin of its SQL."""
    columns: dict[str, list[str]] = {}
    for at, token in enumerate(listed):
        before, after = listed[at - 1] if at else None, listed[at + 1] if at + 1 < len(listed) else None
        if after is None:
            break
        if token.word == "TOP" and after.text == b"(" and before is not None and before.word in ("SELECT", "DISTINCT"):
            yield Warning(place, "TOP is read as a function, and the name behind it as an alias: write LIMIT")
        column = _name(before) if before is not None else ""
        kind = _guess(token, after, kinds.get(column.lower(), set()))
        if kind:
            columns.setdefault(kind, []).append(f"{column!a}" if token.word != "LIMIT" else "")
    for kind, named in columns.items():
        names = " and ".join(dict.fromkeys(it for it in named if it))
        yield Note(kind, place + (f" ({names})" if names else "") + f": {short(sql)}")


def _guess(token: Token, after: Token, kinds: set[str]) -> str | None:
    """The kind of guess that a token stands for, by the token after it and the kinds of the column before it."""
    if token.word == "LIMIT":
        return "LIMIT costs and saves nothing, the whole statement is priced"
    if token.word == "BETWEEN" and _is_parameter(after):
        return "a range of parameters is taken to keep a quarter of the rows"
    if token.text in _RANGES and _is_parameter(after):
        return "a bound that is a parameter is taken to keep a third of the rows"
    if token.text in _RANGES and after.kind in _LITERALS and kinds == {"text"}:
        return "a bound of a column of kind text is taken to keep a third of the rows"
    if token.word == "LIKE" and after.kind == "text" and not after.text.startswith(b"'%"):
        return "LIKE with a prefix is taken to be served by no index, and to keep a tenth of the rows"
    return None


def _is_parameter(token: Token) -> bool:
    return token.text == b"?" or token.text.startswith(b"$")


def _name(token: Token) -> str:
    return token.text.decode(errors="replace").strip('"') if token.kind in ("word", "quoted") else ""
