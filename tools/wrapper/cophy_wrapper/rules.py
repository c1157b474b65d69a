"""For a refusal of a file of rules, what it may come from."""
from __future__ import annotations

import re
from collections.abc import Iterator
from typing import Any

from cophy_text import keys
from cophy_text.rules import Rule, read_rule, why_not

_AT_LINE = re.compile(r"rules (?:line |no (?:table|column|candidate) at line )(\d{1,18})")


def rules_hint(text: str, file: str, content: bytes, catalogue: dict[str, Any]) -> Iterator[str]:
    """The hints for a refusal, a line each: the line that it names, and what is wrong there."""
    at = _AT_LINE.match(text)
    if at is not None:
        lines = content.decode(errors="replace").split("\n")
        number = int(at[1])
        line = lines[number - 1] if 0 < number <= len(lines) else ""
        yield f"{file}, line {number}: {ascii(line)[1:-1][:100]}"
        yield from _of_line(text, line, read_rule(line), catalogue)
    elif text.startswith("rules need "):
        yield "that many pages have the indexes that must be: give a greater budget, or ask for fewer"
    elif text.startswith("rules clash "):
        yield "a table is clustered by one index: cophy candidates tells which these are"


def _of_line(text: str, line: str, rule: Rule | None, catalogue: dict[str, Any]) -> Iterator[str]:
    if "contradicts" in text:
        yield "an earlier line says the contrary of that candidate: cophy candidates tells which it is"
    elif text.startswith("rules no candidate"):
        yield "what must be is a candidate: no index that exists, and one that cophy candidates lists"
        if rule is not None and rule.is_clustered:
            yield "one that is clustered may be where its table has may_cluster, of version 2, and no index that is clustered"
    elif rule is None or text.startswith("rules line"):
        yield why_not(line)
    else:
        tables = {str(it.get("name")).lower(): it for it in catalogue.get("table", []) if isinstance(it, dict)}
        table = tables.get(rule.table.lower())
        yield from _unknown(rule, table) if table is not None else _near(rule.table, [*tables])


def _unknown(rule: Rule, table: dict[str, Any]) -> Iterator[str]:
    columns = [str(it.get("name")) for it in table.get("column", []) if isinstance(it, dict)]
    known = {it.lower() for it in columns}
    for it in (*rule.columns, *([rule.column] if rule.column else [])):
        if it.lower() not in known:
            yield from _near(it, columns)
            return


def _near(name: str, known: list[str]) -> Iterator[str]:
    near = keys.nearest(name, known)
    if near:
        yield f"did you mean {near}?"
    else:
        yield "names are the catalogue's: cophy-pg rules translates those of PostgreSQL"
