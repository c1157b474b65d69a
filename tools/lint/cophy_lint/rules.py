"""Warnings of rules: lines that are none, and those that say nothing new or change nothing."""
from __future__ import annotations

from collections.abc import Iterator
from typing import Any

from cophy_text import keys
from cophy_text.rules import Rule, rules_in, why_not
from cophy_text.tokens import names_in
from cophy_lint.checks import Note, Remark, Warning, clustered_index, elements_of

UNNAMED = "no statement names the table of a rule, so the rule changes nothing"

Seen = dict[tuple[object, ...], tuple[int, str]]
"""The number and the verb of the first rule that speaks of something."""


def rules_remarks(content: bytes, document: dict[str, Any], workload: bytes | None = None) -> list[Remark]:
    """What a file of rules says in vain over a catalogue, and over what a workload names."""
    found: list[Remark] = []
    seen: Seen = {}
    named = names_in(workload) if workload is not None else None
    tables = {str(it.get("name")).lower(): it for it in elements_of(document, "table")}
    for number, line, rule in rules_in(content):
        place = f"line {number}"
        if rule is None:
            found.append(Warning(place, f"is no rule: {why_not(line)}"))
            continue
        table = tables.get(rule.table.lower())
        if table is None:
            found.append(Warning(place, f"the catalogue has no table {rule.table!a}{_near(rule.table, [*tables])}"))
        elif named is not None and rule.table.lower() not in named:
            found.append(Note(UNNAMED, f"{place} ({rule.table!a})"))
        else:
            told = [*_of_table(rule, table), *_of_clustering(rule, table, document), *_of_others(rule, seen)]
            found += (Warning(place, it) for it in told)
        seen.setdefault(rule.key(), (number, rule.verb))
    return found


def _near(name: str, known: list[str]) -> str:
    near = keys.nearest(name, known)
    return f": did you mean {near}?" if near else ""


def _of_table(rule: Rule, table: dict[str, Any]) -> Iterator[str]:
    """What a rule says in vain of its table."""
    columns = [str(it.get("name")) for it in elements_of(table, "column")]
    for it in (*rule.columns, *([rule.column] if rule.column else [])):
        if it.lower() not in map(str.lower, columns):
            yield f"the table {rule.table!a} has no column {it!a}{_near(it, columns)}"
    given = [it.lower() for it in rule.columns if not rule.is_clustered]
    for index in elements_of(table, "index"):
        known = index.get("keys")
        if given and isinstance(known, list) and [str(it).lower() for it in known] == given:
            yield f"the index exists already, as {str(index.get('name'))!a}, so it is no candidate"


def _of_clustering(rule: Rule, table: dict[str, Any], document: dict[str, Any]) -> Iterator[str]:
    """Why no index of a table is a clustered candidate, which the rule speaks of."""
    clustered = clustered_index(table)
    if rule.is_clustered and clustered:
        yield f"the table is clustered by {clustered!a} already, so none that is clustered is a candidate"
    elif rule.is_clustered and not (document.get("version") == 2 and table.get("may_cluster") is True):
        yield "the table lacks may_cluster of version 2, so none that is clustered is a candidate"


def _of_others(rule: Rule, seen: Seen) -> Iterator[str]:
    """What a rule says in vain after others."""
    same = seen.get(rule.key())
    if same is not None:
        yield f"it says {'again what' if same[1] == rule.verb else 'the contrary of what'} line {same[0]} says"
    wider = [Rule("never", rule.table)] if rule.columns or rule.column else []
    wider += [Rule("never", rule.table, column=it) for it in rule.columns]
    for number, _ in (seen[it.key()] for it in wider if it.key() in seen):
        yield f"line {number} leaves it out" + (" already" if rule.verb == "never" else ", and it must be")
