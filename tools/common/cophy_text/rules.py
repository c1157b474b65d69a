"""The lines of a rules file, as docs/FORMATS.md gives them, taken apart."""
from __future__ import annotations

import re
from collections.abc import Iterator
from dataclasses import dataclass

MOST_KEYS = 8
_NAME = r"[A-Za-z_][A-Za-z0-9_]{0,63}"
_INDEX = re.compile(rf"(must|never) ({_NAME})\(({_NAME}(?:, {_NAME}){{0,{MOST_KEYS - 1}}})\)( clustered)?\Z")
_OTHER = re.compile(rf"never ({_NAME})(?:\.({_NAME}))?\Z")


@dataclass(frozen=True)
class Rule:
    """What a line asks for: that an index must be or never is, or that none of a table, or none with a column of it, ever is.
    `columns` are those of an index, `column` is the other one."""

    verb: str
    table: str
    columns: tuple[str, ...] = ()
    column: str = ""
    is_clustered: bool = False

    def line(self) -> str:
        """The rule as a line, without its end."""
        columns = f"({', '.join(self.columns)})" if self.columns else f".{self.column}" if self.column else ""
        return f"{self.verb} {self.table}{columns}{' clustered' * self.is_clustered}"

    def key(self) -> tuple[object, ...]:
        """What it speaks of, whatever the case of its names and whatever it asks for."""
        return self.table.lower(), tuple(it.lower() for it in self.columns), self.column.lower(), self.is_clustered


def read_rule(line: str) -> Rule | None:
    """The rule of a line; nothing where it has another form."""
    index, other = _INDEX.match(line), _OTHER.match(line)
    if index is not None:
        return Rule(index[1], index[2], tuple(index[3].split(", ")), is_clustered=index[4] is not None)
    return Rule("never", other[1], column=other[2] or "") if other is not None else None


def rules_in(content: bytes) -> Iterator[tuple[int, str, Rule | None]]:
    """Each line that is to be a rule, with its number from 1; nothing in the place of one of another form. An end without a
    line feed is no line of a rule."""
    lines = content.decode(errors="replace").split("\n")
    for number, line in enumerate(lines, 1):
        is_last = number == len(lines)
        if line and (is_last or not line.startswith("#")):
            yield number, line, None if is_last else read_rule(line)


def why_not(line: str) -> str:
    """What to write in the place of a line that is no rule."""
    if line != line.strip():
        return "no blank stands at its begin or its end" + (", and no carriage return" if line.endswith("\r") else "")
    if read_rule(line) is not None or line.startswith("#"):
        return "the last line ends with a line feed too"
    verb, _, rest = line.partition(" ")
    if verb not in ("must", "never"):
        return (
            f"a rule begins with {'never' if verb.lower() == 'never' else 'must'} in small letters"
            * (verb.lower() in ("must", "never"))
            or "a rule begins with must or never, and a comment with #"
        )
    if (
        '"' in rest
        or "*" in rest
        or "?" in rest
        or rest.count(".") > 1
        or "." in rest.partition("(")[0]
        and "(" in rest
    ):
        return "names are the catalogue's: cophy-pg rules translates schemas, quoted names and patterns"
    if verb == "must" and "(" not in rest:
        return "what must be is an index: must TABLE(COLUMN, COLUMN)"
    if rest.count(",") >= MOST_KEYS:
        return f"an index has at most {MOST_KEYS} columns"
    if "(" in rest:
        return "an index is TABLE(COLUMN, COLUMN), with one space behind each comma and none elsewhere"
    return (
        "the forms are must INDEX, never INDEX, never TABLE and never TABLE.COLUMN; an index is TABLE(COLUMN, COLUMN)"
    )
