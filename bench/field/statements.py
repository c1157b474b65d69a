"""The statements of the field: which half each belongs to, how often it is called, and what its parameters are."""
from __future__ import annotations

import random
import re
from dataclasses import dataclass
from datetime import date, timedelta
from pathlib import Path

HERE = Path(__file__).resolve().parent
TPCH = HERE.parents[1] / "examples" / "tpch" / "queries.sql"
HALVES = ("table", "tuning")
SAMPLES = 3
"""So many calls of each statement are measured; all its calls are collected."""
_HEAD = re.compile(r"-- (table|tuning), (\d+) calls: (.*)\n([^;]*);")
_QUERY = re.compile(r"-- Q(\d+)\n([^;]*);")
_PARAMETER = re.compile(r"\{(\w+)(?::([^{}]*))?(?:\+(\d+))?\}")
_NUMBERS = re.compile(r"(\d+)(s?)-(\d+)(s?)\Z")


@dataclass(frozen=True)
class Statement:
    """A statement with its parameters in braces: `{name:1-500}` is a number of a range, whose ends are multiplied by the
    scale where an `s` is behind them, `{name:2024-01-01..2024-06-30}` a date, `{name}` the same value again and `{name+7}`
    one that is 7 larger."""

    name: str
    half: str
    calls: int
    text: str

    def reads(self) -> bool:
        """Whether it writes nothing."""
        return self.text.lstrip().split(None, 1)[0].upper() in ("SELECT", "WITH")

    def drawn(self, number: int, scale: float) -> str:
        """The statement of one call; the same number gives the same values."""
        source, given = random.Random(f"{self.name} {number}"), dict[str, int | date]()

        def value(found: re.Match[str]) -> str:
            name, values, more = found.groups()
            if values:
                given[name] = _draw(source, values, scale)
            it = given[name]
            return str(it + timedelta(int(more or 0)) if isinstance(it, date) else it + int(more or 0))

        return _PARAMETER.sub(value, self.text)

    def samples(self, scale: float) -> list[str]:
        """The calls that are measured."""
        return list(dict.fromkeys(self.drawn(it, scale) for it in range(SAMPLES)))


def _draw(source: random.Random, values: str, scale: float) -> int | date:
    found = _NUMBERS.match(values)
    if found is None:
        first, last = map(date.fromisoformat, values.split(".."))
        return first + timedelta(source.randrange((last - first).days + 1))
    low, high = (
        max(1, int(int(number) * (scale if mark else 1))) for number, mark in (found.group(1, 2), found.group(3, 4))
    )
    return source.randint(low, max(low, high))


def tpch() -> list[Statement]:
    """The queries of TPC-H: those with odd numbers are kept for the table."""
    found = _QUERY.findall(TPCH.read_text())
    return [Statement(f"query {number}", HALVES[1 - int(number) % 2], 1, text) for number, text in found]


def statements_of(database: str) -> list[Statement]:
    """All statements of a database."""
    if database == "tpch":
        return tpch()
    text = (HERE / "databases" / f"{database}_statements.sql").read_text()
    return [Statement(name, half, int(calls), body) for half, calls, name, body in _HEAD.findall(text)]
