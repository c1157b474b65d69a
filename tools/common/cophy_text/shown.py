"""Texts for people: space in pages, MB or GB, numbers with their digits in groups, a statement on one line."""
from __future__ import annotations

import re

from cophy_text.answers import PAGE

MOST_PAGES = 10**12
SHORT = 60
"""So many characters of a statement are shown where it is only named."""
_AMOUNT = re.compile(r"\s*([0-9]{1,15}(?:\.[0-9]{1,6})?)\s*([A-Za-z]*)\s*\Z")
_UNITS = {"": PAGE, "page": PAGE, "pages": PAGE, "kb": 2**10, "mb": 2**20, "gb": 2**30, "tb": 2**40}


def pages_of(text: str) -> int:
    """The whole pages of 8192 bytes in an amount of space such as `2GB`, `500 MB` or `12800`; a number alone is one of pages.
    Units are PostgreSQL's: a MB has 1024 kB. Raises ValueError where it is none, or over 10^12 pages."""
    found = _AMOUNT.match(text)
    if found is None or found[2].lower() not in _UNITS:
        raise ValueError(f"{text[:40]!a} is no amount of space: write 2GB, 500MB or a number of pages of 8192 bytes")
    whole, _, part = found[1].partition(".")
    unit = _UNITS[found[2].lower()]
    pages = (int(whole) * unit + int(part or 0) * unit // int("1" + "0" * len(part))) // PAGE
    if pages > MOST_PAGES:
        raise ValueError(f"{text[:40]!a} is over {grouped(MOST_PAGES)} pages")
    return pages


def grouped(number: float) -> str:
    """A number without decimals, its digits in groups of three."""
    return f"{number:,.0f}" if isinstance(number, float) else f"{number:,}"


def space(pages: int) -> str:
    """Pages of 8192 bytes in MB of 1048576 bytes, from 10 GB on in GB."""
    size = pages * PAGE
    return f"{size / 2**30:,.1f} GB" if size >= 10 * 2**30 else f"{size / 2**20:,.1f} MB"


def short(text: str, most: int = SHORT) -> str:
    """The begin of a statement on one line of printable characters, without comments before it."""
    text = re.sub(r"\A(?:\s+|--[^\n]*(?:\n|\Z)|/\*.*?\*/)+", "", text, flags=re.DOTALL)
    line = printable(" ".join(text[: 8 * most].split()))
    return line if len(line) <= most else line[: most - 3].rstrip() + "..."


def printable(text: str) -> str:
    """A text in which what a terminal wouldn't show, and might obey, is a `?`."""
    return "".join(it if it.isprintable() else "?" for it in text)


def percent(number: float) -> str:
    """A number of percent, and 0.0 for what would be shown as -0.0."""
    return f"{round(number, 1) + 0.0:,.1f} %"


def about(number: float) -> str:
    """A number of percent, without a fraction where it is no less than one."""
    return f"{number:.0f} %" if number >= 1 else percent(number)


def share(part: float, whole: float) -> str:
    """A part in percent of a whole."""
    return f"{100 * part / whole:,.1f} %" if whole else "0.0 %"


def in_row(every: list[str]) -> str:
    """Some words in a row: 'A, B and C'."""
    return " and ".join([", ".join(every[:-1]), every[-1]]) if every[1:] else every[0]
