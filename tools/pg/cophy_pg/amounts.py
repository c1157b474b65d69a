"""Numbers and amounts of space among the words of a command."""
from __future__ import annotations

import argparse
import re
from dataclasses import dataclass

from cophy_text.shown import MOST_PAGES, pages_of

MOST_STEPS = 1000
_SHARE = re.compile(r"(\d{1,4}(?:\.\d{1,3})?)%")


@dataclass(frozen=True)
class Share:
    """A share of the space that the tables take."""

    percent: float

    def pages(self, size: int) -> int:
        """The pages of it, where tables take so many bytes: whole megabytes, or gigabytes from ten on."""
        megabytes = max(1, round(size * self.percent / 100 / 2**20))
        return (round(megabytes / 1024) * 1024 if megabytes >= 10240 else megabytes) * 128


FIFTH = Share(20.0)
"""What is asked for where nobody says how much."""


def whole(text: str) -> int:
    """A whole number."""
    if re.fullmatch(r"[0-9]{1,13}", text) is None or int(text) > MOST_PAGES:
        raise argparse.ArgumentTypeError(f"{text[:40]!a} is no whole number from 0 to {MOST_PAGES}")
    return int(text)


def amount(text: str) -> int:
    """An amount of space, in pages."""
    try:
        return pages_of(text)
    except ValueError as fault:
        raise argparse.ArgumentTypeError(str(fault)) from None


def budget(text: str) -> int | Share:
    """An amount of space, in pages, or a share of what the tables take, as 20%."""
    found = _SHARE.fullmatch(text)
    return Share(float(found[1])) if found and float(found[1]) > 0 else amount(text)


def amounts(text: str) -> list[int]:
    """Amounts of space with commas between them, in pages, in order and without repeats."""
    found = sorted({amount(it) for it in text.split(",")})
    if len(found) > MOST_STEPS:
        raise argparse.ArgumentTypeError(f"these are more than {MOST_STEPS} budgets")
    return found


def step_count(text: str) -> int:
    """How many budgets there are."""
    if not 1 <= whole(text) <= MOST_STEPS:
        raise argparse.ArgumentTypeError(f"{text} isn't from 1 to {MOST_STEPS}")
    return whole(text)
