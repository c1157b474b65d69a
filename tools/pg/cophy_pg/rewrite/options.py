"""What is written otherwise than it stands, so that the model prices it as PostgreSQL runs it."""
from __future__ import annotations

import argparse
from dataclasses import dataclass


@dataclass(frozen=True)
class Options:
    """Each is a word `--no-NAME` of the tool, which turns it off."""

    ranges: bool = True
    rows: bool = True
    limits: bool = True
    look_ups: bool = True
    deletes: bool = True
    insert_share: bool = True


TEXTS = {
    "ranges": "leave ranges of parameters as they are, which the model takes for a quarter of the table; else they become "
    "literal ranges of 0.5 %% of the column's rows, as in PostgreSQL's generic plan",
    "rows": "don't write ranges of parameters as literal ones that hold as many rows as a call gave or changed",
    "limits": "don't write ORDER BY with LIMIT as a literal range of its first column that holds the rows that are left",
    "look_ups": "don't say by IN what PostgreSQL looks up by a nested loop, which the model doesn't have, and count a "
    "correlated subquery once",
    "deletes": "leave DELETE as it is, and charge it for each index, of which PostgreSQL touches none",
    "insert_share": "charge an INSERT all of the model's upkeep, of which a quarter was measured",
}


def word_of(name: str) -> str:
    """The word that turns an option off."""
    return f"--no-{name.replace('_', '-')}"


def add_options(parser: argparse.ArgumentParser) -> None:
    """The words of all options."""
    for name, text in TEXTS.items():
        parser.add_argument(word_of(name), action="store_false", dest=name, help=text)


def options_of(words: argparse.Namespace) -> Options:
    """What the words leave."""
    return Options(**{name: getattr(words, name) for name in TEXTS})


def words_of(words: argparse.Namespace) -> list[str]:
    """The words that were given."""
    return [word_of(name) for name in TEXTS if not getattr(words, name)]
