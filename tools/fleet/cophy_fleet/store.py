"""The results of a fleet, in a file of SQLite."""
from __future__ import annotations

import json
import sqlite3
import zlib
from collections.abc import Iterator
from contextlib import closing, contextmanager, suppress
from dataclasses import dataclass
from pathlib import Path
from typing import Any

from cophy_fleet.outcomes import Checked, Inputs, Point
from cophy_fleet.settings import Fault

_FORM = """
PRAGMA journal_mode = WAL;
PRAGMA synchronous = NORMAL; -- a machine that loses its power may lose the last answers, not the file
CREATE TABLE IF NOT EXISTS answer (
    database TEXT PRIMARY KEY,
    digest TEXT NOT NULL, -- of the inputs and the program that the points are of, or that are refused; else empty
    fault TEXT NOT NULL, -- why the last run had no points; those of an earlier run stay
    advised_on TEXT NOT NULL, checked_on TEXT NOT NULL, -- addresses of workers
    advise_seconds REAL NOT NULL, check_seconds REAL NOT NULL,
    answered TEXT NOT NULL DEFAULT CURRENT_TIMESTAMP
);
-- Costs and bounds may pass 64 bits, so they are decimal digits.
CREATE TABLE IF NOT EXISTS point (
    database TEXT NOT NULL REFERENCES answer ON DELETE CASCADE,
    budget INTEGER NOT NULL, size INTEGER NOT NULL, cost TEXT NOT NULL, bound TEXT NOT NULL,
    advice TEXT NOT NULL, -- the program's own text
    certificate BLOB NOT NULL, -- compressed by zlib
    PRIMARY KEY (database, budget)
) WITHOUT ROWID;
-- What the certificates are of, compressed by zlib; alike statements of the workload may be one.
CREATE TABLE IF NOT EXISTS input (
    database TEXT PRIMARY KEY REFERENCES answer ON DELETE CASCADE,
    catalogue BLOB NOT NULL, workload BLOB NOT NULL
);
"""
_COLUMNS = "database, digest, fault, advised_on, checked_on, advise_seconds, check_seconds"


@dataclass(frozen=True)
class Answer:
    """What is known of a database: points whose certificates are checked, or why the last run had none. A digest without
    points is of inputs that are refused."""

    database: str
    digest: str
    fault: str = ""
    advised_on: str = ""
    checked_on: str = ""
    advise_seconds: float = 0.0
    check_seconds: float = 0.0
    points: tuple[Point, ...] = ()
    kept: Inputs | None = None

    def line(self, is_new: bool) -> str:
        """The answer as a line of JSON."""
        if self.fault:
            return json.dumps({"database": self.database, "fault": self.fault, "new": is_new})
        told = {key: getattr(self, key) for key in ("database", "digest", "advised_on", "checked_on")}
        told |= {"another_worker": self.advised_on != self.checked_on, "new": is_new}
        told |= {key: round(getattr(self, key), 3) for key in ("advise_seconds", "check_seconds")}
        return json.dumps(told | {"points": [_told(it) for it in self.points]})


def answer_of(database: str, checked: Checked) -> Answer:
    """The answer that a fleet keeps; points whose certificates prove something else are no answer."""
    advised = checked.advised
    if advised.refusal or checked.fault:
        return Answer(database, "" if checked.fault else advised.digest, checked.fault or advised.refusal)
    where = (advised.worker, checked.worker, advised.seconds, checked.seconds)
    return Answer(database, advised.digest, "", *where, advised.points, advised.kept)


def _told(point: Point) -> dict[str, Any]:
    advice = point.numbers
    told = {key: getattr(advice, key) for key in ("budget", "size", "cost", "bound", "nodes", "is_finished")}
    return told | {"picks": [it.shown() for it in advice.picks]}


class Store:
    """An open file of results. Each answer is written whole, by one transaction."""

    def __init__(self, connection: sqlite3.Connection) -> None:
        self.connection = connection

    def digest(self, database: str) -> str:
        """The digest of the inputs that the answer is of; nothing where there is none."""
        row = self.connection.execute("SELECT digest FROM answer WHERE database = ?", (database,)).fetchone()
        return str(row[0]) if row else ""

    def seconds(self) -> dict[str, float]:
        """How long each database took, by its name."""
        rows = "SELECT database, advise_seconds + check_seconds FROM answer WHERE digest != ''"
        return dict(self.connection.execute(rows))

    def answer(self, database: str) -> Answer | None:
        """The answer that is kept."""
        row = self.connection.execute(f"SELECT {_COLUMNS} FROM answer WHERE database = ?", (database,)).fetchone()
        if row is None:
            return None
        rows = self.connection.execute(
            "SELECT budget, advice, certificate FROM point WHERE database = ? ORDER BY budget", (database,)
        )
        named = dict(zip(_COLUMNS.split(", "), row, strict=True))
        inputs = self.connection.execute("SELECT catalogue, workload FROM input WHERE database = ?", (database,))
        kept = inputs.fetchone()
        return Answer(**named, points=tuple(Point(*it) for it in rows), kept=Inputs(*kept) if kept else None)

    def keep(self, answer: Answer) -> None:
        """Keeps an answer, with its inputs where it has them, in the place of the one before."""
        with self.connection:
            self.connection.execute("DELETE FROM answer WHERE database = ?", (answer.database,))
            self._insert(answer)
            self.connection.executemany(
                "INSERT INTO point VALUES (?, ?, ?, ?, ?, ?, ?)", (_row(answer.database, it) for it in answer.points)
            )
            if answer.kept is not None:
                inputs = (answer.database, answer.kept.catalogue, answer.kept.workload)
                self.connection.execute("INSERT INTO input VALUES (?, ?, ?)", inputs)

    def fail(self, database: str, fault: str) -> None:
        """Keeps why there was no answer, beside the points that there were."""
        with self.connection:
            self.connection.execute(
                "UPDATE answer SET fault = ?, answered = CURRENT_TIMESTAMP, digest = CASE WHEN database IN "
                "(SELECT database FROM point) THEN digest ELSE '' END WHERE database = ?",
                (fault, database),
            )
            if not self.connection.execute("SELECT changes()").fetchone()[0]:
                self._insert(Answer(database, "", fault))

    def _insert(self, answer: Answer) -> None:
        self.connection.execute(
            f"INSERT INTO answer ({_COLUMNS}) VALUES (?, ?, ?, ?, ?, ?, ?)",
            tuple(getattr(answer, it) for it in _COLUMNS.split(", ")),
        )


def _row(database: str, point: Point) -> tuple[Any, ...]:
    advice = point.numbers
    numbers = (point.budget, advice.size, str(advice.cost), str(advice.bound))
    return (database, *numbers, point.advice, point.certificate)


@contextmanager
def opened(file: str, is_new: bool) -> Iterator[Store]:
    """The results in a file, which is made where it may be new. Its owner alone may read it."""
    if not is_new and not Path(file).exists():
        raise Fault(f"{file}: there are no results; make them by cophy-fleet run")
    if is_new:
        with suppress(FileExistsError, OSError):
            Path(file).touch(0o600, exist_ok=False)
    try:
        with closing(sqlite3.connect(file)) as connection:
            connection.executescript("PRAGMA foreign_keys = ON;" + _FORM)
            yield Store(connection)
    except sqlite3.Error as fault:
        raise Fault(f"{file}: {fault}") from None
