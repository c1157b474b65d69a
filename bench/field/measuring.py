"""Makes indexes and measures the statements: EXPLAIN's cost, time, which indexes plans take, and what they hold."""
from __future__ import annotations

import json
import statistics
import time
from collections.abc import Iterator
from contextlib import contextmanager
from dataclasses import asdict, dataclass, field
from pathlib import Path

from hypothetical import explained, index_names
from psycopg.pq import ExecStatus
from server import FieldServer
from sessions import Connection, Index, session
from statements import Statement

MOST_SECONDS = 4.0
"""A sample is run again until it took so long."""


@dataclass
class Measured:
    """What was measured under a set of indexes: by statement the cost of a call, and its milliseconds in each round, by the
    clock and by the processor's time of the server's process, where the system tells it; indexes with their pages; and those
    that some plan takes."""

    pages: dict[str, int] = field(default_factory=dict)
    taken: list[str] = field(default_factory=list)
    costs: dict[str, float] = field(default_factory=dict)
    times: dict[str, list[float]] = field(default_factory=dict)
    processor: dict[str, list[float]] = field(default_factory=dict)
    seconds_to_measure: float = 0


class RealSizes:
    """The pages of indexes as they are when they are made, kept in a file."""

    def __init__(self, server: FieldServer, database: str, file: Path) -> None:
        self.server, self.database, self.file = server, database, file
        self.known: dict[str, int] = json.loads(file.read_text()) if file.exists() else {}

    def __call__(self, index: Index) -> int:
        if str(index) not in self.known:
            with session(self.server, self.database) as connection, present(connection, [index]) as names:
                self.known[str(index)] = _pages(connection, next(iter(names)))
            self.file.write_text(json.dumps(self.known, indent=1))
        return self.known[str(index)]


@contextmanager
def present(connection: Connection, indexes: list[Index]) -> Iterator[dict[str, Index]]:
    """Makes indexes, gives them by their names, and drops them."""
    names = {f"field_{at}": it for at, it in enumerate(indexes, 1)}
    try:
        _drop_left(connection)
        for name, it in names.items():
            connection.execute(f"CREATE INDEX {name} ON {it.quoted()}".encode())
        yield names
    finally:
        for name in names:
            connection.execute(f"DROP INDEX IF EXISTS {name}".encode())


def _drop_left(connection: Connection) -> None:
    """Drops the indexes that a call left which was killed."""
    for (name,) in connection.execute(
        r"SELECT relname FROM pg_class WHERE relkind = 'i' AND relname ~ '^field_\d+$'"
    ).fetchall():
        connection.execute(f"DROP INDEX {name}".encode())


def measure(
    server: FieldServer,
    database: str,
    indexes: list[Index],
    statements: list[Statement],
    scale: float,
    runs: int | None,
) -> Measured:
    """Measures all statements, those that write last, and takes back what they wrote. Without a number of runs no times are
    taken."""
    found, began = Measured(), time.monotonic()
    with session(server, database) as connection, present(connection, indexes) as names:
        connection.execute("VACUUM")
        found.pages = {str(it): _pages(connection, name) for name, it in names.items()}
        taken: set[str] = set()
        for it in sorted(statements, key=lambda it: not it.reads()):
            samples = it.samples(scale)
            plans = [explained(connection, sample) for sample in samples]
            taken.update(*map(index_names, plans))
            found.costs[it.name] = statistics.fmean(plan["Total Cost"] for plan in plans)
            both = [] if runs is None else [_milliseconds(connection, sample, runs) for sample in samples]
            for times, taken_of in (
                (found.times, [one[0] for one in both]),
                (found.processor, [one[1] for one in both]),
            ):
                times[it.name] = [statistics.fmean(taken_of)] if taken_of else []
        found.taken = [str(index) for name, index in names.items() if name in taken]
    with session(server, database) as connection:
        connection.execute("VACUUM")
    found.seconds_to_measure = time.monotonic() - began
    return found


def _pages(connection: Connection, name: str) -> int:
    row = connection.execute("SELECT pg_relation_size(%s::regclass) / 8192", [name]).fetchone()
    assert row is not None
    return int(row[0])


def _milliseconds(connection: Connection, text: str, runs: int) -> tuple[float, float]:
    """By the clock the median of some runs behind one that warms up, by the processor the least; where one takes long, of
    fewer."""
    first, taken = _run(connection, text), list[tuple[float, float]]()
    while len(taken) < runs and first[0] + sum(it[0] for it in taken) < MOST_SECONDS:
        taken.append(_run(connection, text))
    clock, processor = zip(*(taken or [first]))
    return 1000 * statistics.median(clock), 1000 * min(processor)


def _run(connection: Connection, text: str) -> tuple[float, float]:
    """The seconds by the clock and by the processor."""
    with connection.transaction(force_rollback=True):
        used, began = _used(connection), time.perf_counter()
        result = connection.pgconn.exec_(text.encode())
        took, used = time.perf_counter() - began, _used(connection) - used
        if result.status not in (ExecStatus.TUPLES_OK, ExecStatus.COMMAND_OK):
            raise RuntimeError(f"{text[:60]}: {result.error_message.decode(errors='replace')}")
    return took, used


def _used(connection: Connection) -> float:
    """The processor's time of the server's process so far, in seconds; 0 where the system doesn't tell."""
    try:
        with open(f"/proc/{connection.info.backend_pid}/schedstat", encoding="ascii") as file:
            return int(file.read().split()[0]) / 1e9
    except OSError:
        return 0.0


def kept(file: Path, found: Measured, **more: object) -> None:
    """Writes a measurement with what belongs to it."""
    file.parent.mkdir(parents=True, exist_ok=True)
    file.write_text(json.dumps({**more, **asdict(found)}, indent=1) + "\n")
