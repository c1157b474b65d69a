"""Which of the statements that are given count: those since a snapshot, called often enough, over tables, of roles."""
from __future__ import annotations

import argparse
from dataclasses import dataclass, field

from cophy_text.answers import Prices
from cophy_text.shown import share
from cophy_pg.inputs import Input, NoInput
from cophy_pg.server import Server
from cophy_pg.snapshots import begun_of, database_of, read_snapshot, since
from cophy_pg.workload import Workload, mentioned


@dataclass(frozen=True)
class Selection:
    """Each part that isn't given leaves all statements."""

    since: str | None = None
    min_calls: int = 1
    tables: list[str] = field(default_factory=list)
    users: list[str] = field(default_factory=list)

    def of(self, server: Server, listed: list[Input]) -> list[Input]:
        """The statements that count, of those that are given."""
        if self.since is not None:
            listed = since(listed, read_snapshot(self.since), begun_of(server), database_of(server))
        listed = [it for it in listed if it.calls >= self.min_calls]
        if self.users:
            if not any(it.role for it in listed):
                raise NoInput("--user: of none of these statements it is known who ran it")
            listed = [it for it in listed if it.role in self.users]
        if self.tables:
            names = {it.rsplit(".", 1)[-1] for it in self.tables}
            listed = [it for it in listed if names & mentioned([it])[0]]
        return listed


def ran_once(workload: Workload, prices: Prices) -> list[str]:
    """What to warn of where statements that ran once have much of the cost, beside others that ran again: they may have filled
    the tables, and count against each index."""
    costs = [(it.input.calls, it.input.calls * prices.of_call(workload.times(it))) for it in workload.records]
    once, every = sum(cost for calls, cost in costs if calls == 1), sum(cost for _, cost in costs)
    if 10 * once < every or once == every:
        return []
    much = f"statements that ran once have {share(once, every)} of the workload's cost by our model"
    return [f"{much}: --min-calls 2 leaves them out"]


def add_selection(parser: argparse.ArgumentParser) -> None:
    """The words that choose statements."""
    parser.add_argument(
        "--since", metavar="SNAPSHOT", help="what pg_stat_statements counted after this file of cophy-pg snapshot"
    )
    parser.add_argument("--min-calls", type=count, default=1, metavar="N", help="statements with at least N calls")
    parser.add_argument(
        "--table",
        action="append",
        default=[],
        dest="tables",
        metavar="T",
        help="statements that name the table T; may be given several times. What others would pay for an index isn't counted",
    )
    parser.add_argument(
        "--user", action="append", default=[], dest="users", metavar="U", help="statements of the role U, likewise"
    )


def count(text: str) -> int:
    """A number of calls."""
    if not 1 <= int(text) <= 10**18:
        raise ValueError
    return int(text)


def selection_of(words: argparse.Namespace) -> Selection:
    """What the words choose."""
    if words.since is not None and (words.sql or words.log):
        raise NoInput("--since: a snapshot is one of pg_stat_statements, and these statements are from a file")
    return Selection(words.since, words.min_calls, words.tables, words.users)
