"""PostgreSQL's planner over tables of the same form, on a server of its own in a temporary folder."""
import os
import re
import sys

from joins import SLOTS, column, index_keys
from measure import ROOT

sys.path.insert(0, os.path.join(ROOT, "tools", "tests"))
from private_server import PrivateServer, program  # noqa: E402

LIMITS = "SET join_collapse_limit = 8;\nSET from_collapse_limit = 8;\nSET geqo = off;\n"
# A plan is made so often, at most, and for about so long.
MOST_PLANS = 100
SECONDS = 2.0


class Postgres:
    """A server that runs until `stop`."""

    def __init__(self):
        self.server = PrivateServer()

    @staticmethod
    def started():
        """A server, or None where PostgreSQL isn't installed."""
        return Postgres() if program("initdb") else None

    def stop(self):
        self.server.stop()

    def make_tables(self, indexes):
        """The catalogue's tables, empty."""
        text = "DROP SCHEMA IF EXISTS bench CASCADE;\nCREATE SCHEMA bench;\nSET search_path = bench;\n"
        for table in range(1, SLOTS + 1):
            columns = ", ".join(f"{column(at)} int8" for at in range(1, SLOTS + 1))
            text += f"CREATE TABLE t{table} ({columns});\n"
            for keys in index_keys(indexes):
                text += f"CREATE INDEX ON t{table} ({', '.join(keys)});\n"
        self.server.psql(text)

    def least_milliseconds(self, statement, count):
        text = "SET search_path = bench;\n" + LIMITS + f"EXPLAIN (SUMMARY) {statement};\n" * count
        found = re.findall(r"Planning Time: ([0-9.]+) ms", self.server.psql(text).stdout)
        return min(map(float, found))

    def microseconds(self, statement):
        """The least planning time of many, in one session, whose first plans fill its caches."""
        first = self.least_milliseconds(statement, 3)
        count = max(5, min(MOST_PLANS, int(1000 * SECONDS / max(first, 0.001))))
        return 1000 * min(first, self.least_milliseconds(statement, count))
