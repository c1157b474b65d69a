"""Denial of service: what others made costs a call no more than its time, its connection or a table."""
from __future__ import annotations

import time
import tomllib
import unittest
from pathlib import Path
from typing import TypeVar
from unittest import mock

from attacked_server import OverPrey, as_app
from fixtures import NO_HYPOPG
from patience import LONG

Value = TypeVar("Value")


class Counted(dict[int, Value]):
    """Counts how often a value is looked up."""

    count = 0

    def __getitem__(self, key: int) -> Value:
        self.count += 1
        return super().__getitem__(key)


class Bounds(unittest.TestCase):
    """Work that grows no faster than what others made."""

    def test_types_of_types_are_looked_at_once(self) -> None:
        from cophy_pg.types import Orders

        ends: tuple[list[int] | None, ...] = ([], None)
        for end in ends:
            orders = Orders.__new__(Orders)
            types: Counted[tuple[str, list[int] | None]] = Counted()
            types.update({at: (f"t{at}", [at - 1, at - 2] if at > 1 else [0]) for at in range(1, 3000)})
            types[0] = ("point", end)
            orders.types, orders.too_deep, orders.told = types, set(), {}
            told = [orders.why_not(at) for at in range(2999, 0, -1)]
            self.assertEqual({*told}, {"" if end == [] else "the type point has no order"})
            self.assertLess(types.count, 60000)

    def test_domains_over_domains_are_looked_at_once(self) -> None:
        from cophy_pg.types import ends_of

        for order in (range(1, 5001), range(5000, 0, -1)):
            domains = Counted({at: (at - 1, 20 if at == 1 else -1) for at in order})
            self.assertEqual({*ends_of(domains).values()}, {(0, 20)})
            self.assertLess(domains.count, 11000)
        self.assertEqual([*ends_of({1: (2, 4), 2: (1, 8)})], [1, 2])

    def test_few_samples_wait_in_vain(self) -> None:
        from cophy_pg import keyable
        from cophy_pg.server import ServerFault

        server = mock.Mock(timeout=1)
        server.is_lost.return_value = False
        lengths = keyable.Lengths(server, mock.Mock(), mock.Mock())
        with mock.patch.object(keyable, "may_plan", side_effect=ServerFault("", "57014")) as asked:
            for at in range(100):
                self.assertIsNone(lengths._read([keyable.Part("app", f"t{at}", 1, 1)], "1"))
        self.assertEqual(asked.call_count, keyable.MOST_WAITS)

    def test_one_message_tells_what_a_lost_connection_cost(self) -> None:
        from cophy_pg import keyable
        from cophy_pg.schema import Column, Table
        from cophy_pg.server import ServerFault
        from cophy_pg.types import Base

        said: list[str] = []
        server, orders = mock.Mock(timeout=1), mock.Mock()
        orders.why_not.return_value = ""
        lengths = keyable.Lengths(server, orders, said.append)
        columns = [Column("b", "b") for _ in range(3)]
        for at, it in enumerate(columns):
            stored = keyable.Stored(it, Base(25, -1, -1, "text"), -1, "x")
            part = keyable.Part("app", f"t{at}", 1, 1, oid=at + 1)
            lengths.mark(Table("app", f"t{at}", f"app_t{at}"), [stored], [part], set())
        server.is_lost.return_value = False
        server.rows.return_value = [(9, 5.0, 7)]
        # The first table has functions of users, so it comes last; the connection ends at the second that is sampled.
        with mock.patch.object(keyable, "runs_functions", lambda _, oids: oids == [1]):
            count = 0

            def may_plan(_: object) -> bool:
                nonlocal count
                count += 1
                server.is_lost.return_value = count > 1
                if count > 1:
                    raise ServerFault("", "08006")
                return True

            with mock.patch.object(keyable, "may_plan", may_plan):
                lengths.sample()
        lost = "the connection was lost at a sample of 'app'.'t2'"
        self.assertEqual(said, [f"{lost}: no index has columns of app_t2, app_t0 whose values may be long"])
        self.assertEqual([bool(it.no_key) for it in columns], [True, False, True])
        self.assertEqual(columns[1].width, 5)


@unittest.skipIf(NO_HYPOPG, NO_HYPOPG)
class Denial(OverPrey):
    def test_code_without_an_end_costs_no_more_than_its_time(self) -> None:
        as_app(
            self.server,
            "CREATE FUNCTION endless(int) RETURNS int LANGUAGE plpgsql IMMUTABLE AS $$ BEGIN LOOP BEGIN"
            " PERFORM pg_catalog.pg_sleep(1000); EXCEPTION WHEN query_canceled THEN NULL; END; END LOOP; END $$;"
            "CREATE FUNCTION slow(int) RETURNS int LANGUAGE plpgsql IMMUTABLE AS"
            " $$ BEGIN PERFORM pg_catalog.pg_sleep(1000); RETURN 1; END $$",
        )
        ran = self.verify(["SELECT a FROM t WHERE a = slow(1)", "SELECT a FROM t WHERE a = 2"], "--timeout", "10")
        self.assertIn("statement 1, line 1: not explained: 57014 it took too long", ran.stdout)
        self.assertIn("estimate for 1 statement:", ran.stdout)
        begun = time.monotonic()
        ran = self.verify(["SELECT a FROM t WHERE a = endless(1)"], "--timeout", "10")
        self.assertEqual(ran.returncode, 1)
        self.assertIn("the connection was lost at statement 1", ran.stderr)
        self.assertLess(time.monotonic() - begun, LONG)

    def test_code_that_ends_the_session_is_told(self) -> None:
        as_app(
            self.server,
            "CREATE FUNCTION ends(int) RETURNS int LANGUAGE plpgsql IMMUTABLE AS $$ BEGIN"
            " PERFORM pg_catalog.pg_terminate_backend(pg_catalog.pg_backend_pid()); RETURN 1; END $$",
        )
        ran = self.verify(["SELECT a FROM t WHERE a = ends(1)"])
        self.assertEqual(ran.returncode, 1)
        self.assertIn("the connection was lost at statement 1", ran.stderr)

    def test_what_a_table_has_costs_an_export_that_table(self) -> None:
        """Numbers without an end, and functions of an index that go on."""
        self.make_database("odd", lent=True)
        made = """CREATE TABLE {0} (a int, b text); ALTER TABLE {0} ALTER a SET (n_distinct = 1e300);
INSERT INTO {0} SELECT i, repeat('x', 200) FROM generate_series(1, 9) i; ANALYZE {0};
CREATE FUNCTION f_{0}(int) RETURNS int LANGUAGE plpgsql IMMUTABLE AS $$ BEGIN
IF current_user <> 'app' THEN LOOP {1} END LOOP; END IF; RETURN 1; END $$; CREATE INDEX ON {0} ((a + f_{0}(1)));"""
        sleeps = "PERFORM pg_catalog.pg_sleep(1000);"
        as_app(
            self.server,
            "CREATE SCHEMA app; SET search_path TO app;"
            + made.format("slow", sleeps)
            + made.format("stays", f"BEGIN {sleeps} EXCEPTION WHEN query_canceled THEN NULL; END;")
            + made.format("waits", sleeps),
            "odd",
        )
        as_app(
            self.server,
            "CREATE TABLE app.zone (a int, b text); ALTER TABLE app.zone ALTER a SET (n_distinct = 1e300);"
            "ALTER TABLE app.zone ALTER b SET STORAGE EXTERNAL;"
            "INSERT INTO app.zone SELECT i, repeat('x', 3000) FROM generate_series(1, 9) i; ANALYZE app.zone",
            "odd",
        )
        ran = self.export("SELECT a FROM app.waits;\n", "--timeout", "6", database="odd")
        self.assertEqual(ran.stderr.count("the connection was lost"), 1)
        self.assertIn("the connection was lost at a sample of 'app'.'stays': it cost nothing more", ran.stderr)
        tables = tomllib.loads(Path(self.files[0]).read_text())["table"]
        self.assertEqual([it["name"] for it in tables], ["app_slow", "app_stays", "app_waits", "app_zone"])
        self.assertEqual({it["column"][0]["distinct"] for it in tables}, {10**12})
        # A table without code of others is sampled first, whatever its name.
        self.assertEqual(tables[3]["column"][1]["width"], 1000)
        self.assertIn("may exceed a third", tables[3]["column"][1]["postgres_no_key"])
        self.assertNotIn("app_zone can't be read", ran.stderr)

    def test_domains_over_domains_cost_an_export_no_time(self) -> None:
        self.make_database("nested", lent=True)
        made = "".join(f"CREATE DOMAIN app.d{at} AS app.d{at - 1}; " for at in range(1, 2001))
        as_app(
            self.server,
            f"CREATE SCHEMA app; CREATE DOMAIN app.d0 AS varchar(20); {made}"
            "CREATE TABLE app.t (a app.d2000, b app.d1000[], c app.d500); INSERT INTO app.t VALUES ('x', '{y}', 'z')",
            "nested",
        )
        self.export("SELECT a FROM app.t;\n", "--timeout", "20", database="nested")
        columns = tomllib.loads(Path(self.files[0]).read_text())["table"][0]["column"]
        self.assertEqual([it.get("postgres_no_key") for it in columns], [None] * 3)


if __name__ == "__main__":
    unittest.main()
