"""`cophy-pg verify`: what becomes of a pick, of statements that aren't explained, and of picks that are there already."""
from __future__ import annotations

import json
import subprocess
import unittest
from unittest import mock

from cophy_text.shown import short
from fixtures import NO_HYPOPG, OverShop, called
from patience import until
from private_server import program

PROGRAM = """#!/bin/sh
n=$(wc -l < "$4")
echo "size $n"; echo "statement 1 weight 1 cost 9000"; echo "total $((9000 - 1000 * n))"
"""


class Plans(unittest.TestCase):
    def test_scans_have_the_names_of_their_indexes_and_their_kinds(self) -> None:
        from cophy_pg.picks import index_names, scans_of

        inner = {"Node Type": "Index Only Scan", "Index Name": "a", "Plans": [{"Node Type": "Seq Scan"}]}
        plan = {"Node Type": "Nested Loop", "Plans": [{"Node Type": "Index Scan", "Index Name": "b"}, inner]}
        self.assertEqual(scans_of(plan), {("a", "Index Only Scan"), ("b", "Index Scan")})
        self.assertEqual(index_names(plan), {"a", "b"})


@unittest.skipIf(NO_HYPOPG, NO_HYPOPG)
class Verify(OverShop):
    # Without the program the statements stay in the order in which they are given.
    given = {"COPHY_PROGRAM": "/bin/false"}

    def setUp(self) -> None:
        super().setUp()
        names = ("catalogue.toml", "workload.sql", "advice", "given.sql", "program", "kept", "rules")
        self.files = {it: str(self.folder / it) for it in names}
        self.lay_program(PROGRAM)

    def export(self, *statements: str) -> None:
        (self.folder / "given.sql").write_text(";\n".join(statements) + ";\n")
        self.call("export", "catalogue.toml", "workload.sql", "--sql", self.files["given.sql"])

    def call(self, *words: str, status: int = 0, **more: str) -> subprocess.CompletedProcess[str]:
        return super().call(*(self.files.get(it, it) for it in words), status=status, **more)

    def verify(self, picks: list[str], *more: str) -> subprocess.CompletedProcess[str]:
        lines = [f"pick {at} {it} 3 pages" for at, it in enumerate(picks, 1)]
        text = [
            "budget 99",
            "candidates 7 left over 0",
            *lines,
            f"size {3 * len(picks)}",
            "cost 6000",
            "bound 6000",
            "gap 0",
        ]
        (self.folder / "advice").write_text("\n".join([*text, "nodes 1 of 9", "finished\n"]))
        words = ("catalogue.toml", "workload.sql", "advice", "--sql", "given.sql", "--program", "program")
        return self.call("verify", *words, *more)

    def outcomes(self, picks: list[str], *more: str) -> dict[str, dict[str, object]]:
        found = json.loads(self.verify(picks, "--json", *more).stdout)
        return {it["index"]: it for it in found["picks"]} | {"": found}

    def test_a_pick_is_taken_or_not_or_unknown(self) -> None:
        self.export(
            "SELECT id FROM customer WHERE city = 'City 3'",
            "SELECT id FROM product WHERE title = 'Product 3'",
            "SELECT order_id FROM line WHERE quantity = 99 AND nothing(order_id)",
        )
        picks = ["customer(city)", "customer(name)", "product(title)", "line(quantity)", "product(stock, category)"]
        found = self.outcomes(picks)
        names = {it: found[it]["outcome"] for it in picks}
        self.assertEqual([*names.values()], ["taken", "not taken", "taken", "unknown", "not taken"])
        self.assertEqual(
            found["line(quantity)"]["reasons"], {"42883 a function or an operator isn't there": "statement 3"}
        )
        lines = self.verify(picks).stdout.splitlines()
        self.assertIn("pick 4 line(quantity): unknown", lines)
        self.assertIn("  42883 a function or an operator isn't there: statement 3", lines)
        self.assertIn("pick 2 customer(name): taken by no statement", lines)
        self.assertTrue(lines[-1].startswith("verdict: of 5 picks 2 taken, 2 not taken, 1 unknown; "), lines[-1])
        self.assertEqual(f"verdict: {found['']['verdict']}", lines[-1])

    def test_sums_are_over_the_same_statements(self) -> None:
        self.export("SELECT id FROM customer WHERE city = 'City 3'", "SELECT 1 FROM customer, line WHERE nothing(city)")
        found = self.outcomes(["customer(city)"])[""]
        plan = json.loads(
            self.server.value("EXPLAIN (FORMAT JSON) SELECT id FROM customer WHERE city = 'City 3'", "shop")
        )
        self.assertEqual((found["explained"], found["before"]), (1, plan[0]["Plan"]["Total Cost"]))
        self.assertLess(float(str(found["after"])), float(str(found["before"])))
        self.assertEqual([it["fault"] for it in found["statements"]][1:], ["42883 a function or an operator isn't there"])  # type: ignore[attr-defined]

    def test_our_saving_counts_how_often_a_call_runs_a_statement(self) -> None:
        self.export("INSERT INTO customer (id) SELECT 3 WHERE 1 = 0")
        self.assertRegex((self.folder / "workload.sql").read_text(), r"\A-- from [0-9a-f]+\*0\.25\n")
        self.lay_program(PROGRAM.replace("cost 9000", "cost $((9000 - 1000 * n))"))
        found = self.outcomes(["customer(city)"])[""]
        self.assertEqual([it["ours"] for it in found["statements"]], [0.25])  # type: ignore[attr-defined]

    def test_a_statement_that_is_gone_leaves_a_pick_unknown(self) -> None:
        self.export("SELECT id FROM customer WHERE city = 'City 3'", "SELECT id FROM product WHERE title = 'Product 3'")
        (self.folder / "given.sql").write_text("SELECT id FROM customer WHERE city = 'City 3'")
        found = self.outcomes(["customer(city)", "product(title)", "line(quantity)"])
        self.assertEqual(found["customer(city)"]["outcome"], "taken")
        self.assertEqual(
            found["product(title)"]["reasons"], {"not among the statements that are given now": "statement 2"}
        )
        self.assertEqual(found["line(quantity)"]["outcome"], "not taken")

    def test_parameters_get_the_types_of_columns(self) -> None:
        statements = [
            "SELECT sum(CASE WHEN city = $1 THEN $2 ELSE $3 END) FROM customer",
            "SELECT id FROM customer WHERE id = ANY (ARRAY[$1, $2])",
            "SELECT id FROM customer WHERE $1 + $2 > id",
            "SELECT id FROM customer WHERE created > now() - $1",
            "SELECT id FROM customer WHERE born BETWEEN $1 AND $2 + interval '1 day'",
            "SELECT array_agg($1) FROM customer",
            "SELECT id FROM event WHERE ctid = $1 OR happened < CURRENT_DATE - $2",
            "SELECT o.id FROM sales.orders o, generate_series($1, $2) g WHERE o.id = g",
            "SELECT sum($2) FROM customer_sum WHERE total < $1 * $3",
            "SELECT array_agg($1), abs($2) + length(lower($3 || $4)) FROM customer WHERE born < now() - $5 AND id = $6",
            "SELECT id FROM customer WHERE born < $1 + $2 AND city = $3 || $4 AND id = ANY (ARRAY[$5, $6])",
            "SELECT unnest($1), round($2, 1), jsonb_build_object($3, $4) FROM product WHERE title = $5 AND price < $6 * $7",
            "SELECT id FROM customer WHERE (id, city) IN (SELECT id, title FROM product WHERE id = $1 AND title = $2)"
            " AND coalesce($3, $4) < born AND NULLIF($5, $6) = email",
            "SELECT id FROM customer WHERE born < $1 + $2 AND born > $3 - $4 AND created < $5 + $6 AND created > $7 - $8"
            " AND id = $9 + $10 AND city = $11 || $12 AND profile ->> $13 = $14",
        ]
        self.export(*statements)
        found = self.outcomes(["customer(born)"])[""]
        self.assertEqual({it["fault"] for it in found["statements"]}, {None}, found["statements"])  # type: ignore[attr-defined]

    def test_what_is_only_read_is_asked_about_behind_include(self) -> None:
        self.export("SELECT max(name) FROM customer WHERE city = 'City 3'")
        # Of a key PostgreSQL looks the last value up; of what is included it reads all.
        key, included = (self.outcomes(["customer(city, name)"], *it)[""]["after"] for it in ((), ("--include",)))
        self.assertLess(float(str(key)), float(str(included)))

    def test_a_parameter_has_the_type_of_the_column_that_it_is_compared_with(self) -> None:
        """One name stands for two tables, whose columns of one name have two types."""
        self.server.psql("CREATE TABLE one (v int, w text); CREATE TABLE two (v text, w int)", "shop")
        self.addCleanup(self.server.psql, "DROP TABLE one; DROP TABLE two", "shop")
        self.export(
            "SELECT t.v FROM one t WHERE t.w = $1 AND EXISTS (SELECT FROM two t WHERE t.w > $2 + $3 AND t.v = $4)",
            "SELECT v FROM one WHERE v = $1 AND $1 = w",
        )
        found = self.outcomes(["one(w)", "one(v)"])
        faults = [it["fault"] for it in found[""]["statements"]]  # type: ignore[attr-defined]
        self.assertEqual(faults, [None, "42883 a function or an operator isn't there"])
        self.assertEqual(found["one(v)"]["outcome"], "unknown")

    def test_types_are_tried_so_often_at_most(self) -> None:
        from cophy_pg.explain import Explainer, statement_of
        from cophy_pg.parameters import Columns
        from cophy_pg.server import ServerFault

        statement = statement_of("SELECT $1 + $2, $3 + $4, $5 + $6, $7 + $8, $9 + $10, nothing($11)")
        explainer = Explainer(mock.Mock(), Columns())
        explainer.server.is_lost.return_value = False  # type: ignore[attr-defined]
        count = 0

        def planned(*given: object) -> None:
            nonlocal count
            count += 1
            raise ServerFault("", "42725", 10)

        with mock.patch.object(explainer, "_plan", planned), self.assertRaises(ServerFault):
            explainer.explain(statement)
        self.assertLess(count, 100)

    def test_of_what_writes_within_with_what_it_reads_is_explained(self) -> None:
        self.export(
            "WITH gone AS (DELETE FROM line WHERE quantity = 4 AND product_id = 7 RETURNING order_id)"
            " SELECT order_id FROM gone",
            "WITH new AS (UPDATE customer SET city = (SELECT max(title) FROM product WHERE price = 7.5) WHERE name = 'Name 7')"
            " DELETE FROM product WHERE title = 'Product 7'",
            "WITH new AS (INSERT INTO fresh SELECT id, title FROM product WHERE weight = 7) INSERT INTO fresh VALUES (1, 'x')",
            "WITH new AS (INSERT INTO fresh VALUES (1, 'x') RETURNING *) SELECT title FROM product, new WHERE stock = 1",
        )
        picks = ["line(quantity)", "customer(name)", "product(title)", "product(price)", "product(weight)"]
        found = self.outcomes([*picks, "product(stock, category)"])
        self.assertEqual([found[it]["taken_by"] for it in picks], [[1], [2, 3, 4], [2, 3, 4], [2, 3, 4], [5, 6, 7]])
        self.assertEqual(
            found["product(stock, category)"]["reasons"], {"an INSERT within WITH that returns rows": "statements 7, 8"}
        )

    def test_of_a_write_what_it_reads_is_explained(self) -> None:
        statements = [
            "UPDATE customer SET city = 'x', name = (SELECT max(title) FROM product) WHERE name = 'Name 7'",
            "DELETE FROM line USING product p WHERE p.id = product_id AND quantity = 4 AND p.title = 'Product 7'",
            "INSERT INTO fresh SELECT id, title FROM product WHERE price = 7.5",
            "SELECT id FROM product WHERE weight = 7 FOR UPDATE",
        ]
        self.export(*statements)
        picks = ["customer(name)", "product(title)", "product(price)", "product(weight)"]
        count = self.server.value("SELECT count(*) FROM fresh", "shop")
        found = self.outcomes(picks)
        # By the numbers of the workload, where a write stands beside what it reads.
        self.assertEqual([found[it]["taken_by"] for it in picks], [[1, 2], [1, 2, 3, 4], [5, 6], [7]])
        listed: list[dict[str, object]] = found[""]["statements"]  # type: ignore[assignment]
        self.assertEqual([it["numbers"] for it in listed], [[1, 2], [3, 4], [5, 6], [7]])
        self.assertEqual([it["sql"] for it in listed], [short(it) for it in statements])
        self.assertEqual(self.server.value("SELECT count(*) FROM fresh", "shop"), count)

    def test_picks_that_are_there_are_told_and_left_out(self) -> None:
        self.server.psql("CREATE INDEX there ON customer (city); CREATE INDEX longer ON customer (name, id)", "shop")
        self.addCleanup(self.server.psql, "DROP INDEX there; DROP INDEX longer", "shop")
        self.export("SELECT id FROM customer WHERE city = 'City 3'", "SELECT id FROM product WHERE title = 'x'")
        picks = ["customer(city)", "customer(name)", "product(title)", "product(stock)"]
        ran = self.verify(picks, "--advice", "kept", "--rules", "rules")
        self.assertIn("taken by 1 statement; it is there already, as 'public'.'there'", ran.stdout)
        self.assertIn("taken by no statement; 'public'.'longer' begins with its columns", ran.stdout)
        self.assertIn(", 1 there already; ", ran.stdout)
        self.assertEqual((self.folder / "rules").read_text(), "never customer(name)\nnever product(stock)\n")
        kept = (self.folder / "kept").read_text()
        self.assertEqual(
            kept,
            "budget 99\npick 3 product(title) 3 pages\nsize 3\ncost 8000\nbound 6000\ngap 2000\nnodes 1 of 9\nstopped\n",
        )
        self.assertIn("CREATE INDEX", self.call("ddl", "catalogue.toml", "kept").stdout)

    def test_rules_have_one_space_after_each_comma(self) -> None:
        self.export("SELECT id FROM customer WHERE city = 'City 3'")
        self.verify(["product(stock, category, weight)"], "--rules", "rules")
        self.assertEqual((self.folder / "rules").read_text(), "never product(stock, category, weight)\n")

    def test_without_the_program_no_advice_is_written(self) -> None:
        self.export("SELECT id FROM customer WHERE city = 'City 3'")
        (self.folder / "program").write_text("#!/bin/sh\nexit 5\n")
        self.verify(["customer(city)"])
        words = [self.files[it] for it in ("catalogue.toml", "workload.sql", "advice")]
        more = ("--sql", self.files["given.sql"], "--program", self.files["program"], "--advice", self.files["kept"])
        ran = called(self.server, "verify", *words, *more, PGUSER="cophy_advisor")
        self.assertEqual(ran.returncode, 1)
        self.assertIn("no advice is written, since its cost isn't known", ran.stderr)
        self.assertFalse((self.folder / "kept").exists())

    def test_statements_are_read_as_the_roles_path_has_it(self) -> None:
        self.server.psql("ALTER ROLE cophy_advisor IN DATABASE shop SET search_path TO sales, public", "shop")
        self.addCleanup(self.server.psql, "ALTER ROLE cophy_advisor IN DATABASE shop RESET search_path", "shop")
        self.export("SELECT id FROM orders WHERE total = 17.75")
        found = self.outcomes(["sales_orders(total)"])
        self.assertEqual(found["sales_orders(total)"]["outcome"], "taken")

    def test_what_is_locked_costs_itself_alone(self) -> None:
        statements = ["SELECT id FROM customer WHERE city = 'City 3'", "SELECT id FROM product WHERE title = 'x'"]
        self.export(*statements)
        text = "BEGIN; LOCK TABLE product, open_order; SELECT pg_sleep(9000)"
        words = [str(program("psql")), "-X", "-q", "-c", text]
        holder = subprocess.Popen(
            words, env=self.server.environment("shop"), stdout=subprocess.DEVNULL, stderr=subprocess.DEVNULL
        )
        self.addCleanup(holder.wait)
        end = "SELECT pg_terminate_backend(pid) FROM pg_stat_activity WHERE query LIKE 'BEGIN; LOCK%'"
        self.addCleanup(self.server.psql, end, "shop")
        held = "SELECT count(*) FROM pg_locks WHERE mode = 'AccessExclusiveLock' AND relation = 'product'::regclass"
        until(lambda: self.server.value(held, "shop") == "1", "the tables are locked")
        found = self.outcomes(["customer(city)", "product(title)"])
        self.assertEqual(found["customer(city)"]["outcome"], "taken")
        self.assertEqual(
            found["product(title)"]["reasons"], {"it can't be made: 55P03 a lock wasn't given in time": ""}
        )
        self.assertEqual(
            [it["fault"] for it in found[""]["statements"]],  # type: ignore[attr-defined]
            [None, "55P03 a lock wasn't given in time"],
        )
        ran = self.call("export", "catalogue.toml", "workload.sql", "--sql", "given.sql")
        why = "55P03 a lock wasn't given in time, so"
        self.assertIn(f"'public'.'product': {why} its pages are those of its last ANALYZE", ran.stderr)
        self.assertIn(f"'public'.'open_order': {why} the view isn't known", ran.stderr)
        self.assertNotIn(f"'public'.'customer': {why}", ran.stderr)


if __name__ == "__main__":
    unittest.main()
