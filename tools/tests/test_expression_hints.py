"""Hints of indexes over lower() and upper() of a column: where statements have them, and what the server's planner takes."""
from __future__ import annotations

import json
import re
import shlex
import subprocess
import unittest
from collections import Counter
from html import unescape
from typing import Any
from unittest import mock

from advised import HAS_JINJA, SCHEMA
from cophy_text.answers import Advice
from fixtures import NO_HYPOPG, NO_PARSER, STAND_IN, OverOwn
from patience import LONG, until
from private_server import program
from schema_check import faults

if not NO_PARSER:
    from cophy_pg.explain import Statement, statement_of
    from cophy_pg.inputs import Input
    from cophy_pg.expression_hints import ExpressionIndex, Hint, hints_of, indexes_in
    from cophy_pg.hints import Room, documents_of, hints_shown, hints_told
    from cophy_pg.outcomes import Verdict
    from cophy_pg.overview import unhelped
    from cophy_pg.schema import Column, Schema, Table
    from cophy_pg.server import ServerFault

TABLES = """CREATE EXTENSION pg_stat_statements;
CREATE ROLE another;
CREATE TABLE customer_user (id int PRIMARY KEY, login varchar(200), email text, number varchar(20), kind char(9), filler text);
INSERT INTO customer_user SELECT i, 'User ' || i, 'mail ' || i, 'N' || i, 'k' || i, repeat('x', 99)
FROM generate_series(1, 30000) i;
CREATE INDEX ON customer_user (upper(number));
CREATE TABLE small AS SELECT i AS id, 'name ' || i AS name FROM generate_series(1, 9) i;
CREATE FUNCTION public.lower(char) RETURNS text LANGUAGE plpgsql IMMUTABLE AS $$ BEGIN RETURN 'k'; END $$;
ALTER FUNCTION public.lower(char) OWNER TO another;
ANALYZE;
"""
QUERIES = """SELECT * FROM customer_user WHERE lower(login) = lower('USER 7');
SELECT * FROM customer_user WHERE upper(number) = 'N7';
SELECT * FROM customer_user WHERE lower(kind) = 'k7';
SELECT * FROM small WHERE lower(name) = 'name 7';
SELECT id, filler FROM customer_user WHERE email = 'mail 7';
"""
INDEX = (
    'CREATE INDEX CONCURRENTLY "customer_user_lower_login_idx" ON "public"."customer_user" (pg_catalog.lower("login"));'
)
ANALYZE = 'ANALYZE "public"."customer_user";'


@unittest.skipIf(NO_PARSER, NO_PARSER)
class Found(unittest.TestCase):
    def setUp(self) -> None:
        """Two tables of three texts, a number and a range each."""
        tables = []
        for number, name in enumerate("uv", 1):
            kinds = {"a": "text", "b": "varchar", "c": "bpchar", "n": "int4", "r": "int4range", f"own_{name}": "text"}
            columns = {it: Column(it, it, type=kind) for it, kind in kinds.items()}
            tables.append(Table("public", name, name, columns=columns, oid=number))
        self.schema = Schema(tables)

    def statement(self, text: str) -> Statement:
        """A statement over these and another table."""
        statement = statement_of(text)
        statement.numbers = {(None, "u"): 1, (None, "v"): 2, ("public", "v"): 2, (None, "w"): 3}
        return statement

    def found(self, text: str) -> set[str]:
        """What is found in a statement."""
        return {f"{it.table.shown}: {it.function}({it.column})" for it in indexes_in(self.statement(text), self.schema)}

    def test_where_the_server_refuses_or_the_picks_help_there_is_none(self) -> None:
        text = "SELECT * FROM u WHERE lower(a) = $1"
        verdict, advice = Verdict(1, Input(text), {1: 1.0}, self.statement(text), 9.0, 9.0), Advice(9)
        server, progress = mock.Mock(), mock.Mock()
        with mock.patch("cophy_pg.expression_hints.reading", side_effect=ServerFault("no")), mock.patch(
            "cophy_pg.expression_hints.say"
        ) as told:
            self.assertEqual(hints_of(server, self.schema, advice, [verdict], progress), [])
            told.assert_called_once_with("indexes over functions weren't asked about: no")
            verdict.after = 8.0
            self.assertEqual(hints_of(server, self.schema, advice, [verdict], progress), [])
            told.assert_called_once()

    def test_those_are_made_that_fit_into_what_is_left_and_serve_other_statements(self) -> None:
        statements = [Verdict(at, Input("SELECT", 2, 1.0), {at: 1.0}, None, 50.0, 50.0) for at in range(1, 5)]
        u, v = self.schema.tables.values()

        def found(pages: int, *hints: Hint, **more: Any) -> list[tuple[str, float, int | None, str | None]]:
            """What is said of hints whose indexes take 100 pages each, where all statements cost 1000 and took 8
            s."""
            with mock.patch("cophy_pg.hints.stored_pages", return_value=100):
                told = [it for it, _ in documents_of(hints, self.schema, 1000.0, 8.0, Room(pages, **more))]
            return [(it["columns"][0], it["saves"]["planned"], it["missing_pages"], it["why_not"]) for it in told]

        # A statement that costs 5 of 50 saves 0.9 s of its second, and 90 of the cost by two calls.
        first = Hint(ExpressionIndex(u, "lower", "a"), [(statements[0], 5.0)])
        both = Hint(ExpressionIndex(u, "upper", "b"), [(it, 5.0) for it in statements[1:3]])
        same = Hint(ExpressionIndex(v, "lower", "b"), [(statements[1], 10.0)])
        little = Hint(ExpressionIndex(v, "upper", "b"), [(statements[3], 48.0)])
        self.assertEqual(
            found(210, first, both, same, little),
            [("upper(b)", 22.5, 0, None), ("lower(a)", 11.25, 0, None), ("upper(b)", 0.5, 90, "1 % are asked for")],
        )
        much = "it takes 0.4 MB more than the budget leaves"
        self.assertEqual(found(150, first, both), [("upper(b)", 22.5, 0, None), ("lower(a)", 11.25, 50, much)])
        # What isn't made serves no statement.
        self.assertEqual([it[0] for it in found(50, both, same)], ["upper(b)", "lower(b)"])
        # A table gets no more than it may, and each saves what is asked for.
        told = [it[3] for it in found(999, first, both, most_per_table=2, made=Counter(u=1))]
        self.assertEqual(told, [None, "2 a table are asked for at most"])
        self.assertEqual(found(999, first, least=12.0)[0][3], "12 % are asked for")
        (said,) = documents_of([first], self.schema, 1000.0, None, Room(9))
        self.assertEqual(said[0]["saves"], {"server": 9.0, "planned": None})
        with mock.patch("cophy_pg.hints.likely", return_value=["a"]):
            self.assertEqual(found(999, first)[0][3], "an INSERT of more than 2,704 bytes in a would fail")

    def test_what_is_compared_is_found(self) -> None:
        for text, *wanted in (
            ("SELECT * FROM u WHERE lower(a) = lower($1)", "u: lower(a)"),
            ("SELECT * FROM u x WHERE n = 3 AND ('A' = UPPER(x.b) AND n > 1)", "u: upper(b)"),
            ("SELECT * FROM u WHERE pg_catalog.lower(c) IN ('a', lower($1))", "u: lower(c)"),
            ("SELECT * FROM u WHERE lower(b::text) = ANY ($1)", "u: lower(b)"),
            ("SELECT * FROM u JOIN public.v ON lower(u.a) = upper(v.b)", "u: lower(a)", "v: upper(b)"),
            ("SELECT * FROM u LEFT JOIN (v JOIN w ON lower(v.a) = w.a) ON true", "v: lower(a)"),
            ("SELECT * FROM u, v WHERE lower(own_u) = $1 AND lower(own_v) = u.a", "u: lower(own_u)", "v: lower(own_v)"),
            ("SELECT 1 WHERE EXISTS (SELECT FROM u WHERE lower(a) = $1) UNION SELECT 2", "u: lower(a)"),
            ("WITH x AS (SELECT * FROM v WHERE lower(a) = $1) SELECT * FROM x WHERE lower(a) = $2", "v: lower(a)"),
            ("UPDATE u SET n = 3 WHERE lower(a) = $1", "u: lower(a)"),
            ("DELETE FROM u USING v WHERE lower(u.a) = v.b", "u: lower(a)"),
        ):
            with self.subTest(text=text):
                self.assertEqual(self.found(text), {*wanted})

    def test_what_no_index_of_this_kind_serves_isnt(self) -> None:
        for condition in (
            "lower(a) = $1 OR n = 3",
            "NOT lower(a) = $1",
            "NOT (lower(a) = $1 AND n = 3)",
            "lower(a) <> $1",
            "lower(a) NOT IN ($1, $2)",
            "lower(a) LIKE $1",
            "lower(a) > $1",
            "lower(a || b) = $1",
            "lower(trim(a)) = $1",
            "lower(a) = b",
            "lower(a) = lower(u.b)",
            "lower(r) = 3",
            "other.lower(a) = $1",
            "initcap(a) = $1",
            "lower(x.a) = $1",
            "lower(missing) = $1",
            "(lower(a) = $1) IS TRUE",
        ):
            with self.subTest(condition=condition):
                self.assertEqual(self.found(f"SELECT * FROM u WHERE {condition}"), set())
        for text in (
            "SELECT lower(a) = $1 FROM u GROUP BY 1 HAVING lower(a) = $1",
            "WITH u AS (SELECT 'x' AS a) SELECT * FROM u WHERE lower(a) = $1",
            "SELECT * FROM u AS u(b, a) WHERE lower(a) = $1",
            "SELECT * FROM u, v WHERE lower(a) = $1",
            "SELECT * FROM w WHERE lower(a) = $1",
        ):
            with self.subTest(text=text):
                self.assertEqual(self.found(text), set())


@unittest.skipIf(NO_PARSER, NO_PARSER)
class Told(unittest.TestCase):
    def test_those_that_take_too_much_stand_in_the_summary(self) -> None:
        change = {"numbers": [1], "sql": "SELECT 1", "calls": 9, "seconds": 3.0}
        hint: dict[str, Any] = {"table": "t", "columns": ["lower(a)"], "statements": ["CREATE INDEX;", "ANALYZE;"]}
        hint |= {
            "saves": {"server": 9.0, "planned": 28.5},
            "stored_pages": 256,
            "missing_pages": 128,
            "changes": [change],
        }
        hint |= {"why_not": "it takes 1.0 MB more than the budget leaves"}
        statements: list[dict[str, Any]] = [{"seconds": it, "numbers": [at]} for at, it in enumerate((3.0, 7.0), 1)]
        document: dict[str, Any] = {"hints": [hint], "statements": statements, "picks": []}
        said = "t(lower(a)) saves 28.5 % of the time, but it takes 1.0 MB more than the budget leaves"
        self.assertEqual(hints_shown(document), [f"a hint by the server's planner alone: {said}"])
        self.assertEqual(hints_told(document)[1:], ["  CREATE INDEX;", "  ANALYZE;", f"    2.0 MB; {said}", ""])
        for it in statements:
            it |= {"calls": 1, "server_cost": {"before": 5.0, "after": 5.0}, "sql": f"SELECT {it['numbers'][0]}"}
        self.assertEqual(
            unhelped(document),
            ["no advised index helps statements with 70.0 % of the time, the most of them: SELECT 2"],
        )
        document["hints"] = [hint | {"saves": {"server": it, "planned": None}} for it in (9.0, 8.0, 7.0)]
        self.assertEqual(len(hints_shown(document)), 2)
        self.assertEqual(len(hints_told(document)), 11)
        self.assertIn("t(lower(a)) saves 9.0 % of the cost", hints_shown(document)[0])
        document["hints"] = [hint | {"saves": {"server": 9.0, "planned": 0.9}}]
        self.assertEqual(hints_shown(document), [])
        document["hints"] = [hint | {"why_not": None}]
        self.assertEqual((hints_shown(document), hints_told(document)), ([], []))
        self.assertEqual((hints_shown({}), hints_told({})), ([], []))


@unittest.skipIf(NO_HYPOPG, NO_HYPOPG)
class Advised(OverOwn):
    database, content, given = "tickets", TABLES, {"COPHY_PROGRAM": str(STAND_IN)}

    def advise(self, *more: str, budget: str = "20MB", status: int = 0) -> dict[str, Any]:
        words = ("advise", "--budget", budget, "--folder", str(self.folder / "found"), "--no-curve", *more)
        self.call(*words, status=status)
        found: dict[str, Any] = json.loads(self.told("advice.json"))
        self.assertEqual([*faults(found, SCHEMA, SCHEMA)], [])
        return found

    def told(self, name: str) -> str:
        return (self.folder / "found" / name).read_text()

    def sql(self) -> tuple[str, str]:
        """The words that name the file of the queries."""
        (self.folder / "q.sql").write_text(QUERIES)
        return "--sql", str(self.folder / "q.sql")

    def test_an_index_that_the_planner_takes_is_a_row_and_a_statement_of_the_script(self) -> None:
        self.server.psql("SELECT pg_stat_statements_reset()", self.database)
        self.server.psql(QUERIES * 9, self.database)
        found = self.advise()
        (hint,), picks = found["hints"], found["picks"]
        self.assertEqual((hint["table"], hint["columns"], hint["why_not"]), ("customer_user", ["lower(login)"], None))
        self.assertEqual((hint["statements"], hint["owner"]), ([INDEX, ANALYZE], "cophy"))
        advised = sum(it["caveat"] is None for it in picks)
        self.assertEqual(hint["place"], advised + 1)
        self.assertEqual(sorted([hint["place"], *(it["place"] for it in picks)]), [*range(1, len(picks) + 2)])
        (change,) = hint["changes"]
        self.assertTrue(change["sql"].startswith("SELECT * FROM customer_user WHERE lower(login) = lower("), change)
        saved, part = hint["saves"]["planned"], 100 * change["seconds"] / sum(
            it["seconds"] for it in found["statements"]
        )
        self.assertGreater(saved, part / 2)
        self.assertLessEqual(saved, part)
        summary, details, script = map(self.told, ("summary.txt", "details.txt", "indexes.sql"))
        row = rf"(?m)^ {advised + 1}\. +[\d.]+ +\*{saved:5.1f} %  customer_user\(lower\(login\)\) "
        self.assertRegex(summary, row)
        self.assertEqual(summary.count("* judged by the server's planner alone: outside our model, its bound"), 1)
        self.assertRegex(summary, rf"\AMake these {advised + 1} indexes" if advised else r"\AMake this index")
        self.assertRegex(details, rf"(?m)^{advised + 1}\. {re.escape(INDEX)}\n   {re.escape(ANALYZE)}\n +[\d.]+ MB +- ")
        self.assertIn(
            f"-- {advised + 1}. customer_user(lower(login)): saves {saved:.1f} % of the time by the server's", script
        )
        self.assertLess(script.index(f"--   {INDEX}"), script.index("\n\n"))
        if HAS_JINJA:
            self.assertIn(f"{advised + 1}. customer_user(lower(login))", unescape(self.told("report.html")))
            self.assertIn(INDEX, unescape(self.told("report.html")))
        self.assertFalse([it for it in summary.split("\n") if "helps" in it and "lower(login)" in it])

    def test_one_that_a_rule_leaves_out_isnt_made(self) -> None:
        rules = self.folder / "rules"
        for rule, wanted in (
            ("never public.customer_user.login", []),
            ("never public.*", []),
            ("never public.customer_user(login)", [["lower(login)"]]),
        ):
            rules.write_text(f"{rule}\n")
            with self.subTest(rule=rule):
                found = self.advise(*self.sql(), "--rules", str(rules))
                self.assertEqual([it["columns"] for it in found["hints"]], wanted)

    def test_one_that_takes_too_much_stays_a_hint_that_says_how_much(self) -> None:
        found = self.advise(*self.sql(), budget="0.5MB", status=3)
        (hint,), left = found["hints"], 64 - found["recommended"]["stored_pages"]
        self.assertEqual((found["picks"], hint["place"]), ([], None))
        self.assertEqual(hint["missing_pages"], hint["stored_pages"] - left)
        self.assertEqual((hint["owner"], found["owners"]), ("cophy", []))
        much = f"but it takes {hint['missing_pages'] / 128:.1f} MB more than the budget leaves"
        self.assertIn(much, self.told("summary.txt"))
        self.assertIn(INDEX, self.told("details.txt"))
        self.assertNotIn("lower(", self.told("indexes.sql"))
        if HAS_JINJA:
            self.assertIn(INDEX, unescape(self.told("report.html")))

    def test_a_pick_that_a_limit_walks_along_hides_no_hint(self) -> None:
        rules, own = (
            self.folder / "own.rules",
            "SELECT * FROM customer_user WHERE lower(login) = $1 ORDER BY email LIMIT 5;",
        )
        rules.write_text("must customer_user(email)\n")
        (self.folder / "queries.sql").write_text(own)
        words = ("--sql", str(self.folder / "queries.sql"), "--rules", str(rules))
        found = self.advise(*words)
        (pick,), (hint,) = found["picks"], found["hints"]
        self.assertEqual((pick["columns"], hint["columns"]), (["email"], ["lower(login)"]))
        self.assertEqual((pick["saves"]["server"], hint["why_not"]), (0.0, None))
        self.assertGreater(hint["saves"]["server"], 50)
        self.assertEqual(found["server_cost"]["before"], found["server_cost"]["after"])
        note = (
            "   statement 1 would walk along it in the order of LIMIT, until lower() or upper() of a column matches: "
        )
        self.assertIn(note, self.told("details.txt"))
        # Where no rule asks for it, it isn't recommended.
        (pick,) = self.advise(*words[:2])["picks"]
        self.assertEqual((pick["columns"], pick["caveat"][:22]), (["email"], "the server saves 0.0 %"))

    def test_the_script_makes_it_counts_its_values_and_takes_it_back(self) -> None:
        self.advise(*self.sql())
        script = self.told("indexes.sql")
        (step,) = [it for it in self.told("commands.txt").splitlines() if it.startswith("cophy-pg ddl ")]
        self.assertIn(" --also 'customer_user(lower(login))'", step)
        again = self.call(*shlex.split(step)[1:]).stdout
        self.assertEqual(re.sub("(?m)^-- .*", "", again), re.sub("(?m)^-- .*", "", script))
        self.run_script(script)
        counted = "SELECT n_distinct FROM pg_stats WHERE tablename = 'customer_user_lower_login_idx'"
        self.assertEqual(self.server.value(counted, self.database), "-1")
        self.assertIn("it is there already", self.run_script(script))
        (self.folder / "found").rename(self.folder / "before")
        # Once it is there it is told no more, and another is when it is the server's own function.
        self.server.psql("ALTER FUNCTION public.lower(char) RENAME TO other", self.database)
        back = "ALTER FUNCTION public.other(char) RENAME TO lower"
        self.addCleanup(self.server.psql, back, self.database)
        self.assertEqual([it["columns"] for it in self.advise(*self.sql())["hints"]], [["lower(kind)"]])
        ran = self.call("changes", *self.in_folder("before", "found"), "--json", status=3)
        indexes = json.loads(ran.stdout)["indexes"]
        self.assertEqual(
            [[it["index"] for it in indexes[kind] if "lower" in it["index"]] for kind in ("made", "new", "gone")],
            [["customer_user(lower(login))"], ["customer_user(lower(kind))"], []],
        )
        self.assertIn("_lower_login_idx is dropped", self.run_script(script, "-v", "undo=1"))
        left = "SELECT count(*) FROM pg_class WHERE relname ~ 'lower_login'"
        self.assertEqual(self.server.value(left, self.database), "0")


@unittest.skipIf(NO_HYPOPG, NO_HYPOPG)
class Made(OverOwn):
    """Scripts that make indexes over functions, on tables of all kinds."""

    database = "made"
    content = """CREATE TABLE plain ("Name" varchar(80), "order" text, c char(5));
    INSERT INTO plain SELECT 'N' || i, 'o' || i, 'c' FROM generate_series(1, 3000) i;
    CREATE TABLE parted (kind int, note text) PARTITION BY LIST (kind);
    CREATE TABLE one PARTITION OF parted FOR VALUES IN (1); CREATE TABLE two PARTITION OF parted FOR VALUES IN (2);
    CREATE TABLE parent (id int, a text); CREATE TABLE child () INHERITS (parent);
    CREATE FUNCTION public.lower(char) RETURNS text LANGUAGE sql IMMUTABLE AS $$ SELECT 'k' $$;
    ANALYZE;
    """
    given = {"COPHY_PROGRAM": str(STAND_IN)}
    names = """SELECT c.relname || CASE WHEN i.indisvalid THEN '' ELSE ' INVALID' END FROM pg_index i
    JOIN pg_class c ON c.oid = i.indexrelid JOIN pg_namespace n ON n.oid = c.relnamespace
    WHERE n.nspname = 'public' ORDER BY 1"""

    def script(self, *also: str, more: str = "") -> str:
        files = self.in_folder("c.toml", "l.sql", "q.sql")
        (self.folder / "q.sql").write_text(
            f"SELECT note FROM parted; SELECT id FROM parent; SELECT c FROM plain; {more}"
        )
        self.call("export", *files[:2], "--sql", files[2])
        words = [word for it in also for word in ("--also", it)]
        return self.call("ddl", files[0], self.lay_advice(()), "--script", *words).stdout

    def made(self) -> list[str]:
        return self.server.value(self.names, self.database).splitlines()

    def test_each_is_made_once_and_anew_where_it_was_left_invalid(self) -> None:
        text = self.script("plain(lower(Name))", "plain(upper(order))", "parted(lower(note))", "parent(lower(a))")
        self.run_script(text)
        made = self.made()
        self.assertEqual(len(made), 2 + 3 + 2, made)
        self.assertFalse([it for it in made if it.endswith("INVALID")])
        self.assertEqual(self.run_script(text).count("it is there already"), 5)
        spoil = "UPDATE pg_index SET indisvalid = false WHERE indexrelid = '{}'::regclass;"
        broken = ('"plain_lower_Name_idx"', "plain_upper_order_idx")
        self.server.psql("".join(map(spoil.format, broken)), self.database)
        self.assertEqual(self.run_script(text).count("an earlier run left it INVALID"), 2)
        self.assertEqual(self.made(), made)
        self.run_script(text, "-v", "undo=1")
        self.assertEqual(self.made(), [])

    def test_two_of_a_partitioned_table_are_made_and_a_new_partition_needs_no_more(self) -> None:
        table = """CREATE TABLE customer_user_log (kind int, note text, name text) PARTITION BY LIST (kind);
        CREATE TABLE log_1 PARTITION OF customer_user_log FOR VALUES IN (1)"""
        self.server.psql(table, self.database)
        self.addCleanup(self.server.psql, "DROP TABLE customer_user_log", self.database)
        both = [f"customer_user_log(lower({it}))" for it in ("note", "name")]
        text = self.script(*both, more="SELECT note FROM customer_user_log;")
        self.run_script(text)
        self.assertEqual(len(self.made()), 4, self.made())
        new = "CREATE TABLE log_2 PARTITION OF customer_user_log FOR VALUES IN (2)"
        self.server.psql(new, self.database)
        self.assertEqual(self.run_script(text).count("it is there already"), 2)
        made = self.made()
        self.assertEqual(len(made), 6, made)
        self.assertFalse([it for it in made if it.endswith("INVALID") or len(it) > 63])
        self.run_script(text, "-v", "undo=1")
        self.assertEqual(self.made(), [])

    def test_another_index_of_that_name_is_left_alone(self) -> None:
        text = self.script("plain(lower(c))")
        for other in (
            "c",
            "pg_catalog.upper(c)",
            "public.lower(c)",
            'pg_catalog.lower("order")',
            'pg_catalog.lower(c), "Name"',
        ):
            with self.subTest(other=other):
                self.server.psql(f"CREATE INDEX plain_lower_c_idx ON plain ({other})", self.database)
                self.assertIn("its name is taken by another", self.run_script(text, status=3))
                self.run_script(text, "-v", "undo=1")
                self.assertEqual(self.made(), ["plain_lower_c_idx"])
                self.server.psql("DROP INDEX plain_lower_c_idx", self.database)

    def test_one_that_was_to_be_unique_or_is_partial_or_no_tree_is_left_alone(self) -> None:
        text = self.script("plain(lower(c))")
        for kind, method, end in (("UNIQUE", "btree", ""), ("", "btree", "WHERE c = 'c'"), ("", "hash", "")):
            with self.subTest(kind=kind, method=method, end=end):
                columns = f"USING {method} (pg_catalog.lower(c))"
                other = f"CREATE {kind} INDEX CONCURRENTLY plain_lower_c_idx ON plain {columns} {end}"
                self.server.psql(other, self.database, check=False)
                made = self.made()
                self.assertEqual(len(made), 1)
                self.assertIn("its name is taken by another", self.run_script(text, status=3))
                self.run_script(text, "-v", "undo=1")
                self.assertEqual(self.made(), made)
                self.server.psql("DROP INDEX plain_lower_c_idx", self.database)

    def test_one_that_another_session_is_making_is_left_alone(self) -> None:
        text = self.script("plain(lower(c))")
        words = [
            str(program("psql")),
            "-X",
            "-c",
            "CREATE INDEX CONCURRENTLY plain_lower_c_idx ON plain (lower(c::text))",
        ]
        waits = "SELECT count(*) FROM pg_stat_progress_create_index WHERE index_relid <> 0"
        with self.held("UPDATE plain SET c = c WHERE c = 'c'"):
            given = self.server.environment(self.database)
            other = subprocess.Popen(words, stdout=subprocess.DEVNULL, stderr=subprocess.DEVNULL, env=given)
            until(lambda: self.server.value(waits, self.database) == "1", "another session makes the index")
            self.assertIn("its name is taken by another", self.run_script(text, status=3))
            self.run_script(text, "-v", "undo=1")
        self.assertEqual(other.wait(LONG), 0)
        self.assertEqual(self.made(), ["plain_lower_c_idx"])
        self.server.psql("DROP INDEX plain_lower_c_idx", self.database)

    def test_a_column_that_is_named_as_a_cast_is_known_again(self) -> None:
        self.server.psql('CREATE TABLE cast_to ("x::text)y" text, "z::text)" varchar)', self.database)
        self.addCleanup(self.server.psql, "DROP TABLE cast_to", self.database)
        both = ("cast_to(lower(x__text_y))", "cast_to(lower(z__text_))")
        text = self.script(*both, more="SELECT 1 FROM cast_to;")
        self.run_script(text)
        self.assertEqual(self.run_script(text).count("it is there already"), 2)
        self.run_script(text, "-v", "undo=1")
        self.assertEqual(self.made(), [])

    def test_other_words_are_refused(self) -> None:
        for word in ("plain(c)", "plain(trim(c))", "plain(lower(c)), x(lower(c))"):
            self.call("ddl", "c", "a", "--also", word, status=2)


if __name__ == "__main__":
    unittest.main()
