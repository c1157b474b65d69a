"""`cophy-pg effect`: which indexes of a folder are there, and what came of them by the planner and by the clock."""
from __future__ import annotations

import json
import os
import shutil
import subprocess
import unittest
from typing import Any
from unittest import mock

from fixtures import NO_HYPOPG, NO_PARSER, ROOT, STAND_IN, TOOL, OverOwn
from patience import LONG
from schema_check import faults

if not NO_PARSER:
    from cophy_pg.ddl import Laid, Made, Named
    from cophy_pg.effect import Given, described
    from cophy_pg.folder import Folder
    from cophy_pg.standing import Found, shown_column, state_of
    from cophy_pg.standing import Standing as Stands
    from cophy_text.answers import Candidate

SCHEMA = json.loads((ROOT / "tools" / "pg" / "cophy_pg" / "effect.schema.json").read_text())
MADE = """CREATE EXTENSION pg_stat_statements;
CREATE TABLE t AS SELECT i AS a, i % 700 AS b, i % 90 AS c, repeat('x', 90) AS d FROM generate_series(1, 30000) i;
CREATE TABLE part (k int, v int, d text) PARTITION BY RANGE (k);
CREATE TABLE part_1 PARTITION OF part FOR VALUES FROM (0) TO (50);
CREATE TABLE part_2 PARTITION OF part FOR VALUES FROM (50) TO (100);
INSERT INTO part SELECT i % 100, i % 9000, repeat('x', 90) FROM generate_series(1, 30000) i;
CREATE TABLE person AS SELECT i AS id, 'Name ' || i AS "Log in", repeat('y', 90) AS d FROM generate_series(1, 30000) i;
ANALYZE;
"""
STATEMENTS = """SELECT a /* \x1b[2J\x9b */ FROM t WHERE b = 5;
SELECT d FROM part WHERE v = 7;
SELECT id FROM person WHERE lower("Log in") = 'name 7';
"""


@unittest.skipIf(NO_PARSER, NO_PARSER)
class Standing(unittest.TestCase):
    """How a pick stands, by indexes that were found."""

    def found(self, name: str, *columns: str, **more: Any) -> Found:
        flags = {"is_valid": True, "is_clustered": False, "is_plain": True, "is_btree": True, "is_being_made": False}
        table = more.pop("table", ("s", "t"))
        return Found(("s", name), table, columns=[*columns], scans=3, **flags | more)

    def made(self, *tables: str, laid: Laid | None = None) -> Made:
        indexes = (Named(f"{it}_a_b_idx", ("s", it), ["a", "b"], 2, True) for it in tables)
        return Made(Candidate(1, "t", ("a", "b"), 9), (*indexes,), laid=laid)

    def test_an_index_goes_by_its_name_and_what_it_is_over(self) -> None:
        one = self.made("t")
        table: list[tuple[list[Found], tuple[str, int]]] = [
            ([], ("not made", 0)),
            ([self.found("t_a_b_idx", "a", "b")], ("there", 3)),
            ([self.found("t_a_b_idx", "a", "b", is_valid=False)], ("INVALID", 3)),
            ([self.found("t_a_b_idx", "a", "b", is_valid=False, is_being_made=True)], ("being made", 3)),
            ([self.found("t_a_b_idx", "b", "a")], ("name taken", 0)),
            ([self.found("t_a_b_idx", "a", "b", table=("s", "u"))], ("name taken", 0)),
            ([self.found("t_a_b_idx", "a", "b", is_plain=False)], ("name taken", 0)),
            ([self.found("t_a_b_idx", table=("", ""), is_plain=False)], ("name taken", 0)),
            # One over the same by another name serves as well, if it is one of this kind.
            ([self.found("mine", "a", "b")], ("there", 3)),
            ([self.found("t_a_b_idx", "b"), self.found("mine", "a", "b")], ("there", 3)),
            ([self.found("mine", "a", "b", is_valid=False)], ("not made", 0)),
            ([self.found("mine", "a", "b", is_btree=False)], ("not made", 0)),
            ([self.found("mine", "a", "b", "c")], ("not made", 0)),
        ]
        for found, state in table:
            with self.subTest(found=found):
                self.assertEqual(state_of(one, found), state)

    def test_of_several_indexes_the_worst_is_told_and_all_scans_count(self) -> None:
        two, first = self.made("t", "u"), self.found("t_a_b_idx", "a", "b")
        other = {"table": ("s", "u")}
        self.assertEqual(state_of(two, [first]), ("not made", 3))
        self.assertEqual(state_of(two, [first, self.found("u_a_b_idx", "a", "b", **other)]), ("there", 6))
        invalid = self.found("u_a_b_idx", "a", "b", is_valid=False, **other)
        self.assertEqual(state_of(two, [first, invalid])[0], "INVALID")

    def test_rows_lie_in_the_order_of_an_index_or_dont(self) -> None:
        laid = Laid(("s", "t"), "t_a_b_idx")
        for made in (self.made("t", laid=laid), self.made(laid=laid)):
            for is_clustered, state in ((True, ("there", 3)), (False, ("not clustered", 3))):
                found = [self.found("t_a_b_idx", "a", "b", is_clustered=is_clustered)]
                self.assertEqual(state_of(made, found), state)
        self.assertEqual(state_of(self.made("t", laid=laid), []), ("not made", 0))

    def test_a_function_of_a_column_is_shown_without_quotes_and_cast(self) -> None:
        shown = {
            "lower(a)": "lower(a)",
            'lower("Log in")': "lower(Log in)",
            'upper("a""b"::text)': 'upper(a"b)',
            "lower(a::text)": "lower(a)",
            "plain": "plain",
        }
        self.assertEqual([shown_column(it) for it in shown], [*shown.values()])


@unittest.skipIf(NO_PARSER, NO_PARSER)
class Asked(unittest.TestCase):
    """What is asked for of what a script makes, and what is shown."""

    def given(self, *rows: tuple[str, bool]) -> Given:
        """What the script makes, each as it stands, and whether it is recommended."""
        pick = {"table": "t", "columns": ["a"], "name": "i"}
        stands = [
            Stands(at, pick | {"caveat": None if is_asked else "it saves 0.4 %"}, state, 0)
            for at, (state, is_asked) in enumerate(rows, 1)
        ]
        document = {"database": "d", "made": "", "options": {"source": "sql"}, "owners": [], "picks": []}
        return Given(Folder("/f"), document, stands, mock.Mock())

    def shown(self, *rows: tuple[str, bool]) -> tuple[list[int], bool]:
        given = self.given(*rows)
        with mock.patch("cophy_pg.effect.made_by", return_value="psql"):
            document = described(given)
        self.assertEqual(document["make"], [] if given.is_all_there() else ["psql"])
        return [it["place"] for it in document["indexes"]], given.is_all_there()

    def test_what_isnt_recommended_is_shown_where_it_is_there(self) -> None:
        self.assertEqual(self.shown(("there", True), ("not made", False)), ([1], True))
        self.assertEqual(self.shown(("INVALID", True), ("there", False)), ([1, 2], False))

    def test_where_nothing_is_recommended_all_are_asked_for(self) -> None:
        self.assertEqual(self.shown(("there", False), ("not made", False)), ([1, 2], False))
        self.assertEqual(self.shown(("there", False)), ([1], True))
        self.assertEqual(self.shown(), ([], True))


@unittest.skipIf(NO_HYPOPG, NO_HYPOPG)
class Effect(OverOwn):
    """From the advice of a stand-in for the program to indexes that are there, and back."""

    database, content = "seen", MADE
    given = {"COPHY_PROGRAM": str(STAND_IN)}

    def advise(self, *more: str, statements: str = STATEMENTS) -> str:
        """What advice prints; the path of its folder is `found`."""
        self.server.psql("SELECT pg_stat_statements_reset()", self.database)
        self.server.psql(statements * 9, self.database)
        self.found = str(self.folder / "advice of today")
        words = ("advise", "--budget", "20MB", "--no-curve", "--folder", self.found)
        return self.call(*words, *more).stdout

    def effect(self, status: int = 0) -> dict[str, Any]:
        """The document of a call."""
        found: dict[str, Any] = json.loads(self.call("effect", self.found, "--json", status=status).stdout)
        self.assertEqual([*faults(found, SCHEMA, SCHEMA)], [])
        return found

    def states(self, status: int = 0) -> list[str]:
        """How those of t, of part and of person stand."""
        by_table = {it["index"].partition("(")[0]: it["state"] for it in self.effect(status)["indexes"]}
        return [by_table[it] for it in ("t", "part", "person")]

    def undo(self) -> None:
        self.server.psql("DROP INDEX IF EXISTS t_b_idx, part_v_idx, mine", self.database)
        self.run_script(self.script(), "-v", "undo=1")

    def script(self) -> str:
        return (self.folder / "advice of today" / "indexes.sql").read_text()

    def test_from_the_advice_to_the_times(self) -> None:
        summary = self.advise()
        then = f"whether it helped: cophy-pg effect '{self.found}'"
        self.assertEqual(summary.splitlines()[-1], then)
        kept = self.folder / "advice of today" / "effect.json"
        text = self.call("effect", self.found, status=3).stdout
        begin = (
            "None of the 3 indexes is there.\nBy the server's planner the statements would take 0.0 % less of the time "
        )
        self.assertTrue(text.startswith(begin), text)
        self.assertIn(" with all.\n", text)
        self.assertEqual(text.count("      not made  "), 3)
        self.assertIn(text.splitlines()[-1], summary.splitlines())
        self.assertFalse(kept.exists())
        self.addCleanup(self.undo)
        self.run_script(self.script())
        found = self.effect()
        indexes = {it["index"] for it in found["indexes"]}
        self.assertEqual(indexes, {"t(b)", "part(v)", "person(lower(Log_in))"})
        self.assertEqual([(it["place"], it["scans"]) for it in found["indexes"]], [(1, 0), (2, 0), (3, 0)])
        self.assertEqual((found["counted"]["begin"], found["counted"]["statements"]), ("advice", []))
        self.assertNotIn("SELECT", kept.read_text())
        self.assertEqual(kept.stat().st_mode & 0o777, 0o600)
        self.server.psql(STATEMENTS * 5, self.database)
        found = self.effect()
        scans = {it["index"]: it["scans"] for it in found["indexes"]}
        self.assertEqual(scans, {"t(b)": 5, "part(v)": 10, "person(lower(Log_in))": 5})
        counted, cost = found["counted"], found["server_cost"]
        self.assertEqual((counted["begin"], counted["calls"]), ("indexes", 15))
        self.assertLess(counted["since"], counted["before"])
        self.assertEqual({it["helped"] for it in counted["statements"]}, {True})
        self.assertLess(cost["now"], cost["before"] / 2)
        text = self.call("effect", self.found).stdout
        self.assertTrue(text.startswith("All 3 indexes are there, 3 of them in use.\n"), text)
        self.assertTrue("".join(text.split("\n")).isprintable())
        self.assertIn("  SELECT a /* ?[2J? */ FROM t WHERE b = $1\n", text)

    def test_what_isnt_there_or_has_another_name(self) -> None:
        self.advise()
        self.addCleanup(self.undo)
        self.run_script(self.script())
        self.assertEqual(self.states(), ["there"] * 3)
        self.server.psql(STATEMENTS, self.database)
        spoil = "UPDATE pg_index SET indisvalid = false WHERE indexrelid = '{}'::regclass"
        self.server.psql(spoil.format("t_b_idx"), self.database)
        self.assertEqual(self.states(status=3), ["INVALID", "there", "there"])
        found = self.effect(status=3)
        # Since not all stood since then, it isn't counted from there on, but from when these are found.
        self.assertEqual((found["counted"]["begin"], found["counted"]["calls"]), ("advice", 2))
        self.server.psql(STATEMENTS * 3, self.database)
        found = self.effect(status=3)
        self.assertEqual((found["counted"]["begin"], found["counted"]["calls"]), ("indexes", 6))
        self.server.psql("DROP INDEX t_b_idx; CREATE INDEX mine ON t (b); DROP INDEX part_v_idx", self.database)
        self.assertEqual(self.states(status=3), ["there", "not made", "there"])
        self.server.psql(
            "DROP INDEX mine; CREATE INDEX t_b_idx ON t (c); CREATE INDEX part_v_idx ON ONLY part (v)", self.database
        )
        self.assertEqual(self.states(status=3), ["name taken", "INVALID", "there"])

    def test_what_no_index_touches_is_seen_beside(self) -> None:
        other = "SELECT max(d) FROM t;"
        self.advise(statements=STATEMENTS + other)
        self.addCleanup(self.undo)
        self.run_script(self.script(), "-v", "without=3")
        self.assertNotIn("others", self.effect(status=3)["counted"])
        self.server.psql((STATEMENTS + other) * 9, self.database)
        counted = self.effect(status=3)["counted"]
        self.assertEqual(counted["begin"], "indexes")
        # Whom the index isn't made for is as it was, too. By chance these two don't agree.
        if others := counted.get("others"):
            self.assertEqual((others["statements"], others["calls"]), (2, 18))
            self.assertGreater(others["ratio"], 0)
        kept = json.loads((self.folder / "advice of today" / "effect.json").read_text())
        self.assertEqual(kept["stood"], [1, 2])
        self.server.psql("DROP INDEX t_b_idx, part_v_idx", self.database)
        self.undo()
        self.effect(status=3)
        self.assertFalse((self.folder / "advice of today" / "effect.json").exists())

    def test_the_last_folder_here_says_where_the_server_is(self) -> None:
        self.advise()
        for name in ("cophy-advice-20260101-000000", "cophy-advice-20260102-000000", "cophy-advice-20260103-000000"):
            (self.folder / name).mkdir(0o700)
        shutil.copytree(self.found, self.folder / "cophy-advice-20260102-000000", dirs_exist_ok=True)
        given = {it: value for it, value in os.environ.items() if not it.startswith("PG")} | {"HOME": "/nowhere"}
        words = [str(TOOL), "effect", "--json"]
        ran = subprocess.run(
            words, cwd=self.folder, env=given, capture_output=True, text=True, check=False, timeout=LONG
        )
        self.assertEqual(ran.returncode, 3, ran.stderr)
        self.assertEqual(json.loads(ran.stdout)["database"], "seen")

    def test_statements_of_a_file_have_no_times(self) -> None:
        (self.folder / "given.sql").write_text("SELECT a FROM t WHERE b = 5;\n")
        self.advise("--sql", *self.in_folder("given.sql"))
        text = self.call("effect", self.found, status=3).stdout
        self.assertIn("The statements came from a file, so no times are compared.\n", text)
        self.assertIsNone(self.effect(status=3)["counted"])

    def test_what_it_cant_do(self) -> None:
        self.advise()
        another = "the folder is of the database 'seen', and this one is 'postgres'"
        table: list[tuple[str, dict[str, str], str]] = [
            (self.found, {"PGUSER": "cophy"}, "explain statements as a superuser"),
            (self.found, {"PGDATABASE": "postgres"}, another),
            ("/nowhere", {}, "/nowhere/advice.json"),
        ]
        for name, more, said in table:
            with self.subTest(said=said):
                self.assertIn(said, self.call("effect", name, status=1, **more).stderr)
        self.assertIn("no folder of advise is here", self.call("effect", status=1).stderr)
        self.call("effect", self.found, "--i-trust-the-statements", status=3, PGUSER="cophy")


if __name__ == "__main__":
    unittest.main()
