"""Files of SQL, which are cut into statements whatever stands in them."""
from __future__ import annotations

import itertools
import signal
import subprocess
import sys
import unittest
from pathlib import Path
from typing import Any
from unittest import mock

from fixtures import NO_PARSER

if not NO_PARSER:
    from cophy_pg import inputs, paths, pieces


def texts(given: str) -> list[str]:
    return [it.text for it in inputs.from_sql(given.encode())]


@unittest.skipIf(NO_PARSER, NO_PARSER)
class Pieces(unittest.TestCase):
    def test_sql_is_cut_into_statements_with_their_weights(self) -> None:
        found = inputs.from_sql(
            b"\xef\xbb\xbf\\set aid 5\n-- weight 40\nSELECT ';' FROM t; -- weight 3\n/* -- weight 8 */ SELECT :aid, x::text, ':q';;\n"
            b"SELECT 2 -- weight 9\n; select 3"
        )
        self.assertEqual([it.calls for it in found], [40, 3, 1, 9])
        self.assertIn("SELECT $1, x::text, ':q'", found[1].text)

    def test_a_bad_statement_costs_itself_alone(self) -> None:
        for bad in (
            "SELEC 1",
            "SELECT (1",
            "SELECT 1)",
            "SELECT 'open",
            'SELECT "open',
            "SELECT $q$open",
            "SELECT E'open\\'",
            "SELECT $x",
            "SELECT 'a;b' FROM FROM",
            "SELECT /* open",
            "WITH x AS (SELECT 1",
            "SELECT 1 FROM t WHERE",
            ")",
            "\x01",
        ):
            with self.subTest(bad=bad):
                given = f"SELECT a FROM t;\n{bad};\nSELECT b FROM t;\nSELECT c FROM t;\n"
                found = texts(given)
                self.assertEqual([found[0], *found[2:]], ["SELECT a FROM t", "SELECT b FROM t", "SELECT c FROM t"])
                self.assertEqual(len(found), 4)

    def test_bad_statements_one_after_another_are_counted(self) -> None:
        found = texts("SELECT (a;\nSELECT b);\nSELEC 'c;';\nSELECT 1;\nSELEC;\nSELECT 'd")
        self.assertEqual((len(found), found[3]), (6, "SELECT 1"))

    def test_statements_that_hold_semicolons_are_whole(self) -> None:
        whole = [
            "SELECT ';\n' FROM t",
            "SELECT E'\\';\n' FROM t",
            'SELECT ";\n" FROM t',
            "SELECT $$;\n$$ FROM t",
            "SELECT $a$;\n$$;\n$a$ FROM t",
            "SELECT /* ; /* ;\n */ ;\n */ 1 FROM t",
            "/* a /* b; */ c; */ -- d;\n SELECT 5",
            "CREATE FUNCTION f() RETURNS int LANGUAGE sql AS $f$ SELECT 1;\nSELECT 2; $f$",
            "CREATE FUNCTION f() RETURNS int BEGIN ATOMIC SELECT CASE WHEN true THEN 1 END;\nSELECT 2;\nEND",
        ]
        found = texts(";\n".join([*whole, "SELECT 9"]))
        self.assertEqual(found, [*(it[it.find("SELECT 5") :] if "SELECT 5" in it else it for it in whole), "SELECT 9"])

    def test_lines_are_those_of_the_first_token(self) -> None:
        given = "-- a\n\nSELECT 1;\n/* b\n*/ SELECT\n2; SELECT 3;\n\nSELEC;\r\n\\set x 1\nSELECT 4"
        found = inputs.from_sql(given.encode())
        self.assertEqual([it.line for it in found], [3, 5, 6, 8, 10])

    def test_commands_and_variables_of_psql_are_taken_as_psql_does(self) -> None:
        given = (
            "\\set a 5\n\\timing on\nSELECT a FROM t WHERE a = :a \\gx\nSELECT ':a', \"b\" FROM t WHERE c = :'v'\\g out.txt\n"
            "SELECT 'a\n\\b' FROM t;\nSELECT 1 \\; SELECT 2;\n\\watch 5\nSELECT 3 -- \\g\n;"
        )
        self.assertEqual(
            texts(given),
            [
                "SELECT a FROM t WHERE a = $1",
                "SELECT ':a', \"b\" FROM t WHERE c = $1",
                "SELECT 'a\n\\b' FROM t",
                "SELECT 1",
                "SELECT 2",
                "SELECT 3 -- \\g",
            ],
        )

    def test_what_ends_nowhere_is_read_a_few_times_at_most(self) -> None:
        good = f"SELECT a FROM t WHERE b IN ({', '.join(['1'] * 3000)});\n"
        for bad in ("INSERT INTO t VALUES ('it\\'s');", "SELECT /*;", "SELECT $x{}$;", "SELECT 'a;", 'SELECT "a;'):
            with self.subTest(bad=bad):
                given = good + "".join(bad.format(at) + "\n" for at in range(801)) + "SELECT b FROM t;\n"
                with (
                    mock.patch.object(pieces, "FREE", 2000),
                    mock.patch.object(pieces, "_without", wraps=pieces._without) as cut,
                    mock.patch.object(pieces, "_parses", wraps=pieces._parses) as parsed,
                ):
                    found = [*pieces.pieces(given)]
                self.assertLess(sum(len(it.args[0]) for it in cut.call_args_list), 4 * len(given))
                self.assertLess(sum(len(it.args[0]) for it in parsed.call_args_list), 8 * len(given))
                self.assertEqual((found[0].text + ";\n", found[-1].text), (good, "SELECT b FROM t"))
                self.assertGreater(len(found), 400)

    def test_data_of_copy_that_end_nowhere_are_looked_for_once(self) -> None:
        with mock.patch.object(pieces, "_data", wraps=pieces._data) as looked:
            found = [*pieces.pieces("COPY t FROM STDIN;\n1\n\\.\n" + "COPY t FROM STDIN;\n" * 50)]
        self.assertEqual((len(found), looked.call_count), (51, 1))

    def test_patterns_are_matched_in_time_that_grows_with_the_text(self) -> None:
        """Each of these takes hours where a pattern tries the rest of the text at each place anew."""

        def late(number: int, frame: Any) -> None:
            raise AssertionError("it goes on and on")

        before = signal.signal(signal.SIGALRM, late)
        try:
            signal.alarm(300)
            self.assertIsNone(pieces._readable("SELECT :x FROM " + "/* " * 500000))
            self.assertEqual(paths.path_set_by("SET search_path = a" + " " * 50000 + "b ; "), ("a", "b"))
            self.assertIsNone(paths.path_set_by("RESET ALL" + " " * 200000 + "b"))
            said = "ERROR:  LOG:  execute " + "parse " * 100000 + "x: SELECT 1\n"
            self.assertEqual([it.text for it in inputs.from_log(said.encode())], ["SELECT 1"])
        finally:
            signal.alarm(0)
            signal.signal(signal.SIGALRM, before)

    def test_long_texts_take_no_memory_for_each_byte(self) -> None:
        size = 2_000_000
        script = "import resource, sys; sys.path[:0] = sys.argv[1:]; from cophy_text.tokens import tokens; "
        script += f"text = b\"SELECT '\" + b'a' * {size} + b\"' /* \" + b'b' * {size} + b'*/ c'; "
        script += "resource.setrlimit(resource.RLIMIT_AS, (200 << 20, 200 << 20)); "
        script += "print([len(it.text) for it in tokens(text)])"
        words = [sys.executable, "-IB", "-c", script, str(Path(__file__).resolve().parent.parent / "common")]
        ran = subprocess.run(words, capture_output=True, text=True, check=False)
        self.assertEqual((ran.stdout, ran.stderr), (f"[6, {size + 2}, 1]\n", ""))

    def test_weights_stand_before_good_and_bad_statements(self) -> None:
        given = b"-- weight 5\nSELEC 1;\n-- weight 7\nSELECT 2;\nSELECT 3 -- weight 9\n; SELECT 4;\n-- weight 99999999999999999999\nSELECT 5"
        self.assertEqual([it.calls for it in inputs.from_sql(given)][:4], [5, 7, 1, 9])

    def test_data_after_copy_are_rows_and_no_statements(self) -> None:
        given = b"COPY t (a) FROM STDIN;\n1;\nit's\n\\N\n\\.\nSELECT 1;\nCOPY t FROM STDIN;\nSELECT 2;"
        found = inputs.from_sql(given)
        self.assertEqual(
            [it.text for it in found], ["COPY t (a) FROM STDIN", "SELECT 1", "COPY t FROM STDIN", "SELECT 2"]
        )
        self.assertEqual([it.rows for it in found], [3, None, None, None])

    def test_a_path_that_is_set_holds_for_what_comes_after(self) -> None:
        given = b"SELECT 1; SET search_path TO a, \"B c\"; SELECT 2; set local search_path = 'd'; SELECT 3; RESET search_path; SELECT 4"
        found = {it.text: it.path for it in inputs.from_sql(given) if it.text.startswith("SELECT")}
        self.assertEqual([*found.values()], [None, ("a", "B c"), ("d",), None])

    def test_no_text_makes_it_fail(self) -> None:
        parts = [
            "'",
            '"',
            "$$",
            "$a$",
            "/*",
            "*/",
            "--",
            "\n",
            ";",
            "(",
            ")",
            "\\",
            "SELECT",
            " 1",
            "E'",
            "\xff",
            "\\g",
            "BEGIN ATOMIC",
        ]
        for some in itertools.islice(itertools.product(parts, repeat=3), 0, None, 5):
            text = "SELECT 7;\n" + " ".join(some) + "\n;\nSELECT 8;"
            found = inputs.from_sql(text.encode("latin-1"))
            self.assertEqual(found[0].text, "SELECT 7", text)
            self.assertLessEqual(len(found), 6)


if __name__ == "__main__":
    unittest.main()
