"""`cophy-pg rules`: rules with PostgreSQL's names, and what becomes of them."""
from __future__ import annotations

import subprocess
import unittest

from cophy_text.rules import Rule, read_rule, rules_in, why_not
from fixtures import NO_PARSER, TOOL, InFolder
from patience import LONG

if not NO_PARSER:
    from cophy_pg.catalogue import read_schema
    from cophy_pg.rules import Translation


def column(name: str, ours: str = "", more: str = "") -> str:
    return (
        f'[[table.column]]\nname = "{name}"\nkind = "int"\nwidth = 4\n' + (f'postgres = "{ours}"\n' * bool(ours)) + more
    )


def table(name: str, ours: str, *columns: str) -> str:
    head = f'[[table]]\nname = "{name}"\nrows = 100\npages = 9\nmay_cluster = true\n'
    head += f"postgres = [{ours}]\n" * bool(ours)
    return head + "".join(columns)


CATALOGUE = "version = 2\n" + "".join(
    (
        table(
            "customer", "", column("id"), column("city"), '[[table.index]]\nname = "pk"\nkeys = ["id"]\nunique = true\n'
        ),
        table(
            "orders",
            '"sales", "orders"',
            column("id"),
            column("city"),
            column("note", more='postgres_no_key = "a point"\n'),
        ),
        table("Order_Lines", '"sales", "Order Lines"', column("Item_No", "Item No"), column("id")),
        table("audit_log", '"audit", "log"', column("at")),
        table("audit_old", '"audit", "old"', column("at"), column("log")),
        table("log", "", column("at"), column("id")),
    )
)


class Lines(unittest.TestCase):
    """The lines that the program takes."""

    def test_each_form_is_taken_apart_and_written_again(self) -> None:
        for line, rule in (
            ("must t(c)", Rule("must", "t", ("c",))),
            ("never t(c, d2, _e)", Rule("never", "t", ("c", "d2", "_e"))),
            ("must t(c) clustered", Rule("must", "t", ("c",), is_clustered=True)),
            ("never t", Rule("never", "t")),
            ("never t.c", Rule("never", "t", column="c")),
            ("must t(a, b, c, d, e, f, g, h)", Rule("must", "t", tuple("abcdefgh"))),
        ):
            with self.subTest(line=line):
                self.assertEqual((read_rule(line), rule.line()), (rule, line))

    def test_other_forms_are_none_and_say_why(self) -> None:
        for line, why in (
            ("must t", "is an index"),
            ("must t.c", "is an index"),
            ("never  t", "the forms are"),
            (" never t", "no blank stands at its begin"),
            ("never t(c,d)", "one space behind each comma"),
            ("never t(c, d )", "one space behind each comma"),
            ("never t(c) Clustered", "one space behind each comma"),
            ("never t clustered", "the forms are"),
            ("never s.t(c)", "cophy-pg rules"),
            ("never s.t.c", "cophy-pg rules"),
            ('never "t"', "cophy-pg rules"),
            ("never t_*", "cophy-pg rules"),
            ("Never t", "begins with never in small letters"),
            ("forbid t", "begins with must or never"),
            ("never t\r", "no carriage return"),
            ("must t(a, b, c, d, e, f, g, h, i)", "at most 8"),
            ("never " + "t" * 65, "the forms are"),
        ):
            with self.subTest(line=line):
                self.assertIsNone(read_rule(line))
                self.assertIn(why, why_not(line))

    def test_comments_and_empty_lines_are_passed_over_and_an_open_one_is_none(self) -> None:
        found = list(rules_in(b"# a\n\nnever t\nnever u"))
        self.assertEqual(found, [(3, "never t", Rule("never", "t")), (4, "never u", None)])
        self.assertIn("line feed", why_not("never u"))
        self.assertEqual(list(rules_in(b"")), [])


@unittest.skipIf(NO_PARSER, NO_PARSER)
class Translated(unittest.TestCase):
    def translation(self, given: str, skips_unknown: bool = False) -> Translation:
        made = Translation(read_schema(CATALOGUE.encode()), skips_unknown)
        made.take(given)
        return made

    def translated(self, given: str) -> list[str]:
        """The rules without the comments; each is one of the program."""
        made = self.translation(given)
        self.assertEqual((made.remarks, made.faults), ([], []))
        found = [it for it in made.lines if not it.startswith("#")]
        for it in found:
            self.assertIsNotNone(read_rule(it), it)
        return found

    def test_names_are_those_of_the_catalogue(self) -> None:
        table = [
            ("must customer(city)", ["must customer(city)"]),
            ("MUST Public.CUSTOMER ( City , ID ) clustered", ["must customer(city, id) clustered"]),
            ('never "Order Lines"("Item No", id)', ["never Order_Lines(Item_No, id)"]),
            ('never sales . "Order Lines"', ["never Order_Lines"]),
            ('never sales."Order Lines"."Item No"', ["never Order_Lines.Item_No"]),
            ("never orders.note", ["never orders.note"]),
            ("never log", ["never log"]),
            ("never log.at", ["never log.at"]),
            ("never audit.log.at", ["never audit_log.at"]),
        ]
        for line, rules in table:
            with self.subTest(line=line):
                self.assertEqual(self.translated(line + "\n"), rules)

    def test_a_pattern_stands_for_each_table(self) -> None:
        table = [
            ("never audit.*", ["never audit_log", "never audit_old"]),
            ("never o*", ["never orders", "never audit_old"]),
            ("never s*.?rders", ["never orders"]),
            ("never *.city", ["never customer.city", "never orders.city"]),
            ("never *.*.at", ["never audit_log.at", "never audit_old.at", "never log.at"]),
            ("never *(id, city)", ["never customer(id, city)", "never orders(id, city)"]),
        ]
        for line, rules in table:
            with self.subTest(line=line):
                self.assertEqual(self.translated(line + "\n"), rules)

    def test_each_rule_stands_behind_its_line(self) -> None:
        made = self.translation("# no index for what is written all day\n\nnever audit.*\r\nmust customer(city)\n")
        rules = ["# line 3: never audit.*", "never audit_log", "never audit_old", "# line 4: must customer(city)"]
        self.assertEqual(made.lines, [*rules, "must customer(city)"])

    def test_what_is_there_already_is_left_out_and_told(self) -> None:
        made = self.translation("must customer(id)\nmust customer(id) clustered\n")
        self.assertEqual(made.lines, ["# line 2: must customer(id) clustered", "must customer(id) clustered"])
        self.assertEqual(made.remarks, ["line 1: it is there already, as 'pk', and is left out"])

    def test_each_faulty_line_says_why(self) -> None:
        table = [
            ("prefer customer(id)", "the forms are must TABLE"),
            ("never", "the forms are must TABLE"),
            ("never a.b.c.d", "the forms are must TABLE"),
            ("never customer(id", "the forms are must TABLE"),
            ("must customer", "what must be is an index"),
            ("must *(id)", "can't be a pattern"),
            ("never customer(c*)", "named whole"),
            ("never public.customer.c*", "named whole"),
            ("never a.b.c(d)", "TABLE or SCHEMA.TABLE"),
            ("never customer(id, id)", "has a column once"),
            (f"never customer({', '.join('abcdefghi')})", "at most 8"),
            ("never nothing", "has no table 'nothing'"),
            ('never "CUSTOMER"', "has no table 'CUSTOMER'"),
            ('never "c*"', "has no table 'c*'"),
            ("never sales.customer", "has no table 'sales'.'customer'"),
            ("never public.customer.town", "has no column 'public'.'customer'.'town'"),
            ("must customer(town)", "has no column 'town'"),
            ("must orders(note)", "no index can have 'note': a point"),
            ("never *.log", "it names tables and columns"),
        ]
        made = self.translation("".join(f"{line}\n" for line, _ in table))
        self.assertEqual((made.lines, made.remarks, len(made.faults)), ([], [], len(table)))
        for number, ((line, why), told) in enumerate(zip(table, made.faults), 1):
            with self.subTest(line=line):
                self.assertTrue(told.startswith(f"line {number}: "), told)
                self.assertIn(why, told)

    def test_what_the_catalogue_lacks_may_be_skipped(self) -> None:
        made = self.translation("never nothing\nnever log\nnever log(x)\nnever log(\n", skips_unknown=True)
        self.assertEqual(made.lines[1:], ["never log"])
        self.assertEqual([it.split(":")[0] for it in made.remarks], ["line 1", "line 3"])
        self.assertEqual([it.split(":")[0] for it in made.faults], ["line 4"])


@unittest.skipIf(NO_PARSER, NO_PARSER)
class Command(InFolder):
    def call(self, given: str) -> tuple[int, str]:
        (self.folder / "c.toml").write_text(CATALOGUE)
        (self.folder / "given.txt").write_text(given)
        words = [str(TOOL), "rules", *self.in_folder("c.toml", "given.txt", "rules.txt")]
        ran = subprocess.run(words, capture_output=True, text=True, check=False, timeout=LONG)
        self.assertEqual(ran.stdout, "")
        return ran.returncode, ran.stderr

    def test_it_writes_all_rules_or_none(self) -> None:
        status, said = self.call("must orders(note)\nnever log\nnever x\n")
        self.assertEqual(status, 1)
        self.assertIn("given.txt, line 3: the catalogue has no table 'x'\n", said)
        self.assertIn("no rules are written: 2 lines can't be translated\n", said)
        self.assertFalse((self.folder / "rules.txt").exists())
        self.assertEqual(self.call("never log\n"), (0, ""))
        self.assertEqual((self.folder / "rules.txt").read_text(), "# line 1: never log\nnever log\n")


if __name__ == "__main__":
    unittest.main()
