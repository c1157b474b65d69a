"""The exchange of picks for others that cost less in the same space as PostgreSQL stores them."""
from __future__ import annotations

import random
import sys
import unittest
from collections.abc import Callable, Sequence
from pathlib import Path
from unittest import mock

from cophy_text.answers import Candidate
from fixtures import COPHY, NO_PARSER, ROOT, STAND_IN, InFolder

SEARCH = "searching for indexes, search"

if not NO_PARSER:
    from cophy_pg import folder
    from cophy_pg.budget import filled, room_in
    from cophy_pg.catalogue import read_schema
    from cophy_pg.exchange import Exchange
    from cophy_pg.folder import Folder
    from cophy_pg.pricing import UNPRICED, Chosen, Pricing
    from cophy_pg.program import Program
    from cophy_pg.progress import Progress
    from cophy_pg.searches import EXCHANGING, FIRST_SECONDS, MOST_SEARCHES, Rules, Searches
    from cophy_pg.sizes import stored_size
    from cophy_text.rules import read_rule

    class Slow(Program):
        """A program whose commands take so many seconds of a clock each."""

        def __init__(self, own: Program, seconds: dict[str, int]) -> None:
            super().__init__(own.file, own.catalogue, own.workload)
            self.seconds, self.now, self.asked = seconds, 0, list[str]()

        def text(self, command: str, *more: str) -> str:
            self.now += self.seconds.get(command, 0)
            self.asked.append(command)
            return super().text(command, *more)

    class Made(Pricing):
        """Prices of statements each of which takes the best of its indexes; each index has an upkeep."""

        def __init__(self, saved: list[dict[int, int]], upkeep: dict[int, int]) -> None:
            self.saved, self.upkeep, self.calls = saved, upkeep, 0
            self.candidates = {it: Candidate(it, "t", (f"c{it}",), 1) for it in upkeep}

        def cost(self, chosen: Chosen) -> int:
            gains = (max((it.get(number, 0) for number in chosen), default=0) for it in self.saved)
            return 100 * len(self.saved) - sum(gains) + sum(self.upkeep[it] for it in chosen)

        def costs(self, base: Chosen, sets: Sequence[Chosen], goes_on: Callable[[], bool] = lambda: True) -> list[int]:
            return [self.cost(it) if goes_on() else UNPRICED for it in sets]


def clash(chosen: frozenset[int], clustered: dict[int, str]) -> bool:
    """Whether two of a set are clustered on one table."""
    tables = [clustered[it] for it in chosen if it in clustered]
    return len(tables) > len({*tables})


@unittest.skipIf(NO_PARSER, NO_PARSER)
class Steps(unittest.TestCase):
    def test_one_is_added_taken_away_or_put_in_the_place_of_another(self) -> None:
        prices = Made([{1: 90, 2: 60}, {3: 50}, {4: 5}], dict.fromkeys(range(1, 6), 1))
        sizes = {1: 9, 2: 4, 3: 5, 4: 3, 5: 1}
        for room, start, others, found in (
            (14, {1}, (), {1, 3}),
            (9, {2}, (), {2, 3}),
            (9, {4, 2}, (3,), {2, 3}),
            (9, {4, 2}, (), {2, 3}),
            (9, {4, 5}, (), {2, 3}),
            (12, {5, 2}, (1,), {2, 3, 4}),
            (20, {5}, (), {1, 3, 4}),
            (2, set[int](), (), set[int]()),
        ):
            with self.subTest(room=room, start=start):
                self.assertEqual(Exchange(prices, sizes, room).improved(frozenset(start), others), found)

    def test_where_time_is_over_it_is_the_best_that_was_found(self) -> None:
        prices = Made([{1: 90, 2: 60}, {3: 50}, {4: 5}], dict.fromkeys(range(1, 6), 1))
        sizes, start = {1: 9, 2: 4, 3: 5, 4: 3, 5: 1}, frozenset((2, 4))
        costs = list[int]()
        for count in range(99):
            exchange = Exchange(prices, sizes, 9, goes_on=iter([True] * count + [False] * 999).__next__)
            found = exchange.improved(start, (3,))
            costs.append(prices.cost(found))
            self.assertLessEqual(exchange.size(found), 9)
            if not exchange.is_cut:
                break
        # 2 and 4 save 65 of 300, 2 and 3 save 110, and each costs 1.
        self.assertEqual((found, costs[0], costs[-1], max(costs)), ({2, 3}, 237, 192, 237))
        self.assertIn(192, costs[:-1])

    def test_what_is_too_large_is_tried_too(self) -> None:
        # The pick that saves the most needs two others out of the way, which no single step takes.
        prices = Made([{1: 60, 3: 90}, {2: 50}, {5: 40, 6: 38}], {1: 0, 2: 0, 3: 0, 5: 0, 6: 0})
        exchange = Exchange(prices, {1: 10, 2: 10, 3: 14, 5: 10, 6: 6}, 30)
        start, larger = frozenset((1, 2, 5)), frozenset((3, 2, 5))
        self.assertEqual(exchange.improved(start, ()), start)
        self.assertEqual(exchange.best_of([start], {1, 2, 3, 5}), start)
        self.assertEqual(exchange.best_of([start, larger], {1, 2, 3, 5}), {2, 3, 6})
        self.assertIsNone(Exchange(prices, exchange.sizes, 5, frozenset((1,))).best_of([frozenset((1,))], ()))

    def test_what_comes_out_fits_and_costs_no_more_and_no_step_saves_anything(self) -> None:
        drawn = random.Random(3)
        for _ in range(60):
            numbers = range(1, 13)
            sizes = {it: drawn.randrange(1, 30) for it in numbers}
            saved = [{it: drawn.randrange(1, 90) for it in drawn.sample(numbers, 3)} for _ in range(8)]
            prices = Made(saved, {it: drawn.randrange(4) for it in numbers})
            fixed = frozenset(drawn.sample(numbers, 3))
            clustered = {it: drawn.choice("tu") for it in drawn.sample(numbers, drawn.choice((0, 5)))}
            exchange = Exchange(prices, sizes, drawn.randrange(30, 120), fixed, clustered)
            start = frozenset[int]()
            for it in drawn.sample(numbers, 12):
                step = start | {it}
                start = step if exchange.size(step) <= exchange.room and not clash(step, clustered) else start
            found = exchange.improved(start, numbers)
            self.assertFalse(clash(found, clustered))
            self.assertLessEqual(exchange.size(found), exchange.room)
            self.assertLessEqual(prices.cost(found), prices.cost(start))
            self.assertEqual(found & fixed, start & fixed)
            for more in (frozenset(), *({it} for it in numbers)):
                for less in (frozenset(), *({it} for it in found)):
                    step = found - less | more
                    fits = exchange.size(step) <= exchange.room and not clash(step, clustered)
                    if fits and not (step ^ found) & fixed:
                        self.assertGreaterEqual(prices.cost(step), prices.cost(found))

    def test_a_clustered_one_takes_the_place_of_the_other_of_its_table(self) -> None:
        prices = Made([{1: 30, 2: 60}, {2: 1, 3: 50}], dict.fromkeys(range(1, 4), 1))
        sizes = {1: 1, 2: 1, 3: 1}
        tables: list[tuple[dict[int, str], set[int], set[int]]] = [
            ({}, set(), {2, 3}),
            ({1: "t", 2: "t", 3: "u"}, set(), {2, 3}),
            ({1: "t", 2: "t", 3: "t"}, set(), {2}),
            ({1: "t", 2: "t"}, {1}, {1, 3}),
        ]
        for clustered, fixed, found in tables:
            with self.subTest(clustered=clustered, fixed=fixed):
                exchange = Exchange(prices, sizes, 9, frozenset(fixed), clustered)
                self.assertEqual(exchange.improved(frozenset({1}), {1, 2, 3}), found)

    def test_rules_speak_of_what_they_name(self) -> None:
        picks = [Candidate(1, "t", ("a", "b"), 1), Candidate(2, "t", ("a",), 1), Candidate(3, "u", ("a",), 1)]
        clustered = Candidate(4, "t", ("a",), 1, is_clustered=True)
        for line, numbers in (
            ("must T(a)", [2]),
            ("never t(A, b)", [1]),
            ("never t(a) clustered", [4]),
            ("never t", [1, 2, 4]),
            ("never t.B", [1]),
            ("never v", []),
        ):
            self.assertIsNotNone(read_rule(line))
            rules = Rules([line])
            self.assertEqual([it.number for it in (*picks, clustered) if rules.speak_of(it)], numbers, line)


@unittest.skipIf(NO_PARSER, NO_PARSER)
class OverTheStandIn(InFolder):
    """Over the stand-in, whose pages of an index have nothing to do with how PostgreSQL stores it."""

    def setUp(self) -> None:
        super().setUp()
        column = '[[table.column]]\nname = "{0}"\nkind = "text"\nwidth = 8\ndistinct = 10\npostgres_type = "text"\n'
        tables = "".join(
            f'[[table]]\nname = "{name}"\nrows = {rows}\npages = {pages}\n' + column.format("a") + column.format("b")
            for name, rows, pages in (("large", 20000, 40000), ("small", 16000, 40), ("other", 16000, 40))
        )
        texts = (
            f"-- weight {w}\nselect a from {it}\nwhere b = ?;\n" for it, w in (("small", 1), ("other", 1), ("large", 9))
        )
        self.kept = Folder.made(*self.in_folder("found"))
        self.kept.write({folder.CATALOGUE: f"version = 2\n{tables}", folder.WORKLOAD: "".join(texts)})
        paths = (self.kept.path(folder.CATALOGUE), self.kept.path(folder.WORKLOAD))
        self.program = Program(str(STAND_IN), *paths)

    def test_what_fits_alone_as_stored_is_found_whatever_the_model_takes_it_for(self) -> None:
        schema = read_schema(self.kept.read(folder.CATALOGUE))
        sizes = {it.table: (it.pages, stored_size(schema, [it])) for it in self.program.advise(10**9).picks}
        self.assertGreater(sizes["large"][0], 400 * sizes["large"][1])
        asked = sizes["large"][1] + 1
        self.assertLess(room_in(asked), sizes["large"][1] + sizes["small"][1])
        advice, _ = Searches(self.program, self.kept, asked, (), Progress()).filling(schema, Rules())
        self.assertEqual([it.table for it in advice.picks], ["large"])
        self.assertGreaterEqual(advice.budget, sizes["large"][0])

    def test_searches_are_counted_up_to_their_end(self) -> None:
        told = list[str]()
        schema = read_schema(self.kept.read(folder.CATALOGUE))
        progress = type("Told", (Progress,), {"__call__": lambda _, text: told.append(text)})()
        searches = Searches(self.program, self.kept, 500, (), progress)
        for _ in range(2):
            told.clear()
            searches.filling(schema, Rules())
            numbers = [int(it.split()[4]) for it in told if it.endswith(f" of at most {MOST_SEARCHES}")]
            self.assertEqual(numbers, [*range(1, len(numbers) + 1)])
            self.assertGreater(len(numbers), 1)
            others = {*told} - {f"{SEARCH} {it} of at most {MOST_SEARCHES}" for it in numbers}
            self.assertTrue(all(it.startswith(EXCHANGING) for it in others), others)
            self.assertEqual(told.count(EXCHANGING), 1)
        told.clear()
        searches.proved(500)
        self.assertEqual(told, [f"{SEARCH} 1 of at most 1"])
        self.assertIn(self.kept.read(folder.UNFINISHED).decode(), searches.texts.values())
        searches.clear()
        self.assertEqual([it.name for it in Path(self.kept.name).glob(f"{folder.CERTIFICATE}-*")], [])

    def test_how_long_all_takes_is_told_once_by_the_first_search(self) -> None:
        schema = read_schema(self.kept.read(folder.CATALOGUE))
        for seconds, wanted in ((0, []), (1, ["by the first search: about 70 seconds more"])):
            program = Slow(self.program, {"advise": seconds})
            searches = Searches(program, self.kept, 500, (), Progress(), clock=lambda: program.now)
            with mock.patch("cophy_pg.progress.say") as said:
                searches.filling(schema, Rules())
            lines = [it[0][0] for it in said.call_args_list]
            self.assertEqual([it for it in lines if it.endswith(" more")], wanted)

    def test_how_long_all_takes_is_told_anew_by_rounds_and_ends_with_the_patience(self) -> None:
        schema = read_schema(self.kept.read(folder.CATALOGUE))
        for patience, wanted in (
            (10**9, ["by the first search: about 70 seconds more", "by 1 round of at most 4: about 7 minutes more"]),
            (160, ["by the first search: about 70 seconds more", "by 1 round of at most 4: about 90 seconds more"]),
            (50, ["by the first search: about 50 seconds more", "by 1 round of at most 4: about 30 seconds more"]),
        ):
            program = Slow(self.program, {"advise": 1})
            more = {"clock": lambda: program.now, "patience": patience}
            searches = Searches(program, self.kept, 500, (), Progress(), **more)  # type: ignore[arg-type]
            with mock.patch("cophy_pg.progress.say") as said:
                searches.filling(schema, Rules())
                program.now = int(searches.begun) + 100
                self.assertEqual(searches.is_over(), patience == 50)
                searches.tell_rest_after(1, 4)
            lines = [it[0][0] for it in said.call_args_list]
            self.assertEqual([it for it in lines if it.endswith(" more")], wanted)

    def test_where_the_time_is_up_the_first_that_fits_is_enough(self) -> None:
        schema, found = read_schema(self.kept.read(folder.CATALOGUE)), list[tuple[int, bool, int]]()
        sizes = {it.table: stored_size(schema, [it]) for it in self.program.advise(10**9).picks}
        for patience in (10**9, 0):
            program = Slow(self.program, {"advise": 1, "whatif": 1})
            more = {"clock": lambda: program.now, "patience": patience}
            searches = Searches(program, self.kept, sizes["large"] + 1, (), Progress(), **more)  # type: ignore[arg-type]
            advice, _ = searches.filling(schema, Rules())
            self.assertLessEqual(stored_size(schema, advice.picks), sizes["large"] + 1)
            found.append((len(program.asked), searches.was_over, len(searches.curve())))
        self.assertEqual([it[1] for it in found], [False, True])
        self.assertLess(found[1][0], found[0][0])
        self.assertLess(found[1][2], found[0][2])

    def test_exchanging_stops_in_time_with_what_it_found(self) -> None:
        schema, told = read_schema(self.kept.read(folder.CATALOGUE)), list[str]()
        progress = type("Told", (Progress,), {"__call__": lambda _, text: told.append(text)})()
        found = dict[tuple[int, int], tuple[int, int, Searches]]()
        for seconds in ((0, 0), (0, 8), (1, 8), (1000, 8)):
            program = Slow(self.program, dict(zip(("advise", "whatif"), seconds)))
            searches = Searches(program, self.kept, 500, (), progress, clock=lambda: program.now)
            advice, _ = searches.filling(schema, Rules())
            found[seconds] = (program.asked.count("whatif"), advice.cost, searches)
        every, least, _ = found[0, 0]
        self.assertGreater(8 * every, FIRST_SECONDS + 16)
        self.assertIn(f"{EXCHANGING}, 4 done", told)
        for seconds, (count, cost, searches) in found.items():
            with self.subTest(seconds=seconds):
                self.assertEqual(searches.is_cut, seconds in ((0, 8), (1, 8)))
                # The fourth is asked for when 24 seconds are over; one more tells what that is worth which was found.
                self.assertIn(count, (4, 5) if searches.is_cut else (every,))
                self.assertGreaterEqual(cost, least)
                if not searches.is_cut:
                    self.assertEqual(cost, least)

    def test_where_there_is_no_time_to_tell_nothing_is_said_of_space(self) -> None:
        schema = read_schema(self.kept.read(folder.CATALOGUE))
        every = self.program.advise(10**9).picks
        some = [it for it in every if it.table != "large"]
        for seconds in (0, int(FIRST_SECONDS) + 1):
            program = Slow(self.program, {"whatif": seconds})
            searches = Searches(program, self.kept, 10**6, (), Progress(), clock=lambda: program.now)
            told = [searches.unused(schema, Rules(), it, []) for it in (every, some)]
            self.assertIsNone(told[1])
            if seconds:
                self.assertIsNone(told[0])
            else:
                self.assertIn("no other index that fits saves anything", str(told[0]))

    def test_the_curve_has_points_where_its_first_picks_come_in(self) -> None:
        sizes = {it.table: it.pages for it in self.program.advise(10**9).picks}
        found = Searches(self.program, self.kept, sizes["large"], (), Progress()).curve()
        small, both = sizes["small"], sizes["small"] + sizes["other"]
        budgets = [it.budget for it in found]
        self.assertEqual(budgets, sorted({*budgets}))
        self.assertEqual((budgets[:3], budgets[-1]), ([0, small, both], both + sizes["large"]))
        self.assertEqual([len(it.picks) for it in found[:3]], [0, 1, 2])


@unittest.skipUnless(not NO_PARSER and COPHY.exists(), "the program isn't built, or python3-pglast isn't installed")
class OverTheProgram(InFolder):
    """Over the program and a made workload."""

    def test_costs_of_sets_beside_one_that_was_never_priced(self) -> None:
        sys.path[:0] = [str(ROOT / "bench")]
        from generator import texts

        files = self.in_folder("c.toml", "w.sql")
        for file, text in zip(files, texts(5, 4, 12)):
            Path(file).write_text(text)
        program = Program(str(COPHY), *files)
        prices = Pricing(program)
        base = frozenset(sorted(prices.candidates)[::3])
        sets = [base - {it} for it in sorted(base)] + [base | {it} for it in prices.candidates if it not in base]
        self.assertEqual(prices.costs(base, sets), [program.whatif(it).total for it in sets])

    def test_picks_are_exchanged_and_the_program_finds_them_under_the_rules(self) -> None:
        sys.path[:0] = [str(ROOT / "bench")]
        from generator import texts

        kept = Folder.made(*self.in_folder("found"))
        kept.write(dict(zip((folder.CATALOGUE, folder.WORKLOAD), texts(3, 6, 24))))
        program = Program(str(COPHY), kept.path(folder.CATALOGUE), kept.path(folder.WORKLOAD))
        schema = read_schema(kept.read(folder.CATALOGUE))
        every = stored_size(schema, program.advise(10**9).picks)
        exchanged = 0
        for share in (5, 11, 23, 37, 52, 71, 110):
            asked = every * share // 100
            searches = Searches(program, kept, asked, (), Progress())
            before = filled(asked, program.advise, lambda it: stored_size(schema, it.picks))
            advice, rules = searches.filling(schema, Rules())
            self.assertLessEqual(stored_size(schema, advice.picks), room_in(asked))
            self.assertLessEqual(advice.cost, before.cost)
            self.assertEqual(program.whatif(it.number for it in advice.picks).total, advice.cost)
            exchanged += bool(rules)
            unused = searches.unused(schema, Rules(), advice.picks, [])
            if stored_size(schema, advice.picks) < 0.95 * asked:
                self.assertIn("no other index that fits saves anything", str(unused))
            else:
                self.assertIsNone(unused)
            searches.keep(advice.budget, rules)
            searches.clear()
        self.assertGreater(exchanged, 0)


if __name__ == "__main__":
    unittest.main()
