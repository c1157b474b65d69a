"""Which picks stay: rounds of searching and of asking the server's planner."""
from __future__ import annotations

import argparse
from dataclasses import dataclass, replace
from functools import partial

from cophy_text.answers import Advice, Candidate, Prices
from cophy_pg.beside import Beside, Trade
from cophy_pg.choice import UNTAKEN, Choice, Limits, drop_by_limits, drop_by_server
from cophy_pg.exchange import Exchange
from cophy_pg.outcomes import Verdict, outcomes
from cophy_pg.picks import home_of
from cophy_pg.planning import COSTLY, Planning, costly_picks
from cophy_pg.plans import Plan, costs_without, under
from cophy_pg.program import NoCommand, Program
from cophy_pg.schema import Schema
from cophy_pg.searches import MOST_SEARCHES, Rules, Searches
from cophy_pg.server import Server, reading
from cophy_pg.steps import Steps
from cophy_pg.verify import Judged, judge
from cophy_pg.why import Reason
from cophy_pg.workload import Workload
from cophy_pg.worth import Worth, worth_of

ROUNDS = 4
"""How often is searched: each time but the first without what no plan took before."""
ADDITIONS = 3
"""How often what the planner takes in the space that is left is added."""


@dataclass
class Rounds:
    """What a call of `advise` asks for, and what searches and the planner are asked with."""

    words: argparse.Namespace
    program: Program
    searches: Searches
    rules: Rules
    steps: Steps
    schema: Schema
    workload: Workload

    def searched(self, number: int) -> Choice:
        """What fills the budget under the rules so far, at the begin of a round."""
        self.steps.begin(f"round {number} of at most {ROUNDS}")
        # What is told beside the searches is that picks are exchanged.
        with self.steps.step("advise", "searching for the best indexes", MOST_SEARCHES + 1):
            advice, rules = self.searches.filling(self.schema, self.rules)
        return Choice(advice, [(it, UNTAKEN) for it in self.rules.forbidden], rules=rules)

    def best(self, server: Server, choice: Choice) -> tuple[Choice, Judged]:
        """Searches again without what no plan takes, which leaves room for others; the choice that costs the least by the
        server's planner, and what it says of that. An older program doesn't search again. Once the time is up, a later round
        is broken off."""
        best: tuple[Choice, Judged] | None = None
        least = (0, 0.0)
        for number in range(1, ROUNDS + 1):
            judged = self._settle(server, choice, is_needed=best is None)
            if judged is None:
                break
            count, _, after = judged.sums()
            if best is None or (-count, after) < least:
                best, least = (choice, judged), (-count, after)
            if number == ROUNDS or not self.rules.forbid(choice.untaken) or self.searches.is_over():
                break
            self.searches.tell_rest_after(number, ROUNDS)
            try:
                choice = self.searched(number + 1)
            except NoCommand:
                break
        assert best is not None
        return self._filled(server, *best)

    def asked(self, server: Server, advice: Advice, known: list[Verdict] | None = None) -> Judged:
        """What the planner says of some picks; what it said of statements without any isn't asked for again."""
        records = enumerate(self.workload.records, 1)
        found = [Verdict(at, it.input, self.workload.times(it)) for at, it in records if it.numbers]
        if known is not None:
            found = [Verdict(it.number, it.input, it.times, before=it.before, fault=it.fault) for it in known]
        asked = len(found) + sum(it.before is None for it in found)
        with self.steps.step("verify", "asking the server's planner", asked):
            with reading(server):
                home_of(server)
            listed, functions = judge(server, self.schema, advice, found, self.words.is_trusted, self.steps)
            texts = {number: text for number, (text, _) in enumerate(self.workload.statements, 1)}
            outcomes(listed, found, texts, [])
        return Judged(found, listed, functions)

    def _filled(self, server: Server, choice: Choice, judged: Judged) -> tuple[Choice, Judged]:
        """Adds what the server's planner takes in the space that is left, as long as it says that this saves something. Where
        each pick has to save so much by our model, nothing is added."""
        exchange = self.searches.exchange(self.schema, self.rules)
        self.searches.begin(ADDITIONS)
        for number in range(0 if self.words.min_saving else ADDITIONS):
            self.steps.begin(f"filling space that is left, round {number + 1} of at most {ADDITIONS}")
            added = None if self.searches.is_over() else self._added(server, choice, judged, exchange)
            if added is None:
                break
            choice, judged = added
        return choice, judged

    def _added(
        self, server: Server, choice: Choice, judged: Judged, exchange: Exchange
    ) -> tuple[Choice, Judged] | None:
        """What comes of what the planner takes in the space that is left, and in the place of weak picks; nothing where it
        says that none of this saves anything."""
        planning = Planning(self.schema, judged.verdicts, self.words.planning)
        beside = Beside(choice, judged.verdicts, exchange, self.workload.divisor, planning.longer)
        trades = [self._priced(server, beside, it) for it in beside.narrower() if not self.searches.is_over()]

        def ask(picks: Advice) -> list[Verdict]:
            return [] if self.searches.is_over() else self.asked(server, picks, judged.verdicts).verdicts

        chosen = beside.filled(ask, trades)
        if chosen == beside.chosen:
            return None
        try:
            advice, rules = self.searches.made_of(chosen, self.rules)
        except NoCommand:
            return None
        more = Choice(advice, [*choice.left_out], rules=rules)
        again = self._settle(server, more, judged.verdicts, is_needed=False)
        if again and again.sums()[0] >= judged.sums()[0] and again.sums()[2] < judged.sums()[2]:
            return more, again
        return None

    def _priced(self, server: Server, beside: Beside, trade: Trade) -> Trade:
        """A trade with its loss by the planner."""
        return beside.priced(trade, self.asked(server, beside.with_trade(trade), beside.users(trade)).verdicts)

    def _settle(
        self, server: Server, choice: Choice, known: list[Verdict] | None = None, is_needed: bool = True
    ) -> Judged | None:
        """Asks the planner until all picks that are left stay. Picks that were left out before are asked about no more. Once
        the time is up, nothing comes of it, or where something is needed, what takes longer to plan than it saves stays.
        """
        words = self.words
        limits = Limits(words.min_saving, words.most_per_table)
        while is_needed or not self.searches.is_over():
            judged = self.asked(server, choice.advice, known)
            known = judged.verdicts
            with self.steps.step("limits", "leaving out what isn't worth it"):
                is_less = drop_by_server(choice, self.schema, judged.outcomes, self.rules.asks_for)
                worth = partial(self._worth, server, choice.advice, judged.verdicts)
                is_less |= drop_by_limits(choice, self.program, limits, self.steps, self.rules.asks_for, worth)
            if not is_less and not self._drop_costly(server, choice, judged.verdicts):
                return judged
        return None

    def _drop_costly(self, server: Server, choice: Choice, found: list[Verdict]) -> bool:
        """Leaves out what saves less time than planning and writing take longer for it; whether anything was."""

        def ask(picks: list[Candidate], listed: list[Verdict]) -> dict[int, Plan]:
            # What isn't asked about stays.
            if self.searches.is_over():
                return {}
            return under(server, self.schema, replace(choice.advice, picks=picks), listed, self.steps)

        if not self.words.planning:
            return False
        planning = Planning(self.schema, found, self.words.planning)
        with self.steps.step("planning", "leaving out what takes longer to plan than it saves"):
            costly = costly_picks(
                choice.advice.picks,
                planning,
                lambda number: self.workload.divisor * self.searches.upkeep(number),
                self.rules.asks_for,
                ask,
            )
            for it in costly:
                choice.drop(it, COSTLY)
        return bool(costly)

    def _worth(
        self, server: Server, advice: Advice, found: list[Verdict], reason: Reason, prices: tuple[Prices, Prices]
    ) -> Worth:
        """What a pick saves, by the server too."""
        without = costs_without(server, self.schema, advice, reason.pick, found, self.steps)
        return worth_of(reason, prices, found, without, [it.input.seconds for it in self.workload.records])
