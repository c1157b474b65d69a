"""Candidates that the server's planner takes beside the picks, in the place of some that it says save little, or in the space
that picks leave of which it takes the first columns alone."""
from __future__ import annotations

from collections.abc import Callable, Iterable, Mapping
from dataclasses import dataclass, replace

from cophy_text.answers import Advice, Candidate, explained
from cophy_pg.choice import Choice
from cophy_pg.exchange import Exchange
from cophy_pg.outcomes import Verdict
from cophy_pg.pricing import Chosen

LEAST = 0.0001
"""The share of what the statements cost without any pick that a candidate has to save."""
WEAK = 0.02
"""Picks that save no more together than this share of what all do may make way."""
WRITES = 2
"""So many times what a candidate costs where rows are written does it have to save."""
MUCH_SMALLER = 0.75
"""A candidate of at most this share of a pick's size may take its place."""
MOST_TRADES = 4
"""So many picks at most are made narrower at once."""
MOST_ASKED = 3
"""So often at most is the planner asked what it takes, until something of that comes in."""

Saved = dict[int, float]
"""What candidates save by the server's planner, over all calls, by their numbers."""


@dataclass(frozen=True)
class Trade:
    """A candidate in the place of a pick that begins with its columns, with what more the statements cost then."""

    pick: int
    other: int
    loss: float = 0.0


@dataclass
class Beside:
    """The picks that stay, with what the server's planner says of each statement under them. `divisor` is what calls were
    divided by for the weights of our model, and `longer` what planning takes longer for a candidate."""

    choice: Choice
    verdicts: list[Verdict]
    exchange: Exchange
    divisor: float = 1.0
    longer: Callable[[Candidate], float] = lambda _: 0.0

    def __post_init__(self) -> None:
        self.chosen: Chosen = frozenset(it.number for it in self.choice.advice.picks)
        self.saved = shares(self.verdicts, {it.number: it.before for it in self.verdicts}, self.chosen)
        out = {it.number for it, _ in self.choice.left_out}
        self.free = frozenset(self.exchange.pricing.candidates) - self.chosen - self.exchange.fixed - out

    def narrower(self) -> list[Trade]:
        """Each pick that may go, with the smallest and the largest of the free candidates that its columns begin with and that
        are much smaller."""
        known, sizes, found = self.exchange.pricing.candidates, self.exchange.sizes, list[Trade]()
        for pick in sorted(self.chosen - self.exchange.fixed):
            others = [
                it
                for it in sorted(self.free, key=lambda it: (sizes[it], it))
                if known[it].table == known[pick].table
                and known[it].columns == known[pick].columns[: len(known[it].columns)]
                and sizes[it] <= MUCH_SMALLER * sizes[pick]
            ]
            found += [Trade(pick, it) for it in dict.fromkeys((*others[:1], *others[-1:]))]
        return found

    def with_trade(self, trade: Trade) -> Advice:
        """The picks with another in the place of one."""
        return replace(self.choice.advice, picks=self._listed((self.chosen - {trade.pick}) | {trade.other}))

    def users(self, trade: Trade) -> list[Verdict]:
        """The statements whose plans take the pick of a trade."""
        return [it for it in self.verdicts if trade.pick in it.taken]

    def priced(self, trade: Trade, verdicts: list[Verdict]) -> Trade:
        """A trade with its loss, by what the planner says of its users."""
        known = {it.number: it.after for it in self.verdicts}
        both = [(it, known[it.number]) for it in verdicts if it.after is not None]
        loss = sum(it.calls * ((it.after or 0.0) - cost) for it, cost in both if cost is not None)
        return replace(trade, loss=loss)

    def filled(self, ask: Callable[[Advice], list[Verdict]], trades: Iterable[Trade] = ()) -> Chosen:
        """The picks with what the planner takes beside them. Where nothing of that comes in, it is asked again without
        that: what is too large for the space hides what would do in its place."""
        listed, hidden = [*trades], frozenset[int]()
        for _ in range(MOST_ASKED):
            asked = self.asked_about(listed, hidden)
            verdicts = ask(asked) if asked else []
            chosen = self.better(verdicts, listed)
            taken = self.free & {number for it in verdicts for number in it.taken}
            if chosen != self.chosen or not taken:
                return chosen
            hidden |= taken
        return self.chosen

    def asked_about(self, trades: Iterable[Trade] = (), hidden: Chosen = frozenset()) -> Advice | None:
        """The picks with all candidates that fit in what is left, in the place of weak picks and in what trades leave,
        but for those that are hidden; nothing where none does."""
        left = self.exchange.room - self.exchange.size(self.chosen) + self.exchange.size(self._weak())
        left += sum(map(self._freed, self._cheapest(trades)))
        fitting = [it for it in sorted(self.free - hidden) if 0 < self.exchange.sizes[it] <= left]
        return replace(self.choice.advice, picks=self._listed({*self.chosen, *fitting})) if fitting else None

    def better(self, verdicts: list[Verdict], trades: Iterable[Trade] = ()) -> Chosen:
        """The picks with those candidates that save the most a page, by what the planner says where all are there, as far as
        they fit, behind as many of the cheapest trades as pay for themselves."""
        gains = self._worth(shares(verdicts, {it.number: it.after for it in self.verdicts}, self.free))
        listed = self._cheapest(trades)
        found = [self._with(gains, listed[:count]) for count in range(len(listed) + 1)]
        return max(found, key=lambda it: it[0])[1]

    def _with(self, gains: Saved, trades: list[Trade]) -> tuple[float, Chosen]:
        """What is saved, less what is lost, and the picks, where these trades come first. What a trade alone saves doesn't
        count: it is there for the room. A candidate may take the place of weak picks that save less."""
        found = set(self.chosen) - {it.pick for it in trades} | {it.other for it in trades}
        weak = [it for it in self._weak() if it in found]
        worth = -sum(max(0.0, it.loss) for it in trades)
        for it in sorted(gains.keys() - found, key=lambda it: (-gains[it] / self.exchange.sizes[it], it)):
            out = set[int]()
            while weak and self.exchange.size({*found, it} - out) > self.exchange.room:
                out.add(weak.pop(0))
            lost = sum(self.saved.get(one, 0.0) for one in out)
            if self.exchange.size({*found, it} - out) <= self.exchange.room and lost < gains[it]:
                found, worth = {*found, it} - out, worth + gains[it] - lost
            else:
                weak = [*sorted(out, key=self._order), *weak]
        return worth, frozenset(found)

    def _cheapest(self, trades: Iterable[Trade]) -> list[Trade]:
        """For each pick the trade that loses the least for a page, and of these the cheapest ones."""
        order = sorted(trades, key=lambda it: (it.loss / self._freed(it), -self._freed(it), it.pick, it.other))
        first = {it.pick: it for it in reversed(order)}
        return sorted(first.values(), key=order.index)[:MOST_TRADES]

    def _freed(self, trade: Trade) -> int:
        return self.exchange.sizes[trade.pick] - self.exchange.sizes[trade.other]

    def _worth(self, gains: Saved) -> Saved:
        """Those that save enough, more than planning takes longer for them, and much more than what they cost where rows are
        written, by our model: EXPLAIN takes pages that lie in memory for costly ones, and counts no writes."""
        pricing = self.exchange.pricing
        least = LEAST * sum(it.calls * (it.before or 0.0) for it in self.verdicts)
        now, listed = pricing.cost(self.chosen), sorted(gains)
        costs = pricing.costs(self.chosen, [self.chosen | {it} for it in listed])
        upkeep = {it: WRITES * self.divisor * explained(max(0, cost - now)) for it, cost in zip(listed, costs)}
        upkeep = {it: cost + self.longer(pricing.candidates[it]) for it, cost in upkeep.items()}
        return {it: gains[it] - upkeep[it] for it in listed if gains[it] - upkeep[it] > least}

    def _weak(self) -> list[int]:
        """The picks that save the least a page, as many as save little together."""
        whole, found = WEAK * sum(self.saved.values()), list[int]()
        for it in sorted(self.chosen - self.exchange.fixed, key=self._order):
            whole -= self.saved.get(it, 0.0)
            if whole < 0:
                break
            found.append(it)
        return found

    def _order(self, number: int) -> tuple[float, int]:
        return self.saved.get(number, 0.0) / max(1, self.exchange.sizes[number]), number

    def _listed(self, chosen: Iterable[int]) -> list[Candidate]:
        candidates = self.exchange.pricing.candidates
        return [candidates[it] for it in sorted(chosen)]


def shares(verdicts: list[Verdict], before: Mapping[int, float | None], among: Iterable[int]) -> Saved:
    """What each of some candidates saves of what statements cost before, where those that a plan takes save as much each."""
    found: Saved = {}
    for it in verdicts:
        taken, cost = set(it.taken) & set(among), before.get(it.number)
        if taken and cost is not None and it.after is not None:
            for number in taken:
                found[number] = found.get(number, 0.0) + it.calls * (cost - it.after) / len(taken)
    return found
