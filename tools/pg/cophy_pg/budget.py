"""The budget in pages of the model at which the picks, as PostgreSQL stores them, fill the space that is asked for."""
from __future__ import annotations

from collections.abc import Callable
from dataclasses import dataclass, field

from cophy_text.answers import Advice

MOST_TRIES = 8
FULL = 0.97
"""So much of the space is full enough."""
SPARED = 100
"""One part in so many is left free, since the formula of sizes may say that much too little."""
WIDEST = 8
"""Beyond so many times the space, a larger budget isn't tried."""
FURTHER = (105, 110, 116, 123, 131, 140)
"""Budgets in percent of the one that was found that are tried too: an index that the model takes for large may be small, so that
what a larger budget buys may fit as well."""


@dataclass
class Search:
    """The advice that fits and costs the least so far, the largest budget whose picks fit, and the least whose picks don't,
    each with the space that these take."""

    asked: int
    best: Advice | None = None
    low: tuple[int, int] | None = None
    high: tuple[int, int] | None = None
    tried: set[int] = field(default_factory=set)

    def add(self, advice: Advice, size: int) -> bool:
        """Takes an advice; whether the search is over."""
        self.tried.add(advice.budget)
        if size > self.asked:
            if self.high is None or advice.budget < self.high[0]:
                self.high = advice.budget, size
            return False
        if self.low is None or advice.budget > self.low[0]:
            self.low = advice.budget, size
        if self.best is None or advice.cost < self.best.cost:
            self.best = advice
        return size >= FULL * self.asked

    def next(self) -> int | None:
        """The next budget; nothing where none is worth a try."""
        if self.low is None and self.high is not None:
            budget, size = self.high
            found = min(budget * 9 // 10, int(budget * FULL * self.asked / size))
        elif self.low is not None and self.high is None:
            budget, size = self.low
            found = min(max(budget * 5 // 4, budget * self.asked // max(1, size)), 4 * budget)
            if found > WIDEST * self.asked:
                return None
        elif self.low is not None and self.high is not None:
            (low, small), (high, large) = self.low, self.high
            part = (self.asked - small) / max(1, large - small)
            found = low + int((high - low) * min(0.9, max(0.1, part)))
        else:
            found = self.asked
        return found if found not in self.tried else None


def room_in(asked: int) -> int:
    """The part of the space that is filled."""
    return asked - asked // SPARED


def filled(
    asked: int,
    advise: Callable[[int], Advice],
    size_of: Callable[[Advice], int],
    goes_on: Callable[[], bool] = lambda: True,
) -> Advice:
    """The advice for the budget at which the space is filled best. It takes at most that, as PostgreSQL stores it. Once it goes
    on no more, the first that fits is enough."""
    search = Search(room_in(asked))
    budget: int | None = asked
    while budget is not None and len(search.tried) < MOST_TRIES and (search.best is None or goes_on()):
        advice = advise(budget)
        if search.add(advice, size_of(advice)):
            break
        budget = search.next()
    if search.best is None:
        return advise(0)
    found = search.best.budget
    for percent in FURTHER:
        budget = found * percent // 100
        if budget not in search.tried and budget <= WIDEST * asked and goes_on():
            advice = advise(budget)
            search.add(advice, size_of(advice))
    return search.best
