"""Picks exchanged so that the workload costs less in the same space, as PostgreSQL stores them and not as the model counts."""
from __future__ import annotations

from collections.abc import Callable, Iterable, Iterator
from dataclasses import dataclass, field

from cophy_pg.pricing import Chosen, Pricing

MOST_STEPS = 40
"""After so many steps that each save something no more are taken."""
MOST_EXCHANGED = 8
"""Of so many candidates that save something beside all picks is it tried what they save in the place of each pick."""
MOST_CALLS, MOST_CLIMBED = 600, 6
"""So often is asked for what comes of another one in a pick's place, and so many steps is it followed."""


@dataclass
class Exchange:
    """Candidates with the pages that PostgreSQL takes for them, the space for all together, those that stay what they are,
    picked or not, the tables of those that are clustered, of which a table has one, whether there is time for more, whether
    there wasn't for all, and how often was asked for what comes of another one in a pick's place."""

    pricing: Pricing
    sizes: dict[int, int]
    room: int
    fixed: Chosen = frozenset()
    clustered: dict[int, str] = field(default_factory=dict)
    goes_on: Callable[[], bool] = lambda: True
    is_cut: bool = False
    followed: int = 0

    def improved(self, chosen: Chosen, others: Iterable[int]) -> Chosen:
        """Takes the step that saves the most, and again, until none saves anything: any candidate more, in the place of the
        picks that it leaves no room for, a pick less, or one of some others in the place of a pick; where none of these saves
        anything, in the place of a pick one of those that would save something beside all picks, and then what comes of another
        one in a pick's place. Of steps that save as much the one that leaves more space is taken."""
        free, some = (sorted(frozenset(it) - self.fixed) for it in (self.pricing.candidates, others))
        for _ in range(MOST_STEPS):
            if not self._goes_on():
                break
            less, new = self._less(chosen), [it for it in free if it not in chosen]
            exchanged = [self._with(base, it) for it in some if it not in chosen for base in less]
            step = self._best(chosen, [*less, *self._more(chosen, new, less), *exchanged])
            if step is None:
                step = self._best(chosen, [self._with(base, it) for it in self._saving(chosen, new) for base in less])
            if step is None:
                step = self._best(chosen, self._through(chosen, less, free))
            if step is None:
                break
            chosen = step
        return chosen

    def _less(self, chosen: Chosen) -> list[Chosen]:
        return [chosen - {it} for it in sorted(chosen - self.fixed)]

    def _through(self, chosen: Chosen, less: list[Chosen], free: list[int]) -> Iterator[Chosen]:
        """What comes of it where a pick, large ones first, makes way for what saves the most a page in its place, until so much
        was asked for."""
        for base in sorted(less, key=lambda it: (self.size(it), sorted(it))):
            if self.followed >= MOST_CALLS or not self._goes_on():
                break
            asked = self.pricing.calls
            fitting = [it for it in free if it not in chosen and self.size(self._with(base, it)) <= self.room]
            found = [self._climbed(self._with(base, it), free) for it in self._saving(base, fitting)[:1]]
            self.followed += self.pricing.calls - asked
            yield from found

    def _climbed(self, chosen: Chosen, free: list[int]) -> Chosen:
        """Picks more and less, as long as that saves something."""
        for _ in range(MOST_CLIMBED):
            less = self._less(chosen)
            more = self._more(chosen, [it for it in free if it not in chosen], less)
            step = self._best(chosen, [*less, *more])
            if step is None:
                break
            chosen = step
        return chosen

    def _best(self, chosen: Chosen, steps: Iterable[Chosen]) -> Chosen | None:
        """Of some steps that fit the one that saves the most; nothing where none saves anything."""
        fitting = [it for it in steps if self._is_allowed(it, chosen)]
        now, costs = (self.pricing.cost(chosen), self.size(chosen)), self._costs(chosen, fitting)
        best = min(((cost, self.size(it), sorted(it)) for cost, it in zip(costs, fitting)), default=None)
        return frozenset(best[2]) if best is not None and best[:2] < now else None

    def _saving(self, chosen: Chosen, new: list[int]) -> list[int]:
        """Some of those that would save the most a page beside all picks, whether or not there is room."""
        now, costs = self.pricing.cost(chosen), self._costs(chosen, [self._with(chosen, it) for it in new])
        shares = {it: (now - cost) / max(1, self.sizes[it]) for it, cost in zip(new, costs) if cost < now}
        return sorted(shares, key=lambda it: (-shares[it], it))[:MOST_EXCHANGED]

    def best_of(self, starts: Iterable[Chosen], others: Iterable[int]) -> Chosen | None:
        """What costs the least of what comes out from several sets of picks, of which the first is always tried and some may
        be too large; nothing where none can be made to fit."""
        found = dict[Chosen, Chosen]()
        for start in starts:
            if found and not self._goes_on():
                break
            fitting = self._fitted(start)
            if fitting not in found and self.size(fitting) <= self.room:
                found[fitting] = self.improved(fitting, others)
        return min(found.values(), key=lambda it: (self.pricing.cost(it), self.size(it))) if found else None

    def _fitted(self, chosen: Chosen) -> Chosen:
        """A set without the picks that save the least a page, as many as make it too large."""
        while self.size(chosen) > self.room and chosen - self.fixed and self._goes_on():
            less = [chosen - {it} for it in sorted(chosen - self.fixed)]
            costs, size = self._costs(chosen, less), self.size(chosen)
            now = self.pricing.cost(chosen)
            shares = [(cost - now) / max(1, size - self.size(it)) for cost, it in zip(costs, less)]
            chosen = less[shares.index(min(shares))]
        return chosen

    def _more(self, chosen: Chosen, free: list[int], less: list[Chosen]) -> list[Chosen]:
        """A pick more, each without the others that save the least a page, as many as leave no room for it. So no candidate
        that fits alone is left out for the pages that the model counts."""
        now = self.pricing.cost(chosen)
        saved = {it: cost - now for cost, base in zip(self._costs(chosen, less), less) for it in chosen - base}
        order = sorted(saved, key=lambda it: (saved[it] / max(1, self.sizes[it]), it))
        found = []
        for number in free:
            others = [*order]
            while others and self.size(self._with(chosen - {*order} | {*others}, number)) > self.room:
                others.pop(0)
            found.append(self._with(chosen - {*order} | {*others}, number))
        return found

    def _costs(self, base: Chosen, sets: list[Chosen]) -> list[int]:
        return self.pricing.costs(base, sets, self._goes_on)

    def _goes_on(self) -> bool:
        self.is_cut = self.is_cut or not self.goes_on()
        return not self.is_cut

    def _with(self, chosen: Chosen, number: int) -> Chosen:
        """A set with a candidate more; of a clustered one without the other that is clustered on its table."""
        table = self.clustered.get(number)
        return frozenset(it for it in chosen if table is None or self.clustered.get(it) != table) | {number}

    def _is_allowed(self, step: Chosen, chosen: Chosen) -> bool:
        """Whether a step fits, and leaves what stays as it is."""
        return self.size(step) <= self.room and step & self.fixed == chosen & self.fixed

    def size(self, chosen: Iterable[int]) -> int:
        """The pages of a set."""
        return sum(self.sizes[it] for it in chosen)
