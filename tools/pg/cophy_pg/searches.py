"""The searches of `advise`: for what fills the budget as PostgreSQL stores it, under rules or without any."""
from __future__ import annotations

import math
import os
import time
from collections.abc import Callable, Collection
from dataclasses import dataclass, field, replace

from cophy_text import files
from cophy_text.answers import Advice, Candidate, counted, explained, read_advice
from cophy_text.rules import Rule, read_rule
from cophy_text.shown import MOST_PAGES, grouped, space
from cophy_pg import folder
from cophy_pg.budget import FURTHER, MOST_TRIES, filled, room_in
from cophy_pg.closing import NOT_PROVED
from cophy_pg.curve import between
from cophy_pg.exchange import Exchange
from cophy_pg.folder import Folder
from cophy_pg.inputs import NoInput
from cophy_pg.pricing import Chosen, Pricing
from cophy_pg.program import NoCommand, Program, is_unproved
from cophy_pg.progress import Progress, say
from cophy_pg.rules import Translation
from cophy_pg.schema import Schema
from cophy_pg.sizes import stored_size

WELL_FILLED = 0.95
"""Where less of the space is filled, it is said why."""
MOST_STARTS = 4
"""Of so many sets of picks is it tried what exchanges make of them."""
MOST_SEARCHES = MOST_TRIES + len(FURTHER) + 1
"""So often is searched in a round: for what fills the budget, and for what exchanges made of that."""
EXCHANGING, FIRST_SECONDS, LATER_SECONDS = "comparing with other sets of indexes", 30.0, 8.0
"""Picks are exchanged for so long in the first round, or for as long as was searched before, and so long in each later one."""
LIKE_SEARCHES, SLOW = 40, 0.2
"""After the first search all takes about as long as so many, and where it took so many seconds, exchanges take all their time."""
PATIENCE = 180.0
"""So many seconds after the first search what is left of rounds, exchanges, fillings and the curve is passed over."""
FILLINGS, ENDING = 1.0, 0.3
"""What fillings and the curve take about, and what all that follows them, of what a round takes."""
CUT = "picks were exchanged for others for a limited time only, so others may cost less in the same space"
OVER = "refining the advice was cut"
POINTS, FIRST = 3, 3
"""How many points a curve has where it bends, and where its first picks come in, beside those that were searched for anyhow."""


@dataclass
class Rules:
    """Rules in the program's words: those that were given, and one for each pick that no plan takes; and what there is to say
    of those that were given and left out."""

    given: list[str] = field(default_factory=list)
    forbidden: list[Candidate] = field(default_factory=list)
    remarks: list[str] = field(default_factory=list)

    @staticmethod
    def of(schema: Schema, name: str | None) -> Rules:
        """Those of a file with PostgreSQL's names. What they say of tables that no statement names is left out."""
        if name is None:
            return Rules()
        translation = Translation(schema, skips_unknown=True)
        translation.take(files.read(name).decode(errors="replace"))
        for it in translation.faults:
            say(f"{files.shown(name)}, {it}")
        if translation.faults:
            raise NoInput(f"{files.shown(name)}: {counted(len(translation.faults), 'line')} can't be translated")
        return Rules(translation.lines, remarks=[f"rules, {it}" for it in translation.remarks])

    def lines(self) -> list[str]:
        """All of them; none where there are none."""
        return [*self.given, *(f"never {it.shown()}" for it in self.forbidden)]

    def text(self) -> str:
        """All of them as a file."""
        return "".join(f"{it}\n" for it in self.lines())

    def speak_of(self, pick: Candidate) -> bool:
        """Whether any of them says what becomes of a candidate."""
        return any(it is not None and is_about(it, pick) for it in map(read_rule, self.lines()))

    def asks_for(self, pick: Candidate) -> bool:
        """Whether a rule wants that pick, taken or not."""
        return f"must {pick.shown()}" in self.given

    def leave_out(self, pick: Candidate, own: Collection[str]) -> bool:
        """Whether one of those that were given, but not of our own, leaves a table or a column out."""
        rules = (read_rule(it) for it in self.given if it not in own)
        return any(it is not None and not it.columns and is_about(it, pick) for it in rules)

    def forbid(self, picks: list[Candidate]) -> bool:
        """Forbids picks from now on; whether any wasn't before."""
        new = [it for it in picks if it not in self.forbidden]
        self.forbidden += new
        return bool(new)


def is_about(rule: Rule, pick: Candidate) -> bool:
    """Whether a rule says what becomes of a candidate."""
    if rule.table.lower() != pick.table.lower():
        return False
    columns = [it.lower() for it in pick.columns]
    if rule.columns:
        return rule.is_clustered == pick.is_clustered and [it.lower() for it in rule.columns] == columns
    return not rule.column or rule.column.lower() in columns


@dataclass
class Searches:
    """Searches within one folder. The certificates of those without rules stay there until the end."""

    program: Program
    kept: Folder
    asked: int
    nodes: tuple[str, ...]
    progress: Progress
    texts: dict[int, str] = field(default_factory=dict)
    ruled: dict[tuple[int, str], str] = field(default_factory=dict)
    pricing: Pricing | None = None
    trials: set[str] = field(default_factory=set)
    count: int = 0
    most: int = 0
    clock: Callable[[], float] = time.monotonic
    is_later: bool = False
    """Whether the first round was searched."""
    is_cut: bool = False
    """Whether there wasn't time for all exchanges."""
    patience: float = math.inf
    begun: float = math.inf
    """When the first search was done."""
    was_over: bool = False
    """Whether something was passed over since the time was up."""

    def filling(self, schema: Schema, rules: Rules) -> tuple[Advice, str]:
        """The advice that fills the budget as PostgreSQL stores it, and the rules that it is found under: where other picks cost
        less in the same space, these have to be."""
        lines, tried, begun = rules.text(), list[Advice](), self.clock()
        self.begin(MOST_SEARCHES)
        if lines:
            self.kept.write({folder.RULES: lines})

        def advised(budget: int) -> Advice:
            since = self.clock()
            tried.append(self._at(budget, lines))
            self._tell_rest(self.clock() - since)
            return tried[-1]

        found = filled(self.asked, advised, lambda it: stored_size(schema, it.picks), lambda: not self.is_over())
        # Where the run is broken off, this is left of it.
        text = self.ruled[found.budget, lines] if lines else self.texts[found.budget]
        self.kept.write({folder.UNFINISHED: text})
        self.progress(EXCHANGING)
        seconds = LATER_SECONDS if self.is_later else max(FIRST_SECONDS, self.clock() - begun)
        exchange, self.is_later = self.exchange(schema, rules, seconds), True
        better = self._exchanged(exchange, found, tried)
        self.is_cut |= exchange.is_cut and not self.is_over()
        if better is None or self._prices().cost(better) >= found.cost:
            return found, lines
        try:
            return self.made_of(better, rules)
        except NoCommand:
            return found, lines

    def _tell_rest(self, seconds: float) -> None:
        """Tells once, by how long the first search took, about how long all other steps take."""
        if self.begun == math.inf:
            self.begun = self.clock()
            rest = LIKE_SEARCHES * seconds + FIRST_SECONDS * min(1.0, seconds / SLOW)
            self.progress.tell_rest("by the first search", min(rest, self.patience))

    def tell_rest_after(self, rounds: int, most: int) -> None:
        """Tells anew, by how long so many rounds took, about how long all that is left takes where it takes all rounds."""
        passed = self.clock() - self.begun
        each = passed / rounds
        rest = min((most - rounds + FILLINGS) * each, max(0.0, self.patience - passed)) + ENDING * each
        self.progress.tell_rest(f"by {counted(rounds, 'round')} of at most {most}", rest)

    def is_over(self) -> bool:
        """Whether the time is up, so that what is asked about is passed over."""
        is_over = self.clock() - self.begun >= self.patience
        self.was_over |= is_over
        return is_over

    def made_of(self, chosen: Chosen, rules: Rules) -> tuple[Advice, str]:
        """The advice that has just these picks, and the rules that it is found under."""
        picks = [it for number, it in self._prices().candidates.items() if number in chosen]
        ruled = rules.text() + "".join(f"must {it.shown()}\n" for it in picks)
        self.kept.write({folder.RULES: ruled})
        return self._at(sum(it.pages for it in picks), ruled), ruled

    def _exchanged(self, exchange: Exchange, found: Advice, tried: list[Advice]) -> Chosen | None:
        """What costs the least in the same space, from the picks that were found and those that cost less and are too large."""
        larger = sorted((it for it in tried if it.cost < found.cost), key=lambda it: -it.cost)
        starts = dict.fromkeys(frozenset(it.number for it in one.picks) for one in (found, *larger))
        others = {it.number for one in tried for it in one.picks}
        return exchange.best_of([*starts][:MOST_STARTS], others)

    def unused(self, schema: Schema, rules: Rules, picks: list[Candidate], left_out: list[Candidate]) -> str | None:
        """What is said of space that is left, where it is much and nothing that fits and wasn't left out saves anything, as
        far as there was time to tell."""
        exchange, chosen = self.exchange(schema, rules, LATER_SECONDS), frozenset(it.number for it in picks)
        exchange.fixed |= chosen | {it.number for it in left_out}
        left = self.asked - exchange.size(chosen)
        if left <= self.asked * (1 - WELL_FILLED) or not exchange.improved(chosen, ()) <= chosen or exchange.is_cut:
            return None
        but = ["what was left out"] * bool(left_out) + ["what rules speak of"] * bool(rules.given)
        told = "by our model no other index that fits saves anything" + (f", but for {' or '.join(but)}" if but else "")
        return f"{space(left)} stay free: {told}"

    def upkeep(self, number: int) -> float:
        """What statements cost more for a candidate where rows are written, in units of EXPLAIN's cost."""
        return explained(self._prices().upkeep_of(number))

    def _prices(self) -> Pricing:
        self.pricing = self.pricing or Pricing(self.program)
        return self.pricing

    def exchange(self, schema: Schema, rules: Rules, seconds: float = math.inf) -> Exchange:
        """Exchanges candidates, clustered ones too, that rules don't speak of: what these ask for or forbid stays so. It
        tells how many sets were priced, and stops after some seconds."""
        end, prices = min(self.clock() + seconds, self.begun + self.patience), self._prices()
        before = prices.calls

        def goes_on() -> bool:
            self.progress.still(f"{EXCHANGING}, {grouped(prices.calls - before)} done")
            return self.clock() < end

        sizes = {number: stored_size(schema, [it]) for number, it in prices.candidates.items()}
        fixed = (number for number, it in prices.candidates.items() if rules.speak_of(it))
        clustered = {number: it.table.lower() for number, it in prices.candidates.items() if it.is_clustered}
        return Exchange(prices, sizes, room_in(self.asked), frozenset(fixed), clustered, goes_on)

    def begin(self, most: int) -> None:
        """Begins a part of at most so many searches, which are counted."""
        self.count, self.most = 0, most

    def _at(self, budget: int, rules: str = "") -> Advice:
        self.count += 1
        self.progress(
            f"searching for indexes, search {self.count}"
            + (f" of at most {self.most}" if self.count <= self.most else "")
        )
        if rules:
            words = (str(budget), self.kept.path(folder.RULES), *self.nodes)
            text = self.ruled[budget, rules] = self.program.text("ruled", *words)
        elif budget in self.texts:
            text = self.texts[budget]
        else:
            trial = self.kept.path(f"{folder.CERTIFICATE}-{budget}")
            self.trials.add(f"{folder.CERTIFICATE}-{budget}")
            text = self.program.text("advise", str(budget), *self.nodes, "--cert", trial)
            self.texts[budget] = text
            os.chmod(trial, files.PRIVATE)
        return read_advice(text)

    def proved(self, budget: int) -> tuple[Advice, str]:
        """The advice for a budget without rules, which goes into the folder with its certificate, and what `check` says of
        that. Its bound holds under all rules."""
        self.begin(1)
        advice = self._at(budget)
        os.replace(self.kept.path(f"{folder.CERTIFICATE}-{budget}"), self.kept.path(folder.CERTIFICATE))
        text = self.program.text("check", self.kept.path(folder.CERTIFICATE))
        text = f"{NOT_PROVED}; it says: {text}" if is_unproved(self.program.file) else text
        self.kept.write({folder.ADVICE: self.texts[budget], folder.CHECK: text})
        return advice, text.strip()

    def curve(self) -> list[Advice]:
        """What less and more space would buy without rules: 0, where the first picks come in, what was searched for, what no
        budget limits, and some where the curve bends."""
        self.begin(2 + FIRST + POINTS)
        most = self._at(MOST_PAGES)
        known = {it: read_advice(text) for it, text in self.texts.items() if it < most.size}
        known |= {
            it: self._at(it) for it in (0, *self._begins(most)) if not it or it < most.size and not self.is_over()
        }
        last = [replace(most, budget=most.size)] if most.size else []
        found = sorted([*known.values(), *last], key=lambda it: it.budget)
        wanted = len(found) + POINTS
        while len(found) < wanted and (budget := between(found)) is not None and not self.is_over():
            found = sorted([*found, self._at(budget)], key=lambda it: it.budget)
        return found

    def _begins(self, advice: Advice) -> list[int]:
        """The budgets at which the first picks come in: the sizes of those that save the most a page, one after the other."""
        prices, pages = self._prices(), {it.number: it.pages for it in advice.picks}
        chosen, found = frozenset[int](), list[int]()
        while len(found) < FIRST and (left := [it for it in pages if it not in chosen]) and not self.is_over():
            costs = prices.costs(chosen, [chosen | {it} for it in left])
            now = prices.cost(chosen)
            best = max(zip(costs, left), key=lambda it: ((now - it[0]) / max(1, pages[it[1]]), -it[1]))[1]
            chosen |= {best}
            found.append(sum(pages[it] for it in chosen))
        return found

    def keep(self, budget: int, rules: str) -> None:
        """Leaves in the folder what the search under these rules printed."""
        if rules:
            self.kept.write({folder.RULES: rules, folder.RULED: self.ruled[budget, rules]})
        else:
            self.kept.clear(folder.RULES)

    def clear(self) -> None:
        """Takes away what is left of certificates."""
        self.kept.clear(*self.trials)


def refined_for(patience: float) -> str:
    """What is said where the time was up."""
    return f"{OVER} after {counted(round(patience), 'second')}: --patience SECONDS goes on longer"


def listed_in(rules: str) -> list[str]:
    """The rules of a file without its comments."""
    return [it for it in rules.splitlines() if not it.startswith("#")]
