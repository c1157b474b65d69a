"""The texts that `cophy` prints, as docs/FORMATS.md gives them, taken apart."""
from __future__ import annotations

import re
from dataclasses import dataclass, field

PAGE = 8192
_PICK = re.compile(
    r"(?:pick )?(\d{1,18}) ([A-Za-z0-9_]+)\(([A-Za-z0-9_]+(?:, [A-Za-z0-9_]+)*)\)( clustered)? (\d{1,30}) pages\Z"
)
_LEFT_OVER = re.compile(r"^left over (\d{1,18})$", re.MULTILINE)
_PRICE = re.compile(r"statement (\d{1,18}) weight (\d{1,18}) cost (\d{1,60})\Z")
_POINT = re.compile(
    r"point (\d{1,18}) budget (\d{1,60}) size (\d{1,60}) cost (\d{1,60}) bound (-?\d{1,60}) "
    r"best \d{1,60} low -?\d{1,60} nodes (\d{1,18})\Z"
)
_ADVICE = re.compile(r"^advice ([0-9]{1,18})\n", re.MULTILINE)
_CONFIG = re.compile(r"^config((?: \d{1,18})*)$", re.MULTILINE)
_FOLDED = re.compile(r"statements (\d{1,18}) folded (\d{1,18}) total (\d{1,60})\n?\Z")
_NUMBERS = {
    "budget": re.compile(r"budget (\d{1,60})\Z"),
    "size": re.compile(r"size (\d{1,60})\Z"),
    "cost": re.compile(r"cost (\d{1,60})\Z"),
    "bound": re.compile(r"bound (-?\d{1,60})\Z"),
    "gap": re.compile(r"gap (\d{1,60})\Z"),
    "total": re.compile(r"total (\d{1,60})\Z"),
}


class NoAnswer(Exception):
    """A text that isn't the one that was expected."""


@dataclass(frozen=True)
class Candidate:
    """A candidate index with its number, its table and its columns by their names in the catalogue, its pages, and whether the
    rows of its table are to lie in its order."""

    number: int
    table: str
    columns: tuple[str, ...]
    pages: int
    is_clustered: bool = False

    def shown(self) -> str:
        return f"{self.table}({', '.join(self.columns)}){' clustered' * self.is_clustered}"


@dataclass
class Advice:
    """What `advise` prints. Costs are in thousandths of a page read; sizes and the budget in pages."""

    budget: int
    picks: list[Candidate] = field(default_factory=list)
    size: int = 0
    cost: int = 0
    bound: int = 0
    gap: int = 0
    nodes: str = ""
    is_finished: bool = False


@dataclass(frozen=True)
class Price:
    """A statement's weight and its cost without the weight."""

    weight: int
    cost: int


@dataclass
class Prices:
    """What `cost` and `whatif` print: a price for each statement by its number, and their weighted sum."""

    statements: dict[int, Price]
    total: int
    size: int | None = None

    def of_call(self, times: dict[int, float]) -> float:
        """What statements cost that run so often each, by their numbers."""
        return sum(count * self.statements[at].cost for at, count in times.items() if at in self.statements)


def read_advice(text: str) -> Advice:
    """Takes the text of `advise` apart; the lines of `bench` before it are passed over."""
    advice = None
    for line in text.splitlines():
        if line.startswith("budget "):
            advice = Advice(_number("budget", line))
        elif advice is None:
            continue
        elif line.startswith("pick "):
            advice.picks.append(_candidate(line))
        elif line.startswith("nodes "):
            advice.nodes = line.removeprefix("nodes ")
        elif line in ("finished", "stopped"):
            advice.is_finished = line == "finished"
            return advice
        elif line.split(" ")[0] in ("size", "cost", "bound", "gap"):
            name = line.split(" ")[0]
            setattr(advice, name, _number(name, line))
    raise NoAnswer("this is no advice: it lacks the line 'finished' or 'stopped'")


def read_retuned(text: str) -> list[Advice]:
    """Takes the text of `retune` apart: an advice for each time that the edits ask for it."""
    first, *parts = _ADVICE.split(text)
    if first or parts[::2] != [str(it) for it in range(1, len(parts) // 2 + 1)]:
        raise NoAnswer("this is no answer of retune: its lines 'advice' aren't there in turn")
    return [read_advice(it) for it in parts[1::2]]


def read_points(text: str) -> list[Advice]:
    """Takes the text of `sweep` apart: an advice for each point, without its picks."""
    found = []
    for line in text.splitlines():
        point = _POINT.match(line)
        if point is not None:
            budget, size, cost, bound = map(int, point.groups()[1:5])
            found.append(Advice(budget, [], size, cost, bound, cost - bound, point[6], cost == bound))
        elif line in ("finished", "stopped") and found:
            return found
    raise NoAnswer("these are no points of a sweep: the line 'finished' or 'stopped' isn't there")


def read_config(certificate: str) -> list[int]:
    """The numbers of the candidates that a certificate is of."""
    found = _CONFIG.search(certificate)
    if found is None:
        raise NoAnswer("this is no certificate: it lacks the line 'config'")
    return [int(it) for it in found[1].split()]


def read_folded(text: str) -> tuple[int, int]:
    """How many statements and how many groups the text of `fold` counts."""
    found = _FOLDED.match(text)
    if found is None:
        raise NoAnswer("this is no answer of fold")
    return int(found[1]), int(found[2])


def read_candidates(text: str) -> list[Candidate]:
    """Takes the text of `candidates` apart."""
    lines = text.splitlines()
    if not lines or not lines[-1].startswith("left over "):
        raise NoAnswer("this is no list of candidates: it lacks the line 'left over'")
    return [_candidate(it) for it in lines[:-1]]


def read_left_over(text: str) -> int:
    """How many candidates the text of `candidates` counts beside those that it lists."""
    found = _LEFT_OVER.search(text)
    if found is None:
        raise NoAnswer("this is no list of candidates: it lacks the line 'left over'")
    return int(found[1])


def read_prices(text: str) -> Prices:
    """Takes the text of `cost` or `whatif` apart."""
    prices = Prices({}, -1)
    for line in text.splitlines():
        price = _PRICE.match(line)
        if price is not None:
            prices.statements[int(price[1])] = Price(int(price[2]), int(price[3]))
        elif line.startswith("size "):
            prices.size = _number("size", line)
        elif line.startswith("total "):
            prices.total = _number("total", line)
    if prices.total < 0:
        raise NoAnswer("these are no prices: the line 'total' isn't there")
    return prices


def counted(number: int, word: str) -> str:
    """A number with what it counts: `1 statement`, `2,000 statements`."""
    return f"{number:,} {word}{'s' * (number != 1)}"


UNIT = "costs are in thousandths of a sequential page read: 1,000 are 1 of EXPLAIN's"
"""What the costs that the program prints are in, where the catalogue has the rates of an export."""


def explained(cost: float) -> float:
    """A cost in the unit of PostgreSQL's EXPLAIN, where the catalogue has the rates of an export."""
    return cost / 1000


def _number(name: str, line: str) -> int:
    found = _NUMBERS[name].match(line)
    if found is None:
        raise NoAnswer(f"the line '{name}' has no number")
    return int(found[1])


def _candidate(line: str) -> Candidate:
    found = _PICK.match(line)
    if found is None:
        raise NoAnswer("a line of an index can't be read")
    return Candidate(int(found[1]), found[2], tuple(found[3].split(", ")), int(found[5]), found[4] is not None)
