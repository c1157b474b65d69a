"""Programmes as `advice_bench print` prints them, and the same programme in the LP format of solvers."""
from collections.abc import Collection, Iterator
from dataclasses import dataclass, field

Prices = list[int | None]


@dataclass
class Grant:
    candidate: int
    prices: Prices


@dataclass
class Slot:
    base: Prices
    grants: list[Grant] = field(default_factory=list)


@dataclass
class Template:
    internal: int
    needs: list[int]


@dataclass
class Part:
    statement: int
    weight: int
    slots: list[Slot] = field(default_factory=list)
    templates: list[Template] = field(default_factory=list)


@dataclass
class Programme:
    # The number of the table on which each candidate is clustered; None where it is on none.
    clustered: Prices = field(default_factory=list)
    kept: int = 0
    sizes: list[int] = field(default_factory=list)
    upkeep: list[int] = field(default_factory=list)
    parts: list[Part] = field(default_factory=list)


def prices(words: list[str]) -> Prices:
    return [None if word == "-" else int(word) for word in words]


def programme_of(text: str) -> Programme:
    """The programme of a printed text."""
    made = Programme()
    for line in text.splitlines():
        kind, *words = line.split()
        if kind == "clustered":
            made.clustered = prices(words)
        elif kind == "kept":
            made.kept = int(words[0])
        elif kind == "sizes":
            made.sizes = [int(word) for word in words]
        elif kind == "upkeep":
            made.upkeep = [int(word) for word in words]
        elif kind == "part":
            made.parts.append(Part(int(words[0]), int(words[1])))
        elif kind == "slot":
            made.parts[-1].slots.append(Slot(prices(words)))
        elif kind == "grant":
            made.parts[-1].slots[-1].grants.append(Grant(int(words[0]), prices(words[1:])))
        elif kind == "template":
            made.parts[-1].templates.append(Template(int(words[0]), [int(word) for word in words[1:]]))
        else:
            raise ValueError(f"not a line of a programme: {line!r}")
    return made


def is_cheaper(price: int | None, other: int | None) -> bool:
    return price is not None and (other is None or price < other)


def useful(programme: Programme, budget: int) -> set[int]:
    """The candidates that fit a budget and give some order of a slot for less than all that exists."""
    found = set()
    for part in programme.parts:
        for slot in part.slots:
            for grant in slot.grants:
                if any(is_cheaper(*pair) for pair in zip(grant.prices, slot.base)):
                    found.add(grant.candidate)
    return {number for number in found if programme.sizes[number - 1] <= budget}


def groups(programme: Programme, of: Collection[int]) -> list[list[int]]:
    """Of some candidates those that are clustered, table by table, where there are more than one."""
    found: dict[int, list[int]] = {}
    for number in sorted(of):
        table = programme.clustered[number - 1]
        if table is not None:
            found.setdefault(table, []).append(number)
    return [numbers for _, numbers in sorted(found.items()) if len(numbers) > 1]


def cost(programme: Programme, chosen: set[int]) -> int:
    """What the workload costs under a configuration, in thousandths of a page read."""
    total = programme.kept + sum(programme.upkeep[number - 1] for number in chosen)
    for part in programme.parts:
        rows = []
        for slot in part.slots:
            lists = [slot.base, *(grant.prices for grant in slot.grants if grant.candidate in chosen)]
            rows.append([min((it for it in column if it is not None), default=None) for column in zip(*lists)])
        costs = []
        for template in part.templates:
            needed = [row[need] for row, need in zip(rows, template.needs)]
            if None not in needed:
                costs.append(template.internal + sum(needed))
        total += part.weight * min(costs, default=0)
    return total


def sum_lines(terms: list[str]) -> Iterator[str]:
    """Terms, some to a line, since readers of the format want short lines."""
    for at in range(0, len(terms), 8):
        yield " " + " ".join(terms[at : at + 8])


def lp_text(programme: Programme, budget: int) -> str:
    """The programme for a budget in the LP format, in pages read of a thousand units each.

    CoPhy's: one template of each statement, at each slot one way to read it among those that give the order that the
    template needs, a way through a candidate only where the candidate is chosen, and the chosen ones within the budget,
    of those that are clustered on one table one at most.
    Ways of a slot are kept by order and not by template, and all that use one candidate at one slot are held by it
    together, which is as strong a form as there is of this programme. Ways that cost no less than what exists are left
    out. Only the candidates have to be whole.
    """
    open_ = sorted(useful(programme, budget))
    costs: list[str] = []
    rows: list[str] = []
    for q, part in enumerate(programme.parts):
        part_rows(programme, part, q, set(open_), costs, rows)
    constant = programme.kept
    costs += [f"+ {programme.upkeep[a - 1]} z{a}" for a in open_ if programme.upkeep[a - 1]]
    lines = ["Minimize", " obj:", *sum_lines([f"+ {constant} one", *costs]), "Subject To", " c_one: one = 1", *rows]
    if open_:
        lines += [" budget:", *sum_lines([f"+ {programme.sizes[a - 1]} z{a}" for a in open_]), f" <= {budget}"]
    for number, group in enumerate(groups(programme, open_)):
        lines += [f" clustered{number}:", *sum_lines([f"+ 1 z{a}" for a in group]), " <= 1"]
    lines += ["Binary" if open_ else "", *sum_lines([f"z{a}" for a in open_]), "End", ""]
    return "\n".join(lines)


def part_rows(programme: Programme, part: Part, q: int, open_: set[int], costs: list[str], rows: list[str]) -> None:
    """Appends the terms of a part to the objective, and its constraints."""
    ways: list[dict[int, list[tuple[str, int]]]] = []
    for s, slot in enumerate(part.slots):
        ways.append(slot_ways(slot, f"{q}_{s}", {t.needs[s] for t in part.templates}, open_))
    kept = [(t, it) for t, it in enumerate(part.templates) if all(ways[s].get(need) for s, need in enumerate(it.needs))]
    if not kept:
        return
    costs += [f"+ {part.weight * it.internal} y{q}_{t}" for t, it in kept]
    rows += [f" t{q}:", *sum_lines([f"+ 1 y{q}_{t}" for t, _ in kept]), " = 1"]
    for s, orders in enumerate(ways):
        held: dict[int, list[str]] = {}
        for order, found in sorted(orders.items()):
            users = [f"- 1 y{q}_{t}" for t, it in kept if it.needs[s] == order]
            if not users:
                continue
            costs += [f"+ {part.weight * price} {name}" for name, price in found]
            rows += [f" s{q}_{s}_{order}:", *sum_lines([f"+ 1 {name}" for name, _ in found] + users), " = 0"]
            for name, _ in found:
                candidate = int(name.rsplit("_", 1)[1])
                if candidate:
                    held.setdefault(candidate, []).append(f"+ 1 {name}")
        for candidate, names in held.items():
            rows += [f" h{q}_{s}_{candidate}:", *sum_lines([*names, f"- 1 z{candidate}"]), " <= 0"]


def slot_ways(slot: Slot, name: str, orders: set[int], open_: set[int]) -> dict[int, list[tuple[str, int]]]:
    """For each order that is needed, the ways to have it: variables that end in the candidate, or 0, with their prices."""
    found: dict[int, list[tuple[str, int]]] = {}
    for order in orders:
        base = slot.base[order]
        ways = [] if base is None else [(f"x{name}_{order}_0", base)]
        for grant in slot.grants:
            price = grant.prices[order]
            if grant.candidate in open_ and price is not None and is_cheaper(price, base):
                ways.append((f"x{name}_{order}_{grant.candidate}", price))
        found[order] = ways
    return found
