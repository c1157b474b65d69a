"""Solves a printed programme for a budget by HiGHS (`scipy.optimize.milp`), as `solvers.py` calls it: FILE BUDGET SECONDS. Prints the
processor's seconds of the solver alone, and the least cost, or `-` where that wasn't shown in time."""
import os
import sys
import time

import numpy
from scipy.optimize import Bounds, LinearConstraint, milp
from scipy.sparse import csr_matrix

sys.path.insert(0, os.path.dirname(os.path.realpath(__file__)))
from printed import Part, Programme, groups, programme_of, slot_ways, useful  # noqa: E402


class Model:
    """The same programme as the LP file's: columns with costs, and rows with their least and greatest sums."""

    def __init__(self, programme: Programme, budget: int):
        self.costs: list[float] = []
        self.rows: list[tuple[float, float]] = []
        self.entries: list[tuple[int, int, float]] = []
        self.programme = programme
        self.open = sorted(useful(programme, budget))
        self.candidates = {a: self.column(programme.upkeep[a - 1]) for a in self.open}
        for q, part in enumerate(programme.parts):
            self.add_part(q, part)
        if self.open:
            self.row(-numpy.inf, budget, [(self.candidates[a], programme.sizes[a - 1]) for a in self.open])
        for group in groups(programme, self.open):
            self.row(-numpy.inf, 1, [(self.candidates[a], 1) for a in group])

    def column(self, cost: float) -> int:
        self.costs.append(cost)
        return len(self.costs) - 1

    def row(self, least: float, most: float, entries: list[tuple[int, float]]) -> None:
        self.entries += [(len(self.rows), column, factor) for column, factor in entries]
        self.rows.append((least, most))

    def add_part(self, q: int, part: Part) -> None:
        ways = [
            slot_ways(slot, f"{q}_{s}", {t.needs[s] for t in part.templates}, set(self.open))
            for s, slot in enumerate(part.slots)
        ]
        kept = [it for it in part.templates if all(ways[s].get(need) for s, need in enumerate(it.needs))]
        if not kept:
            return
        chosen = [(self.column(part.weight * it.internal), it) for it in kept]
        self.row(1, 1, [(column, 1) for column, _ in chosen])
        for s, orders in enumerate(ways):
            self.add_slot(part, s, orders, chosen)

    def add_slot(self, part: Part, s: int, orders: dict, chosen: list) -> None:
        held: dict[int, list[int]] = {}
        for order, found in sorted(orders.items()):
            users = [(column, -1.0) for column, it in chosen if it.needs[s] == order]
            if not users:
                continue
            columns = []
            for name, price in found:
                columns.append(self.column(part.weight * price))
                if candidate := int(name.rsplit("_", 1)[1]):
                    held.setdefault(candidate, []).append(columns[-1])
            self.row(0, 0, [*((column, 1.0) for column in columns), *users])
        for candidate, columns in held.items():
            self.row(-numpy.inf, 0, [*((column, 1.0) for column in columns), (self.candidates[candidate], -1.0)])

    def solve(self, seconds: float) -> tuple[float, float | None]:
        rows, columns, factors = zip(*self.entries) if self.entries else ((), (), ())
        matrix = csr_matrix((factors, (rows, columns)), shape=(len(self.rows), len(self.costs)))
        whole = numpy.zeros(len(self.costs))
        whole[list(self.candidates.values())] = 1
        limits = numpy.array(self.rows)
        begun = time.process_time()
        done = milp(
            numpy.array(self.costs) / 1000,
            integrality=whole,
            bounds=Bounds(0, 1),
            constraints=LinearConstraint(matrix, limits[:, 0], limits[:, 1]),
            options={"time_limit": seconds, "mip_rel_gap": 0},
        )
        took = time.process_time() - begun
        return took, 1000 * done.fun + self.programme.kept if done.status == 0 else None


def main() -> None:
    with open(sys.argv[1]) as file:
        programme = programme_of(file.read())
    seconds, cost = Model(programme, int(sys.argv[2])).solve(float(sys.argv[3]))
    print(f"{seconds:.4f} {'-' if cost is None else f'{cost:.0f}'}")


if __name__ == "__main__":
    main()
