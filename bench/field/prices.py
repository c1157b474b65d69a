"""The prices of a workload under sets of its candidates, with what the program says of these."""
from __future__ import annotations

import re
import tempfile
from collections.abc import Iterable

from cophy_text.answers import read_advice
from cophy_pg.pricing import Chosen, Pricing
from cophy_pg.program import Program

_PLAN = re.compile(r"^ *candidate (\d+) on ", re.M)


class Prices(Pricing):
    """Prices over files, the candidates by the sizes of the model."""

    def __init__(self, program: str, catalogue: str, workload: str) -> None:
        super().__init__(Program(program, catalogue, workload))

    def pages(self, chosen: Iterable[int]) -> int:
        """The pages of a set."""
        return sum(self.candidates[it].pages for it in chosen)

    def taken(self, number: int) -> Chosen:
        """The candidates that a statement's plan takes where all are there."""
        self.calls += 1
        with tempfile.NamedTemporaryFile("w") as file:
            file.write("".join(f"{it}\n" for it in self.candidates))
            file.flush()
            return frozenset(map(int, _PLAN.findall(self.program.text("explain", file.name, str(number)))))

    def advice(self, budget: int) -> tuple[int, int]:
        """The cost of `cophy advise`, and its bound."""
        self.calls += 1
        found = read_advice(self.program.text("advise", str(budget)))
        return found.cost, found.bound
