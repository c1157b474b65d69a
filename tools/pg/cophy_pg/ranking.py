"""Puts the statements of a workload in the order of the cost that they have by the program, and says which ones have candidates
beyond those that it takes."""
from __future__ import annotations

import subprocess
import tempfile
from pathlib import Path

from cophy_text.answers import NoAnswer, counted, read_left_over
from cophy_text.shown import percent
from cophy_pg.program import SCRIPT, Program, ProgramFault, program_file
from cophy_pg.workload import Workload, text_of

MOST_CANDIDATES = 256
NOT_BUILT = b"the program isn't built"


def ready(program: str) -> bool:
    """Whether a program can be called at once. The script of the repository may have to build it first."""
    try:
        file = program_file(program)
        if Path(file).resolve() != SCRIPT.resolve():
            return True
        ran = subprocess.run([file, "version"], stdin=subprocess.DEVNULL, capture_output=True, check=False)
    except (ProgramFault, OSError):
        return False
    return ran.returncode == 0 and NOT_BUILT not in ran.stdout


def rank(workload: Workload, catalogue: bytes, program: str, is_ordered: bool) -> None:
    """Puts the statements by falling cost, where they aren't in such an order, and adds a remark where candidates are left
    over."""
    if not workload.statements:
        return
    try:
        with tempfile.TemporaryDirectory(prefix="cophy-rank-") as name:
            Ranking(workload, Path(name), catalogue, program).rank(is_ordered)
    except (ProgramFault, NoAnswer, OSError) as fault:
        workload.remarks.append(f"the program didn't price the statements: {fault}")


class Ranking:
    """A workload in a folder, over which the program is asked."""

    def __init__(self, workload: Workload, here: Path, catalogue: bytes, program: str) -> None:
        self.workload, self.file = workload, here / "workload.sql"
        (here / "catalogue.toml").write_bytes(catalogue)
        self.program = Program(program, str(here / "catalogue.toml"), str(self.file))

    def rank(self, is_ordered: bool) -> None:
        """Orders the statements, and looks for candidates beyond the limit."""
        self._write(len(self.workload.statements))
        prices = self.program.cost().statements
        costs = [prices[at].weight * prices[at].cost for at in range(1, len(self.workload.statements) + 1)]
        if not is_ordered:
            order = sorted(range(len(costs)), key=lambda at: -costs[at])
            self.workload.reorder(order)
            costs = [costs[at] for at in order]
            self._write(len(costs))
        left = read_left_over(self.program.text("candidates"))
        if left:
            self._tell(left, costs)

    def _write(self, count: int) -> None:
        self.file.write_bytes(text_of(self.workload.statements[:count]).encode(errors="replace"))

    def _tell(self, left: int, costs: list[int]) -> None:
        """Says which statements come after the one with the last candidate that is taken."""
        few, many = 0, len(costs)
        while many - few > 1:
            middle = (few + many) // 2
            self._write(middle)
            few, many = (few, middle) if read_left_over(self.program.text("candidates")) else (middle, many)
        share = 100 * sum(costs[few:]) / max(1, sum(costs))
        which = f"statements {few + 1} to {len(costs)}" if few + 1 < len(costs) else f"statement {len(costs)}"
        self.workload.remarks.append(
            f"the program takes {MOST_CANDIDATES} candidates; {counted(left, 'other')} of {which}, which have "
            f"{percent(share)} of the cost, {'are' if left != 1 else 'is'} left over"
        )
