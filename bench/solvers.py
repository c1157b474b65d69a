"""Open solvers of such programmes, where they are installed: Debian's `coinor-cbc`, `glpk-utils`, and HiGHS in
`python3-scipy`."""
import os
import re
import shutil
import subprocess
import sys
from collections.abc import Callable
from contextlib import suppress
from dataclasses import dataclass

from measure import run_once

# Longer than this no solver is waited for.
MOST_SECONDS = 60
# What takes fewer seconds is run so often, and the least time counts: that of one run is noise to a large part.
SHORT_SECONDS = 0.02
REPEATS = 15


@dataclass
class Solved:
    """The processor's seconds of a run less those of one that only reads the file, the least of several of each where that is
    short, and the objective, which is None where the solver didn't show that it is least."""

    seconds: float
    cost: float | None


def run(words: list[str]) -> tuple[float, str]:
    """The processor's seconds that a command took, and what it printed."""
    done = run_once(words)
    return done.processor, done.output.decode(errors="replace")


def beside(reading: list[str], solving: list[str]) -> tuple[float, str]:
    """The processor's seconds of a command less those of one that only reads, and what it printed."""
    read, _ = run(reading)
    whole, text = run(solving)
    if whole - read < SHORT_SECONDS:
        read = min(read, *(run(reading)[0] for _ in range(1, REPEATS)))
        whole = min(whole, *(run(solving)[0] for _ in range(1, REPEATS)))
    return max(0.0, whole - read), text


def optimal(pattern: str, text: str) -> float | None:
    found = re.search(pattern, text, re.S)
    return float(found.group(1)) if found else None


def cbc(file: str, most: float = MOST_SECONDS) -> Solved:
    solve = ["ratioGap", "0", "allowableGap", "0", "seconds", str(int(most)), "solve", "quit"]
    seconds, text = beside(["cbc", file, "quit"], ["cbc", file, *solve])
    cost = optimal(r"Result - Optimal solution found.*?Objective value:\s+(\S+)", text)
    return Solved(seconds, cost)


def glpk(file: str, most: float = MOST_SECONDS) -> Solved:
    out = f"{file}.glpk"
    with suppress(FileNotFoundError):
        os.remove(out)
    solve = ["glpsol", "--lp", file, "--cuts", "--tmlim", str(int(most)), "-o", out]
    seconds, _ = beside(["glpsol", "--lp", file, "--check"], solve)
    if not os.path.exists(out):
        # It was stopped before it wrote.
        return Solved(seconds, None)
    with open(out) as text:
        cost = optimal(r"Status:\s+(?:INTEGER )?OPTIMAL.*?Objective:\s+obj = (\S+)", text.read())
    return Solved(seconds, cost)


def python_with_scipy() -> list[str] | None:
    """A call of a Python that has scipy: of this one, or of the system's."""
    for python in ([sys.executable, "-IB"], ["/usr/bin/python3", "-IB"]):
        if subprocess.run([*python, "-c", "import scipy.optimize"], capture_output=True).returncode == 0:
            return python
    return None


class Highs:
    """HiGHS, whose time is that of the solver alone."""

    def __init__(self, python: list[str]):
        self.python = python

    def solve(self, file: str, budget: int, most: float = MOST_SECONDS) -> Solved:
        """Solves the programme of a file, as it was printed, for a budget."""
        script = os.path.join(os.path.dirname(os.path.realpath(__file__)), "highs.py")
        words = [*self.python, script, file, str(budget), str(most)]
        found = [subprocess.run(words, capture_output=True, text=True, check=True).stdout.split()]
        for _ in range(REPEATS - 1 if float(found[0][0]) < SHORT_SECONDS else 0):
            found.append(subprocess.run(words, capture_output=True, text=True, check=True).stdout.split())
        cost = found[0][1]
        return Solved(min(float(it[0]) for it in found), None if cost == "-" else float(cost))


def installed() -> dict[str, Callable[[str, float], Solved]]:
    """The solvers of LP files that are here, by name."""
    return {name: call for name, word, call in (("cbc", "cbc", cbc), ("glpk", "glpsol", glpk)) if shutil.which(word)}
